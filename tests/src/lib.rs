//! A plain model of document 01 and of requests 2026-01, 2026-02 and 2026-04, written from their texts alone: slow, byte by byte, positions as `Vec<bool>`.
//! Beside it the vectors and the generators of random cases.
pub mod bytes;
pub mod cases;
pub mod dates;
pub mod random;
pub mod saved;
pub mod server;
pub mod tablet;
pub mod vectors;
