//! The rules of document 01 in plain Rust, written to be fast, for comparison with the proved library.
pub mod rust;
