//! What is measured. Both sides get the same bytes and the same buffers; buffers are touched before the first pass and
//! not cleared between passes. A list of runs is set anew for each reading.
use baxoodhiir_bench::rust::{server, tablet};
use std::hint::black_box;

#[derive(Clone, Copy)]
pub enum Side {
    Rattle,
    Rust,
    /// Rust that checks its records at every piece; of an answer and of a request the same as `Rust`.
    Checked,
    Memcpy,
}

impl Side {
    pub fn named(name: &str) -> Option<Side> {
        match name {
            "rattle" => Some(Side::Rattle),
            "rust" => Some(Side::Rust),
            "checked" => Some(Side::Checked),
            "memcpy" => Some(Side::Memcpy),
            _ => None,
        }
    }
}

const TAG: &[u8] = b"\"key-7\"";
const MEDIA: &[u8] = b"text/plain";
const BOUNDARY: &[u8] = b"ROWS_OF_THE_ANSWER_KEY";
const MIB: usize = 1 << 20;
/// The second that the dates in If-Range name, and the reference time.
const MODIFIED: i64 = 784_111_777;
const REFERENCE: i64 = 1_763_391_600;

/// One measured thing.
pub struct Case {
    pub name: &'static str,
    /// Bytes read or written in one pass.
    pub bytes: usize,
    work: Work,
    from: Vec<u8>,
    to: Vec<u8>,
}

enum Work {
    /// By the tag in If-Range, or by a date there and a Last-Modified.
    Answer {
        range: Option<Vec<u8>>,
        date: Option<&'static [u8]>,
        file: Vec<u8>,
        out: Vec<u8>,
        wanted: usize,
    },
    Read {
        times: usize,
        length: usize,
        before: Vec<u8>,
        runs: Vec<u8>,
        buffer: Vec<u8>,
        answer: Vec<u8>,
        piece: usize,
    },
    Request {
        times: usize,
        length: usize,
        runs: Vec<u8>,
        out: Vec<u8>,
        wanted: usize,
    },
}

impl Case {
    /// Whether the answer is read, so that records are checked.
    pub fn reads(&self) -> bool {
        matches!(self.work, Work::Read { .. })
    }

    fn new(name: &'static str, bytes: usize, work: Work) -> Case {
        let mut case = Case { name, bytes, work, from: vec![1; bytes], to: vec![2; bytes] };
        case.run(Side::Rattle);
        case.run(Side::Rust);
        case
    }

    /// One pass of one side.
    pub fn run(&mut self, side: Side) {
        match (&mut self.work, side) {
            (_, Side::Memcpy) => black_box(&mut self.to[..]).copy_from_slice(black_box(&self.from)),
            (Work::Answer { range, date, file, out, wanted }, side) => {
                assert_eq!(answer(side, range.as_deref(), *date, file, out), *wanted);
            }
            (Work::Read { times, length, before, runs, buffer, answer, piece }, side) => {
                for _ in 0..*times {
                    runs.copy_from_slice(before);
                    assert!(read(side, *length, runs, buffer, answer, *piece));
                }
            }
            (Work::Request { times, length, runs, out, wanted }, side) => {
                for _ in 0..*times {
                    assert_eq!(request(side, *length, runs, out), *wanted);
                }
            }
        }
    }
}

/// The length of the answer that one side writes.
fn answer(side: Side, range: Option<&[u8]>, date: Option<&[u8]>, file: &[u8], out: &mut [u8]) -> usize {
    let (method, if_range, boundary, reference) = (b"GET", date.or(Some(TAG)), BOUNDARY, REFERENCE);
    if let Side::Rattle = side {
        let asked = baxoodhiir::Asked {
            method,
            range,
            if_range,
            file,
            tag: TAG,
            media: MEDIA,
            boundary,
            modified: date.map(|_| baxoodhiir::LastModified { seconds: MODIFIED, strong: true }),
            reference,
        };
        return baxoodhiir::answer(black_box(&asked), black_box(out)).expect("an answer").written;
    }
    let modified = date.map(|_| server::LastModified { seconds: MODIFIED, strong: true });
    let asked = server::Asked { method, range, if_range, file, tag: TAG, media: MEDIA, boundary, modified, reference };
    server::answer(black_box(&asked), black_box(out)).expect("an answer").written
}

/// Whether one side takes the whole answer and finishes.
fn read(side: Side, length: usize, runs: &mut [u8], buffer: &mut [u8], answer: &[u8], piece: usize) -> bool {
    if let Side::Rattle = side {
        let result = baxoodhiir::read(TAG, length, runs, buffer, black_box(answer), piece);
        return result == (answer.len(), baxoodhiir::Report::Finished);
    }
    let read = if let Side::Checked = side { tablet::read_checked } else { tablet::read };
    let result = read(TAG, length as u64, runs, buffer, black_box(answer), piece);
    result == (answer.len(), tablet::Report::Finished)
}

/// The length of the request that one side writes.
fn request(side: Side, length: usize, runs: &[u8], out: &mut [u8]) -> usize {
    if let Side::Rattle = side {
        return baxoodhiir::request(TAG, length, black_box(runs), black_box(out)).expect("a request");
    }
    tablet::request(TAG, length as u64, black_box(runs), black_box(out)).expect("a request")
}

/// Bytes that look like a table of text: no CR, a line feed at times.
fn file(length: usize) -> Vec<u8> {
    (0..length).map(|at| if at % 61 == 60 { b'\n' } else { b'a' + ((at * 7 + at / 61) % 26) as u8 }).collect()
}

fn served(range: Option<&[u8]>, file: &[u8]) -> Vec<u8> {
    let mut out = vec![0; file.len() + 10_000];
    let written = answer(Side::Rust, range, None, file, &mut out);
    out.truncate(written);
    out
}

/// Writing the answer to a Range; `bytes` is the answer's length.
fn answer_case(name: &'static str, range: Option<Vec<u8>>, length: usize) -> Case {
    let file = file(length);
    let wanted = served(range.as_deref(), &file).len();
    Case::new(name, wanted, Work::Answer { range, date: None, out: vec![0; length + 10_000], file, wanted })
}

/// The same for one spec of a file of 1,000 bytes, by a date in If-Range and with a Last-Modified line.
fn dated_case(name: &'static str, date: &'static [u8]) -> Case {
    let (range, file, mut out) = (specs(1, 60, 1), file(1000), vec![0; 10_000]);
    let wanted = answer(Side::Rust, Some(&range), Some(date), &file, &mut out);
    Case::new(name, wanted, Work::Answer { range: Some(range), date: Some(date), out, file, wanted })
}

/// The list of runs.
fn list_of(held: &[(usize, usize)]) -> Vec<u8> {
    let mut list = vec![0; tablet::RECORD_SIZE];
    let numbers = held.iter().flat_map(|run| [run.0, run.1]);
    for (place, number) in list.chunks_exact_mut(8).zip([held.len()].into_iter().chain(numbers)) {
        place.copy_from_slice(&(number as u64).to_be_bytes());
    }
    list
}

/// Writing the request of a copy of a MiB that holds these runs; `bytes` is the request's length, `times` over.
fn request_case(name: &'static str, times: usize, held: &[(usize, usize)]) -> Case {
    let (runs, mut out) = (list_of(held), vec![0; 4096]);
    let wanted = request(Side::Rust, MIB, &runs, &mut out);
    Case::new(name, times * wanted, Work::Request { times, length: MIB, runs, out, wanted })
}

/// Reading an answer into a copy that holds these runs; `bytes` is the answer's length, `times` over.
fn read_case(
    name: &'static str,
    times: usize,
    length: usize,
    held: &[(usize, usize)],
    answer: Vec<u8>,
    piece: usize,
) -> Case {
    let before = list_of(held);
    let bytes = times * answer.len();
    let (runs, buffer) = (before.clone(), file(length));
    Case::new(name, bytes, Work::Read { times, length, before, runs, buffer, answer, piece })
}

/// `count` specs of `width` positions, `step` apart, with 40 zeros before each number.
fn specs(count: usize, step: usize, width: usize) -> Vec<u8> {
    padded_specs(40, count, step, width)
}

/// With so many zeros that 64 specs fit a Range.
fn sixty_four_specs(step: usize, width: usize) -> Vec<u8> {
    padded_specs(20, 64, step, width)
}

fn padded_specs(zeros: usize, count: usize, step: usize, width: usize) -> Vec<u8> {
    let zeros = "0".repeat(zeros);
    let spec = |at: usize| format!("{zeros}{}-{zeros}{}", at * step, at * step + width - 1);
    format!("bytes={}", (0..count).map(spec).collect::<Vec<_>>().join(",")).into_bytes()
}

/// The answer 200 of a file of one byte with a head of 2,048 bytes.
fn long_head() -> Vec<u8> {
    let mut head =
        [b"HTTP/1.1 200 OK\r\nETag: ", TAG, b"\r\nContent-Type: text/plain\r\nContent-Length: 1\r\n"].concat();
    let mut at = 0;
    while head.len() < 2048 - 100 {
        head.extend(
            format!("X-Workshop-Field-{at}: value {at} of a field that does not count, as servers send\r\n").bytes(),
        );
        at += 1;
    }
    head.extend(b"X-Fill: ");
    head.resize(2048 - 4, b'f');
    head.extend(b"\r\n\r\na");
    head
}

/// A Range of 16 parts that are all but 16 bytes of a MiB.
fn sixteen() -> Vec<u8> {
    specs(16, MIB / 16, MIB / 16 - 1)
}

fn plain_case(name: &'static str, held: &[(usize, usize)], piece: usize) -> Case {
    read_case(name, 1, MIB, held, served(None, &file(MIB)), piece)
}

fn parts_case(name: &'static str, piece: usize) -> Case {
    read_case(name, 1, MIB, &[], served(Some(&sixteen()), &file(MIB)), piece)
}

/// A plain 206 that fills the hole between two runs.
fn hole_case(name: &'static str, piece: usize) -> Case {
    read_case(name, 1, MIB, &[(0, 99), (900_100, MIB - 1)], served(Some(b"bytes=100-900099"), &file(MIB)), piece)
}

/// 64 runs at the front, of which the last ends before position 500,000, and 64 behind position 700,000.
fn many_runs() -> Vec<(usize, usize)> {
    let single = |at: usize| (at, at);
    let front = (0..63).map(|k| single(2 * k)).chain([(499_000, 499_999)]);
    front.chain((0..64).map(|k| single(700_000 + 2 * k))).collect()
}

/// The plain 206 of `count` bytes from position 500,000 on, which touch a run where there are `many_runs`.
fn touching(count: usize) -> Vec<u8> {
    served(Some(format!("bytes=500000-{}", 499_999 + count).as_bytes()), &file(MIB))
}

fn touching_case(name: &'static str, times: usize, held: &[(usize, usize)], count: usize, piece: usize) -> Case {
    read_case(name, times, MIB, held, touching(count), piece)
}

/// What makes each case.
pub const CASES: &[fn() -> Case] = &[
    || answer_case("answer, Range of 1 spec, file of 1,000 bytes", Some(specs(1, 60, 1)), 1000),
    || dated_case("answer, 1 spec by an IMF-fixdate", b"Sun, 06 Nov 1994 08:49:37 GMT"),
    || dated_case("answer, 1 spec by an rfc850-date", b"Sunday, 06-Nov-94 08:49:37 GMT"),
    || answer_case("answer, Range of 16 specs, file of 1,000 bytes", Some(specs(16, 60, 1)), 1000),
    || answer_case("answer, Range of 16 specs in one run, file of 1,000 bytes", Some(specs(16, 1, 2)), 1000),
    || answer_case("answer, Range of 64 specs, file of 4,000 bytes", Some(sixty_four_specs(60, 1)), 4000),
    || answer_case("answer, Range of 64 specs in one run, file of 1,000 bytes", Some(sixty_four_specs(1, 2)), 1000),
    || answer_case("answer, plain 206 of 1 MiB", Some(b"bytes=0-".to_vec()), MIB),
    || answer_case("answer, 16 parts of 1 MiB", Some(sixteen()), MIB),
    || answer_case("answer, 64 parts of 1 MiB", Some(sixty_four_specs(MIB / 64, MIB / 64 - 1)), MIB),
    || request_case("request of 64 holes, 1,000 times, copy with 64 runs", 1000, &many_runs()[..64]),
    || request_case("request of 64 holes, 1,000 times, copy with 128 runs", 1000, &many_runs()),
    || read_case("read, 1,000 heads of 2 KiB", 1000, 1, &[], long_head(), 0),
    || plain_case("read, 1 MiB plain, one piece", &[], 0),
    || plain_case("read, 1 MiB plain, pieces of 1,460", &[], 1460),
    || plain_case("read, 1 MiB plain, single bytes", &[], 1),
    || plain_case("read, 1 MiB plain, one piece, all held", &[(0, MIB - 1)], 0),
    || parts_case("read, 1 MiB in 16 parts, one piece", 0),
    || parts_case("read, 1 MiB in 16 parts, pieces of 1,460", 1460),
    || hole_case("read, a hole of 900,000 bytes, pieces of 1,460", 1460),
    || touching_case("read, 100,000 bytes, no runs, pieces of 16", 1, &[], 100_000, 16),
    || touching_case("read, 100,000 bytes, 128 runs, pieces of 16", 1, &many_runs(), 100_000, 16),
    || touching_case("read, 100,000 bytes, no runs, pieces of 1,460", 1, &[], 100_000, 1460),
    || touching_case("read, 100,000 bytes, 128 runs, pieces of 1,460", 1, &many_runs(), 100_000, 1460),
    || touching_case("read, 1,000 answers of 16 bytes, no runs", 1000, &[], 16, 0),
    || touching_case("read, 1,000 answers of 16 bytes, 128 runs", 1000, &many_runs(), 16, 0),
    || touching_case("read, 1,000 answers of 1,460 bytes, no runs", 1000, &[], 1460, 0),
    || touching_case("read, 1,000 answers of 1,460 bytes, 128 runs", 1000, &many_runs(), 1460, 0),
];
