//! The stored cases, which tests/pack packs for the program `vectors`. One case a line; left of ` = ` the input, right of it
//! what the documents give. Byte strings are hex, `.` is an empty one, `-` an absent one. The records of cases/records.txt
//! cannot cross the border to C, and are not read here.
//! - Server: method range if-range file tag type boundary output-length = `refuse N` or `answer STATUS REASON BYTES`. With times:
//!   behind the boundary the Last-Modified, `strong` or `weak`, and the reference time; without them none, weak and 0.
//! - Date: value reference-time = `second N` or `invalid`. Times are seconds since 1970.
//! - Request: tag length runs output-length = `refuse N` or `request BYTES`. Runs are `first-last,..` or `.`.
//! - Reader: tag length runs buffer pieces = `taken:report;..` (one for each piece) runs buffer complete|incomplete, or
//!   broken where the record breaks its rule. Pieces are parted by `;`.
//! - Saving: `save` tag length runs output-length = `refuse N` or `saved BYTES`.
//! - Loading: `load`, then tag, length and runs of the copy in the caller's hands, and the file = `refuse N` or `loaded` tag length
//!   runs; behind it complete, incomplete or broken, of the copy that the caller then has. What is loaded is saved again as the
//!   file's bytes with the version 2.
use crate::saved::State;
use crate::server::{Answer, Asked, LastModified, Reason};
use crate::tablet::{Copy, Report};

pub struct ServerCase {
    pub place: String,
    pub asked: Asked,
    pub answer: Answer,
}

pub struct DateCase {
    pub place: String,
    pub value: Vec<u8>,
    pub reference: i64,
    /// None: no valid date.
    pub second: Option<i64>,
}

pub struct RequestCase {
    pub place: String,
    pub tag: Vec<u8>,
    pub length: u64,
    pub runs: Vec<(u64, u64)>,
    pub room: usize,
    pub request: Result<Vec<u8>, usize>,
}

pub struct ReaderCase {
    pub place: String,
    pub before: Copy,
    pub pieces: Vec<Vec<u8>>,
    pub reports: Vec<(usize, Report)>,
    pub after: Copy,
    /// None: the record breaks its rule.
    pub complete: Option<bool>,
}

pub struct SaveCase {
    pub place: String,
    pub state: State,
    pub room: usize,
    pub saved: Result<Vec<u8>, usize>,
}

pub struct LoadCase {
    pub place: String,
    pub before: State,
    pub file: Vec<u8>,
    pub loaded: Result<State, usize>,
    /// Of what the caller then has. None: the record breaks its rule.
    pub complete: Option<bool>,
}

/// Bytes in hex; `.` is an empty string.
fn bytes(text: &str) -> Vec<u8> {
    if text == "." {
        return vec![];
    }
    let digits: Vec<u32> = text.chars().map(|digit| digit.to_digit(16).unwrap()).collect();
    assert!(digits.len().is_multiple_of(2));
    digits.chunks(2).map(|pair| (pair[0] * 16 + pair[1]) as u8).collect()
}

/// Bytes in hex; an empty string is `.`.
pub fn hex(bytes: &[u8]) -> String {
    if bytes.is_empty() {
        return ".".to_string();
    }
    bytes.iter().map(|b| format!("{b:02x}")).collect()
}

fn optional_bytes(text: &str) -> Option<Vec<u8>> {
    (text != "-").then(|| bytes(text))
}

fn runs(text: &str) -> Vec<(u64, u64)> {
    if text == "." {
        return vec![];
    }
    let run = |text: &str| {
        let (first, last) = text.split_once('-').unwrap();
        (first.parse().unwrap(), last.parse().unwrap())
    };
    text.split(',').map(run).collect()
}

fn reason(text: &str) -> Reason {
    match text {
        "HEAD" => Reason::Head,
        "NONE" => Reason::None,
        "LONG" => Reason::Long,
        "UNIT" => Reason::Unit,
        "MALFORMED" => Reason::Malformed,
        "MANY" => Reason::Many,
        "CHANGED_FILE" => Reason::ChangedFile,
        "INVALID" => Reason::Invalid,
        "UNSATISFIABLE" => Reason::Unsatisfiable,
        "EMPTY" => Reason::Empty,
        "PARTIAL" => Reason::Partial,
        other => panic!("no reason {other}"),
    }
}

fn report(text: &str) -> Report {
    match text {
        "more" => Report::More,
        "finished" => Report::Finished,
        number => Report::Refused(number.parse().unwrap()),
    }
}

fn complete(text: &str) -> Option<bool> {
    match text {
        "complete" => Some(true),
        "incomplete" => Some(false),
        "broken" => None,
        other => panic!("no answer {other}"),
    }
}

fn reason_name(reason: Reason) -> &'static str {
    const NAMES: [&str; 11] = [
        "HEAD",
        "NONE",
        "LONG",
        "UNIT",
        "MALFORMED",
        "MANY",
        "CHANGED_FILE",
        "INVALID",
        "UNSATISFIABLE",
        "EMPTY",
        "PARTIAL",
    ];
    NAMES[reason as usize - 1]
}

/// A case's left side.
pub fn server_line(asked: &Asked) -> String {
    let optional = |bytes: &Option<Vec<u8>>| bytes.as_ref().map_or("-".to_string(), |bytes| hex(bytes));
    let values = [
        hex(&asked.method),
        optional(&asked.range),
        optional(&asked.if_range),
        hex(&asked.file),
        hex(&asked.tag),
        hex(&asked.media),
        hex(&asked.boundary),
        asked.modified.map_or("-".to_string(), |modified| modified.seconds.to_string()),
        if asked.modified.is_some_and(|modified| modified.strong) { "strong" } else { "weak" }.to_string(),
        asked.reference.to_string(),
        asked.room.to_string(),
    ];
    values.join(" ")
}

/// A case's right side.
pub fn answer_line(answer: &Answer) -> String {
    match answer {
        Answer::Refused(number) => format!("refuse {number}"),
        Answer::Written { status, reason, bytes } => {
            format!("answer {status} {} {}", reason_name(*reason), hex(bytes))
        }
    }
}

pub fn runs_line(runs: &[(u64, u64)]) -> String {
    if runs.is_empty() {
        return ".".to_string();
    }
    runs.iter().map(|(first, last)| format!("{first}-{last}")).collect::<Vec<_>>().join(",")
}

/// Pieces.
pub fn pieces_line(pieces: &[Vec<u8>]) -> String {
    pieces.iter().map(|piece| hex(piece)).collect::<Vec<_>>().join(";")
}

/// What was taken and reported for each piece.
pub fn reports_line(reports: &[(usize, Report)]) -> String {
    let text = |(taken, report): &(usize, Report)| match report {
        Report::More => format!("{taken}:more"),
        Report::Finished => format!("{taken}:finished"),
        Report::Refused(number) => format!("{taken}:{number}"),
    };
    reports.iter().map(text).collect::<Vec<_>>().join(";")
}

/// A case's place and its words left and right of ` = `.
type Words<'a> = (String, Vec<&'a str>, Vec<&'a str>);

/// The cases in a file that have one of these counts of words on the left.
fn read<T>(file: &str, counts: &[usize], case: impl Fn(Words) -> T) -> Vec<T> {
    let path = concat!(env!("CARGO_MANIFEST_DIR"), "/").to_string() + file;
    let text = std::fs::read_to_string(&path).unwrap_or_else(|error| panic!("{path}: {error}"));
    let lines = text.lines().enumerate().filter(|(_, line)| !line.is_empty() && !line.starts_with('#'));
    let words = |(at, line): (usize, &'_ str)| {
        let (left, right) = line.split_once(" = ").unwrap();
        let left: Vec<_> = left.split(' ').collect();
        counts
            .contains(&left.len())
            .then(|| case((format!("{file} line {}", at + 1), left, right.split(' ').collect())))
    };
    lines.filter_map(words).collect()
}

pub const SERVER: &str = "cases/server.txt";
pub const SERVER_EDGES: &str = "cases/server-edges.txt";
pub const DATES: &str = "cases/dates.txt";
pub const ZEROS: &str = "cases/zeros.txt";
pub const REQUEST: &str = "cases/request.txt";
pub const READER: &str = "cases/reader.txt";
pub const READER_PARTS: &str = "cases/reader-parts.txt";
pub const HEAD_EDGES: &str = "cases/head-edges.txt";
pub const TABLET_EDGES: &str = "cases/tablet-edges.txt";
pub const SAVED: &str = "cases/saved.txt";
pub const SAVED_EDGES: &str = "cases/saved-edges.txt";
pub const COUNTS: &str = "cases/counts.txt";

/// The vectors and the edges.
pub fn all_server_cases() -> impl Iterator<Item = ServerCase> {
    [SERVER, SERVER_EDGES, DATES, ZEROS, COUNTS].into_iter().flat_map(server_cases)
}

pub fn all_request_cases() -> impl Iterator<Item = RequestCase> {
    [REQUEST, TABLET_EDGES, COUNTS].into_iter().flat_map(request_cases)
}

pub fn all_reader_cases() -> impl Iterator<Item = ReaderCase> {
    [READER, READER_PARTS, HEAD_EDGES, TABLET_EDGES, COUNTS].into_iter().flat_map(reader_cases)
}

pub fn all_save_cases() -> impl Iterator<Item = SaveCase> {
    [SAVED, COUNTS].into_iter().flat_map(save_cases)
}

pub fn all_load_cases() -> impl Iterator<Item = LoadCase> {
    [SAVED, SAVED_EDGES, COUNTS].into_iter().flat_map(load_cases)
}

/// The Last-Modified and the reference time.
fn times(words: &[&str]) -> (Option<LastModified>, i64) {
    let [modified, strong, reference] = words else { return (None, 0) };
    let strong = match *strong {
        "strong" => true,
        "weak" => false,
        other => panic!("neither strong nor weak: {other}"),
    };
    let modified = (*modified != "-").then(|| LastModified { seconds: modified.parse().unwrap(), strong });
    (modified, reference.parse().unwrap())
}

/// Those without times and those with them.
pub fn server_cases(file: &str) -> Vec<ServerCase> {
    let case = |(place, left, right): Words| {
        let (modified, reference) = times(&left[7..left.len() - 1]);
        let asked = Asked {
            method: bytes(left[0]),
            range: optional_bytes(left[1]),
            if_range: optional_bytes(left[2]),
            file: bytes(left[3]),
            tag: bytes(left[4]),
            media: bytes(left[5]),
            boundary: bytes(left[6]),
            modified,
            reference,
            room: left[left.len() - 1].parse().unwrap(),
        };
        let answer = match right[0] {
            "refuse" => Answer::Refused(right[1].parse().unwrap()),
            "answer" => {
                Answer::Written { status: right[1].parse().unwrap(), reason: reason(right[2]), bytes: bytes(right[3]) }
            }
            other => panic!("no answer {other}"),
        };
        ServerCase { place, asked, answer }
    };
    read(file, &[8, 11], case)
}

pub fn date_cases(file: &str) -> Vec<DateCase> {
    let case = |(place, left, right): Words| DateCase {
        place,
        value: bytes(left[0]),
        reference: left[1].parse().unwrap(),
        second: match right[0] {
            "second" => Some(right[1].parse().unwrap()),
            "invalid" => None,
            other => panic!("no date {other}"),
        },
    };
    read(file, &[2], case)
}

pub fn request_cases(file: &str) -> Vec<RequestCase> {
    let case = |(place, left, right): Words| RequestCase {
        place,
        tag: bytes(left[0]),
        length: left[1].parse().unwrap(),
        runs: runs(left[2]),
        room: left[3].parse().unwrap(),
        request: match right[0] {
            "refuse" => Err(right[1].parse().unwrap()),
            "request" => Ok(bytes(right[1])),
            other => panic!("no answer {other}"),
        },
    };
    read(file, &[4], case)
}

fn state(words: &[&str]) -> State {
    State { tag: bytes(words[0]), length: words[1].parse().unwrap(), runs: runs(words[2]) }
}

pub fn save_cases(file: &str) -> Vec<SaveCase> {
    let case = |(place, left, right): Words| {
        let saved = match right[0] {
            "refuse" => Err(right[1].parse().unwrap()),
            "saved" => Ok(bytes(right[1])),
            other => panic!("no answer {other}"),
        };
        SaveCase { place, state: state(&left[1..]), room: left[4].parse().unwrap(), saved }
    };
    read(file, &[5], |words| (words.1[0] == "save").then(|| case(words))).into_iter().flatten().collect()
}

pub fn load_cases(file: &str) -> Vec<LoadCase> {
    let case = |(place, left, right): Words| {
        let loaded = match right[0] {
            "refuse" => Err(right[1].parse().unwrap()),
            "loaded" => Ok(state(&right[1..])),
            other => panic!("no answer {other}"),
        };
        let complete = complete(right[right.len() - 1]);
        LoadCase { place, before: state(&left[1..]), file: bytes(left[4]), loaded, complete }
    };
    read(file, &[5], |words| (words.1[0] == "load").then(|| case(words))).into_iter().flatten().collect()
}

pub fn reader_cases(file: &str) -> Vec<ReaderCase> {
    let case = |(place, left, right): Words| {
        let before =
            Copy { tag: bytes(left[0]), length: left[1].parse().unwrap(), runs: runs(left[2]), buffer: bytes(left[3]) };
        let taken_report = |text: &str| {
            let (taken, said) = text.split_once(':').unwrap();
            (taken.parse().unwrap(), report(said))
        };
        ReaderCase {
            place,
            pieces: left[4].split(';').map(bytes).collect(),
            reports: right[0].split(';').map(taken_report).collect(),
            after: Copy { runs: runs(right[1]), buffer: bytes(right[2]), ..before.clone() },
            complete: complete(right[3]),
            before,
        }
    };
    let is_named = |words: &Words| ["save", "load"].contains(&words.1[0]);
    read(file, &[5], |words| (!is_named(&words)).then(|| case(words))).into_iter().flatten().collect()
}
