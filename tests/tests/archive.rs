//! The library, linked as libbaxoodhiir.a, gives what the vectors and the model say. BAXOODHIIR_CASES is the count of random
//! cases of each kind, BAXOODHIIR_SEED the seed of the first; a case's own seed is that plus its number.
use baxoodhiir::{Answered, Asked as Call, LastModified, Refusal, Report as Said};
use baxoodhiir_tests::bytes::RANGE_LIMIT;
use baxoodhiir_tests::cases::{self, record, runs_of_record, Reading, Writing};
use baxoodhiir_tests::random::{setting, Random};
use baxoodhiir_tests::saved::{self, State};
use baxoodhiir_tests::server::{self, Answer, Asked};
use baxoodhiir_tests::tablet::{self, Copy, Report};
use baxoodhiir_tests::vectors::{self, hex, server_line};

/// The size of a list of runs.
const RUNS_SIZE: usize = 2056;

const CANARY: &[u8; 16] = b"\xC3\x5A canary 0123\xA5\x3C";

/// Bytes lent to a call, with a pattern before and behind them.
struct Lent(Vec<u8>);

impl Lent {
    fn new(bytes: &[u8]) -> Lent {
        Lent([CANARY, bytes, CANARY].concat())
    }

    /// `count` bytes of a pattern, to be written to.
    fn blank(count: usize) -> Lent {
        Lent::new(&(0..count).map(|at| (at * 7 + 3) as u8).collect::<Vec<u8>>())
    }

    fn range(&self) -> std::ops::Range<usize> {
        CANARY.len()..self.0.len() - CANARY.len()
    }

    fn get(&self) -> &[u8] {
        &self.0[self.range()]
    }

    fn get_mut(&mut self) -> &mut [u8] {
        let range = self.range();
        &mut self.0[range]
    }

    fn is_whole(&self) -> bool {
        self.0.starts_with(CANARY) && self.0.ends_with(CANARY)
    }

    /// The pattern around the bytes stands, and the bytes are still `bytes`.
    fn is_still(&self, bytes: &[u8]) -> bool {
        self.is_whole() && self.get() == bytes
    }
}

// ---- the server end

/// Calls the library and checks result, output buffer and what lies around every buffer.
fn check_answer(asked: &Asked, wanted: &Answer, label: &str) {
    let (method, file, tag) = (Lent::new(&asked.method), Lent::new(&asked.file), Lent::new(&asked.tag));
    let (media, boundary) = (Lent::new(&asked.media), Lent::new(&asked.boundary));
    let (range, if_range) = (asked.range.as_deref().map(Lent::new), asked.if_range.as_deref().map(Lent::new));
    let modified = asked.modified.map(|given| LastModified { seconds: given.seconds, strong: given.strong });
    let mut out = Lent::blank(asked.room);
    let mut wanted_out = out.get().to_vec();
    let call = Call {
        method: method.get(),
        range: range.as_ref().map(Lent::get),
        if_range: if_range.as_ref().map(Lent::get),
        file: file.get(),
        tag: tag.get(),
        media: media.get(),
        boundary: boundary.get(),
        modified,
        reference: asked.reference,
    };
    let result = baxoodhiir::answer(&call, out.get_mut());
    let wanted_result = match wanted {
        Answer::Refused(number) => Err(Refusal(*number)),
        Answer::Written { status, reason, bytes } => {
            wanted_out[..bytes.len()].copy_from_slice(bytes);
            Ok(Answered { status: *status, reason: *reason as usize, written: bytes.len() })
        }
    };
    let case = || format!("{label}\n{}", server_line(asked));
    assert_eq!(result, wanted_result, "{}", case());
    assert!(out.get() == wanted_out, "output is\n{}\nand not\n{}\n{}", hex(out.get()), hex(&wanted_out), case());
    let whole = out.is_whole()
        && method.is_still(&asked.method)
        && file.is_still(&asked.file)
        && tag.is_still(&asked.tag)
        && media.is_still(&asked.media)
        && boundary.is_still(&asked.boundary)
        && range.is_none_or(|range| range.is_still(asked.range.as_ref().unwrap()))
        && if_range.is_none_or(|if_range| if_range.is_still(asked.if_range.as_ref().unwrap()));
    assert!(whole, "memory beside the output was written: {}", case());
}

// ---- the tablet end

/// A function that writes something of a copy: the request, or the saved file.
type Writes = fn(&[u8], usize, &[u8], &mut [u8]) -> Result<usize, Refusal>;

fn check_written(writes: Writes, of: &Writing, wanted: &Result<Vec<u8>, usize>, label: &str) {
    let Writing { tag, length, record, room } = of;
    let (lent_tag, lent_record) = (Lent::new(tag), Lent::new(record));
    let mut out = Lent::blank(*room);
    let mut wanted_out = out.get().to_vec();
    let result = writes(lent_tag.get(), *length as usize, lent_record.get(), out.get_mut());
    if let Ok(bytes) = wanted {
        wanted_out[..bytes.len()].copy_from_slice(bytes);
    }
    let case = || format!("{label}\ntag {} length {length} record {} room {room}", hex(tag), hex(record));
    assert_eq!(result, wanted.as_ref().map(Vec::len).map_err(|number| Refusal(*number)), "{}", case());
    assert!(out.is_still(&wanted_out), "output is\n{}\nand not\n{}\n{}", hex(out.get()), hex(&wanted_out), case());
    assert!(lent_tag.is_still(tag) && lent_record.is_still(record), "memory beside the output was written: {}", case());
}

fn said(report: Report) -> Said {
    match report {
        Report::More => Said::More,
        Report::Finished => Said::Finished,
        Report::Refused(number) => Said::Refused(Refusal(number)),
    }
}

/// What a reading leaves: taken count, report, list of runs and buffer.
#[derive(Clone, PartialEq)]
struct Left {
    taken: usize,
    report: Said,
    record: Vec<u8>,
    buffer: Vec<u8>,
}

fn check_read(reading: &Reading, piece: usize, wanted: &Left, label: &str) {
    let (tag, answer) = (Lent::new(&reading.copy.tag), Lent::new(&reading.answer));
    let (mut record, mut buffer) = (Lent::new(&reading.record), Lent::new(&reading.copy.buffer));
    let length = reading.copy.length as usize;
    let (taken, report) = baxoodhiir::read(tag.get(), length, record.get_mut(), buffer.get_mut(), answer.get(), piece);
    let left = Left { taken, report, record: record.get().to_vec(), buffer: buffer.get().to_vec() };
    let show = |left: &Left| {
        format!("{}:{:?} {:?} {}", left.taken, left.report, runs_of_record(&left.record), hex(&left.buffer))
    };
    let case = || {
        let runs = runs_of_record(&reading.record);
        let (tag, buffer, answer) = (hex(&reading.copy.tag), hex(&reading.copy.buffer), hex(&reading.answer));
        let record = hex(&reading.record);
        format!("{label}, pieces of {piece}\ntag {tag} length {length} runs {runs:?} buffer {buffer} answer {answer} record {record}")
    };
    assert!(left == *wanted, "the library gives\n{}\nand not\n{}\n{}", show(&left), show(wanted), case());
    let whole =
        record.is_whole() && buffer.is_whole() && tag.is_still(&reading.copy.tag) && answer.is_still(&reading.answer);
    assert!(whole, "memory beside the copy was written: {}", case());
}

/// What the model leaves.
fn model_left(reading: &Reading) -> Left {
    let Some(runs) = runs_of_record(&reading.record) else {
        let (record, buffer) = (reading.record.clone(), reading.copy.buffer.clone());
        return Left { taken: 0, report: said(Report::Refused(19)), record, buffer };
    };
    let mut copy = Copy { runs, ..reading.copy.clone() };
    let (taken, report) = tablet::read(&mut copy, &reading.answer);
    Left { taken, report: said(report), record: record(&copy.runs), buffer: copy.buffer }
}

/// The caller's memory for a copy.
#[derive(Clone, Debug, PartialEq)]
struct Memory {
    tag: Vec<u8>,
    tag_len: usize,
    length: usize,
    runs: Vec<u8>,
}

impl Memory {
    fn of(state: &State) -> Memory {
        let mut tag = state.tag.clone();
        tag.resize(64, 0);
        Memory { tag, tag_len: state.tag.len(), length: state.length as usize, runs: record(&state.runs) }
    }

    /// Memory of these sizes that holds anything.
    fn any(random: &mut Random, tag: usize, runs: usize) -> Memory {
        let (tag, runs) = (random.bytes(tag), random.bytes(runs));
        Memory { tag, tag_len: random.bits() as usize, length: random.bits() as usize, runs }
    }
}

/// Loads a file over this memory, and checks what it then holds and what lies around it; gives what it then holds.
fn check_load(memory: &Memory, file: &[u8], wanted: &Result<State, usize>, label: &str) -> Memory {
    const GUARD: usize = 0xC35A_1234_5678_A53C;
    let (mut tag, mut runs, lent_file) = (Lent::new(&memory.tag), Lent::new(&memory.runs), Lent::new(file));
    let mut numbers = [GUARD, memory.tag_len, GUARD, memory.length, GUARD];
    let [_, tag_len, _, length, _] = &mut numbers;
    let result = baxoodhiir::load(lent_file.get(), tag.get_mut(), tag_len, length, runs.get_mut());
    let left = Memory { tag: tag.get().to_vec(), tag_len: numbers[1], length: numbers[3], runs: runs.get().to_vec() };
    let case = || format!("{label}\nfile {} over {memory:?}", hex(file));
    assert_eq!(result, wanted.as_ref().map(|_| ()).map_err(|number| Refusal(*number)), "{}", case());
    assert_eq!(left, wanted.as_ref().map_or(memory.clone(), Memory::of), "{}", case());
    let whole = tag.is_whole() && runs.is_whole() && lent_file.is_still(file);
    assert!(whole && [numbers[0], numbers[2], numbers[4]] == [GUARD; 3], "memory beside was written: {}", case());
    left
}

/// What is held is saved as this file.
fn check_saved_as(memory: &Memory, file: &[u8], label: &str) {
    let tag = memory.tag[..memory.tag_len].to_vec();
    let writing = Writing { tag, length: memory.length as u64, record: memory.runs.clone(), room: file.len() };
    check_written(baxoodhiir::save, &writing, &Ok(file.to_vec()), label);
}

fn model_save(writing: &Writing) -> Result<Vec<u8>, usize> {
    let runs = runs_of_record(&writing.record).ok_or(19usize)?;
    saved::save(&State { tag: writing.tag.clone(), length: writing.length, runs }, writing.room)
}

fn model_request(tag: &[u8], length: u64, record: &[u8], room: usize) -> Result<Vec<u8>, usize> {
    let runs = runs_of_record(record).ok_or(19usize)?;
    tablet::request(tag, length, &runs, room)
}

// ---- vectors

#[test]
fn server_vectors() {
    vectors::all_server_cases().for_each(|case| check_answer(&case.asked, &case.answer, &case.place));
}

/// A date alone, as the If-Range of a file that was modified in its second, and in the second before.
#[test]
fn date_vectors() {
    for case in vectors::date_cases(vectors::DATES) {
        let second = case.second.unwrap_or(784_111_777);
        for seconds in [second, second - 1] {
            let asked = Asked {
                method: b"GET".to_vec(),
                range: Some(b"bytes=1-1".to_vec()),
                if_range: Some(case.value.clone()),
                file: b"key".to_vec(),
                tag: vec![],
                media: vec![],
                boundary: b"B".to_vec(),
                modified: Some(server::LastModified { seconds, strong: true }),
                reference: case.reference,
                room: 200,
            };
            check_answer(&asked, &server::answer(&asked), &case.place);
        }
    }
}

#[test]
fn request_vectors() {
    for case in vectors::all_request_cases() {
        let writing = Writing { tag: case.tag, length: case.length, record: record(&case.runs), room: case.room };
        check_written(baxoodhiir::request, &writing, &case.request, &case.place);
    }
}

/// What is saved is also loaded as what it was.
#[test]
fn save_vectors() {
    for case in vectors::all_save_cases() {
        let State { tag, length, runs } = case.state.clone();
        let writing = Writing { tag, length, record: record(&runs), room: case.room };
        check_written(baxoodhiir::save, &writing, &case.saved, &case.place);
        if let Ok(file) = case.saved {
            check_load(&Memory::any(&mut Random::new(1), 64, RUNS_SIZE), &file, &Ok(case.state), &case.place);
        }
    }
}

#[test]
fn load_vectors() {
    vectors::all_load_cases().for_each(check_load_case);
}

/// A file is loaded over the copy in the caller's hands, and what the caller then has is saved again; it is loaded over anything;
/// and memory of another size is 19, whatever the file is.
fn check_load_case(case: vectors::LoadCase) {
    let held = check_load(&Memory::of(&case.before), &case.file, &case.loaded, &case.place);
    check_saved_as(&held, &saved::bytes(case.loaded.as_ref().unwrap_or(&case.before)), &case.place);
    let request = baxoodhiir::request(&held.tag[..held.tag_len], held.length, &held.runs, &mut [0; 4096]);
    assert_eq!(Some(request == Err(Refusal(18))), case.complete, "{}", case.place);
    let mut random = Random::new(1);
    check_load(&Memory::any(&mut random, 64, RUNS_SIZE), &case.file, &case.loaded, &case.place);
    for (tag, runs) in [(0, 2056), (63, 2056), (65, 2056), (64, 0), (64, 520), (64, 2055), (64, 2057), (63, 2057)] {
        check_load(&Memory::any(&mut random, tag, runs), &case.file, &Err(19), &case.place);
    }
}

/// A case's pieces, end to end, go to the reader in pieces of several sizes.
#[test]
fn reader_vectors() {
    vectors::all_reader_cases().for_each(check_reader_case);
}

fn check_reader_case(case: vectors::ReaderCase) {
    let taken = case.reports.iter().map(|(taken, _)| taken).sum();
    let report = said(case.reports.last().unwrap().1);
    let wanted = Left { taken, report, record: record(&case.after.runs), buffer: case.after.buffer.clone() };
    let answer = case.pieces.concat();
    let reading = Reading { record: record(&case.before.runs), copy: case.before, answer };
    for piece in [0, 1, 2, 3, 7, 64, 511, reading.answer.len(), reading.answer.len() + 1, usize::MAX] {
        check_read(&reading, piece, &wanted, &case.place);
    }
    let request = baxoodhiir::request(&case.after.tag, case.after.length as usize, &wanted.record, &mut [0; 4096]);
    if let Some(complete) = case.complete {
        assert_eq!(request == Err(Refusal(18)), complete, "{}", case.place);
    }
}

// ---- random cases

/// Runs a case for each seed.
fn for_each_seed(case: impl Fn(&mut Random, &str)) {
    let seed = setting("BAXOODHIIR_SEED", 1);
    for at in 0..setting("BAXOODHIIR_CASES", 40_000) {
        let seed = seed.wrapping_add(at);
        case(&mut Random::new(seed), &format!("repeat by BAXOODHIIR_SEED={seed} BAXOODHIIR_CASES=1"));
    }
}

#[test]
fn random_answers() {
    for_each_seed(|random, label| {
        let asked = cases::asked(random);
        check_answer(&asked, &server::answer(&asked), label);
    });
}

/// With zeros before some numbers of the Range, as long as it fits, the answer is the model's to the Range without them.
#[test]
fn padded_ranges() {
    for_each_seed(|random, label| {
        let mut asked = cases::asked(random);
        let wanted = server::answer(&asked);
        let Some(range) = asked.range.take() else { return };
        let padded = cases::padded(random, &range);
        if padded.len() <= RANGE_LIMIT {
            asked.range = Some(padded);
            check_answer(&asked, &wanted, label);
        }
    });
}

#[test]
fn random_requests() {
    for_each_seed(|random, label| {
        let (tag, length, record) = cases::wanted(random);
        let whole = model_request(&tag, length, &record, usize::MAX).map_or(random.index(99), |bytes| bytes.len());
        let room = *random.pick(&[whole, whole, whole.saturating_sub(1), whole + 1, whole + 50, 0]);
        let wanted = model_request(&tag, length, &record, room);
        check_written(baxoodhiir::request, &Writing { tag, length, record, room }, &wanted, label);
    });
}

#[test]
fn random_savings() {
    for_each_seed(|random, label| {
        let writing = cases::saving(random);
        let wanted = model_save(&writing);
        check_written(baxoodhiir::save, &writing, &wanted, label);
        if let Ok(file) = wanted {
            let runs = runs_of_record(&writing.record).unwrap();
            let state = State { tag: writing.tag, length: writing.length, runs };
            check_load(&Memory::any(random, 64, RUNS_SIZE), &file, &Ok(state), label);
        }
    });
}

/// What is loaded is also saved as the same bytes again, but for the version, which is then 2.
#[test]
fn random_loadings() {
    for_each_seed(|random, label| {
        let file = cases::saved_file(random);
        let wanted = saved::load(&file);
        let held = check_load(&Memory::any(random, 64, RUNS_SIZE), &file, &wanted, label);
        if wanted.is_ok() {
            let mut anew = file;
            anew[4] = 2;
            check_saved_as(&held, &anew, label);
        }
    });
}

#[test]
fn random_readings() {
    for_each_seed(|random, label| {
        let reading = cases::reading(random);
        let wanted = model_left(&reading);
        let any = random.within(2, 40);
        for piece in [0, 1, any] {
            check_read(&reading, piece, &wanted, label);
        }
    });
}

/// The Range and If-Range values of a request.
fn request_values(request: &[u8]) -> (Vec<u8>, Vec<u8>) {
    let text: Vec<&[u8]> = request.split(|b| *b == b'\n').collect();
    let value = |line: &[u8], name: &[u8]| {
        let line = line.strip_prefix(name).unwrap();
        line.strip_suffix(b"\r").unwrap().to_vec()
    };
    assert_eq!(text.len(), 3);
    (value(text[0], b"Range: "), value(text[1], b"If-Range: "))
}

/// The library's answer to a GET of `file`; None: refused.
fn served(file: &[u8], tag: &[u8], range: Option<&[u8]>, if_range: Option<&[u8]>, boundary: &[u8]) -> Option<Vec<u8>> {
    let method = b"GET";
    let call =
        Call { method, range, if_range, file, tag, media: b"text/plain", boundary, modified: None, reference: 0 };
    let mut out = vec![0; 10_000 + 2 * file.len()];
    let answered = baxoodhiir::answer(&call, &mut out).ok()?;
    out.truncate(answered.written);
    Some(out)
}

/// Answers of the library's server to its own requests and to others, broken off anywhere, and answers under another
/// tag: the held bytes are always the file's, the others stay, and two whole answers complete a copy.
#[test]
fn random_exchanges() {
    for_each_seed(|random, label| {
        let count = if random.chance(70) { random.index(150) } else { random.within(240, 300) };
        let file = random.bytes(count);
        let mut copy = cases::copy_of(random, &file, b"\"k1\"", 127);
        let garbage = copy.buffer.clone();
        for _ in 0..random.index(5) {
            let foreign = random.chance(30);
            let range = cases::range(random, count as u64);
            let other = random.bytes(count);
            let sent = match foreign {
                true => served(&other, b"\"k2\"", Some(&range), None, b"ROWS"),
                false => served(&file, b"\"k1\"", Some(&range), None, b"ROWS"),
            };
            let mut answer = sent.unwrap_or_default();
            answer.truncate(random.index(answer.len() + 1));
            let reading = Reading { copy: copy.clone(), record: record(&copy.runs), answer };
            let wanted = model_left(&reading);
            check_read(&reading, random.index(30), &wanted, label);
            if foreign {
                assert!(wanted.record == reading.record && wanted.buffer == copy.buffer, "{label}: another tag");
            }
            copy.runs = runs_of_record(&wanted.record).unwrap();
            copy.buffer = wanted.buffer;
        }
        for at in 0..count {
            let held = copy.runs.iter().any(|(first, last)| *first <= at as u64 && at as u64 <= *last);
            assert_eq!(copy.buffer[at], if held { file[at] } else { garbage[at] }, "{label}: position {at}");
        }
        if copy.runs.len() <= 127 {
            complete_in_two(&file, copy, random.index(30), label);
        }
    });
}

/// At most two whole answers to the copy's own requests complete it.
fn complete_in_two(file: &[u8], copy: Copy, piece: usize, label: &str) {
    let (mut bytes, mut buffer) = (record(&copy.runs), copy.buffer);
    for answers in 0..3 {
        let mut out = vec![0; 4096];
        let written = match baxoodhiir::request(&copy.tag, file.len(), &bytes, &mut out) {
            Ok(written) => written,
            Err(refusal) => {
                assert_eq!(refusal, Refusal(18), "{label}");
                assert!(buffer == file, "{label}: a complete copy that is not the file");
                return;
            }
        };
        assert!(answers < 2, "{label}: not complete after two whole answers");
        let (range, if_range) = request_values(&out[..written]);
        let Some(answer) = served(file, &copy.tag, Some(&range), Some(&if_range), b"ROWS-1") else { return };
        let (taken, report) = baxoodhiir::read(&copy.tag, file.len(), &mut bytes, &mut buffer, &answer, piece);
        assert_eq!((taken, report), (answer.len(), Said::Finished), "{label}");
    }
}

// ---- lengths at the limit

mod mapped {
    extern "C" {
        fn mmap(address: *mut u8, length: usize, protection: i32, flags: i32, file: i32, offset: i64) -> *mut u8;
        fn munmap(address: *mut u8, length: usize) -> i32;
    }

    /// `length` bytes of zeros that take no memory until they are touched.
    pub struct Zeros(*mut u8, usize);

    impl Zeros {
        pub fn new(length: usize) -> Zeros {
            const READ_WRITE: i32 = 3;
            const PRIVATE_ANONYMOUS_NORESERVE: i32 = 0x2 | 0x20 | 0x4000;
            // SAFETY: a fresh mapping at an address of the system's choice.
            let address = unsafe { mmap(std::ptr::null_mut(), length, READ_WRITE, PRIVATE_ANONYMOUS_NORESERVE, -1, 0) };
            assert!(address as isize != -1, "cannot map {length} bytes");
            Zeros(address, length)
        }

        pub fn get(&mut self) -> &mut [u8] {
            // SAFETY: the mapping has this length and lives as long as self, which is lent.
            unsafe { std::slice::from_raw_parts_mut(self.0, self.1) }
        }
    }

    impl Drop for Zeros {
        fn drop(&mut self) {
            // SAFETY: the mapping is this value's own.
            unsafe { munmap(self.0, self.1) };
        }
    }
}

const LIMIT: usize = 1 << 40;

#[test]
fn the_longest_file() {
    let mut zeros = mapped::Zeros::new(LIMIT + 1);
    zeros.get()[LIMIT - 1] = b'z';
    let ask = |zeros: &mut mapped::Zeros, method: &[u8], range: Option<&[u8]>, length: usize| {
        let mut out = [0; 500];
        let call = Call {
            method,
            range,
            if_range: None,
            file: &zeros.get()[..length],
            tag: b"\"k\"",
            media: b"",
            boundary: b"B",
            modified: None,
            reference: 0,
        };
        let result = baxoodhiir::answer(&call, &mut out);
        result.map(|answered| (answered.status, answered.reason, out[..answered.written].to_vec()))
    };
    let head = b"HTTP/1.1 200 OK\r\nETag: \"k\"\r\nContent-Length: 1099511627776\r\n\r\n".to_vec();
    assert_eq!(ask(&mut zeros, b"HEAD", None, LIMIT), Ok((200, 1, head)));
    assert_eq!(ask(&mut zeros, b"GET", None, LIMIT), Err(Refusal(7)));
    let range = "Content-Range: bytes 1099511627775-1099511627775/1099511627776";
    let last =
        format!("HTTP/1.1 206 Partial Content\r\nETag: \"k\"\r\n{range}\r\nContent-Length: 1\r\n\r\nz").into_bytes();
    for range in [&b"bytes=-1"[..], b"bytes=1099511627775-", b"bytes=1099511627775-18446744073709551616"] {
        assert_eq!(ask(&mut zeros, b"GET", Some(range), LIMIT), Ok((206, 11, last.clone())));
    }
    let beyond =
        b"HTTP/1.1 416 Range Not Satisfiable\r\nContent-Range: bytes */1099511627776\r\nContent-Length: 0\r\n\r\n"
            .to_vec();
    assert_eq!(ask(&mut zeros, b"GET", Some(b"bytes=1099511627776-"), LIMIT), Ok((416, 9, beyond)));
    assert_eq!(ask(&mut zeros, b"GET", Some(b"bytes=-1099511627777"), LIMIT), Err(Refusal(7)));
    assert_eq!(ask(&mut zeros, b"GET", None, LIMIT + 1), Err(Refusal(2)));
    assert_eq!(ask(&mut zeros, b"HEAD", Some(b"bytes=0-0"), LIMIT + 1), Err(Refusal(2)));
    assert_eq!(ask(&mut zeros, b"PUT", None, LIMIT + 1), Err(Refusal(1)));
}

#[test]
fn the_longest_copy() {
    let mut zeros = mapped::Zeros::new(LIMIT + 1);
    let mut bytes = record(&[(0, 9), (20, 29)]);
    let answer = b"HTTP/1.1 206 x\r\nETag: \"k\"\r\nContent-Range: bytes 1099511627775-1099511627775/1099511627776\r\nContent-Length: 1\r\n\r\nz";
    let result = baxoodhiir::read(b"\"k\"", LIMIT + 1, &mut bytes, zeros.get(), answer, 0);
    assert_eq!(result, (0, Said::Refused(Refusal(19))));
    let result = baxoodhiir::read(b"\"k\"", LIMIT, &mut bytes, zeros.get(), answer, 0);
    assert_eq!(result, (0, Said::Refused(Refusal(19))));
    let result = baxoodhiir::read(b"\"k\"", LIMIT, &mut bytes, &mut zeros.get()[..LIMIT], answer, 0);
    assert_eq!(result, (answer.len(), Said::Finished));
    assert_eq!(zeros.get()[LIMIT - 2..], [0, b'z', 0]);
    assert_eq!(bytes, record(&[(0, 9), (20, 29), (LIMIT as u64 - 1, LIMIT as u64 - 1)]));
    let mut out = [0; 200];
    let written = baxoodhiir::request(b"\"k\"", LIMIT, &bytes, &mut out).unwrap();
    assert_eq!(out[..written], *b"Range: bytes=10-19,30-1099511627774\r\nIf-Range: \"k\"\r\n");
    let front = b"HTTP/1.1 200\r\nETag: \"k\"\r\nContent-Length: 1099511627776\r\n\r\n\0\0\0";
    let result = baxoodhiir::read(b"\"k\"", LIMIT, &mut bytes, &mut zeros.get()[..LIMIT], front, 1);
    assert_eq!(result, (front.len(), Said::More));
}

#[test]
fn the_longest_saved_file() {
    assert_eq!(baxoodhiir::max_saved(), 2128);
    let tag = [&b"\""[..], &[b'a'; 62], b"\""].concat();
    let runs: Vec<_> = (0..128).map(|i| (LIMIT as u64 - 256 + 2 * i, LIMIT as u64 - 256 + 2 * i)).collect();
    let mut out = [0; 2128];
    assert_eq!(baxoodhiir::save(&tag, LIMIT, &record(&runs), &mut out), Ok(2128));
    assert_eq!(baxoodhiir::save(&tag, LIMIT, &record(&runs), &mut out[..2127]), Err(Refusal(20)));
    assert_eq!(saved::load(&out), Ok(State { tag, length: LIMIT as u64, runs }));
}

#[test]
fn the_size_of_a_list_of_runs() {
    assert_eq!(baxoodhiir::runs_size(), RUNS_SIZE);
    let runs = [(0, 4), (6, 1 << 40)];
    assert_eq!(baxoodhiir::runs_to_bytes(&runs), Some(record(&runs)));
    assert_eq!(baxoodhiir::runs_from_bytes(&record(&runs)), Some(runs.to_vec()));
    assert_eq!(baxoodhiir::runs_to_bytes(&[(0, 0); 129]), None);
}
