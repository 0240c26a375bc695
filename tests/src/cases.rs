//! Random cases that reach the edges of document 01.
use crate::bytes::LENGTH_LIMIT;
use crate::dates::{self, Form, TIME_LIMIT};
use crate::random::Random;
use crate::saved::{self, high_byte_first, State};
use crate::server::{self, Answer, Asked, LastModified};
use crate::tablet::{Copy, MAX_RUNS};

/// Bytes that mean something somewhere in a request or an answer.
const TELLING: &[u8] = b"\r\n \t,-=/*;:\"0123456789BbWX\x00\x7f\x80\xff";

// ---- damage

/// Replaces, inserts, removes or doubles a byte, or a short stretch, at a random place.
fn damage(random: &mut Random, bytes: &mut Vec<u8>) {
    let at = random.index(bytes.len() + 1);
    let byte = if random.chance(70) { *random.pick(TELLING) } else { random.bits() as u8 };
    match random.below(6) {
        0 | 1 if at < bytes.len() => bytes[at] = byte,
        2 if at < bytes.len() => drop(bytes.remove(at)),
        3 if at < bytes.len() => bytes.insert(at, bytes[at]),
        4 if at < bytes.len() => drop(bytes.drain(at..bytes.len().min(at + 4))),
        _ => bytes.insert(at, byte),
    }
}

/// Letters in random case.
fn any_case(random: &mut Random, text: &str) -> Vec<u8> {
    let change = random.chance(30);
    let flip = |b: u8, random: &mut Random| if change && random.chance(30) { b ^ 0x20 } else { b };
    text.bytes().map(|b| if b.is_ascii_alphabetic() { flip(b, random) } else { b }).collect()
}

fn blanks(random: &mut Random) -> Vec<u8> {
    let count = *random.pick(&[0, 0, 1, 1, 1, 2, 3]);
    random.bytes_of(count, b" \t")
}

/// Digits of a number, at times after zeros, at times very large.
fn digits(random: &mut Random, value: u64) -> Vec<u8> {
    let zeros = *random.pick(&[0, 0, 0, 0, 0, 0, 0, 0, 1, 3, 26, 40]);
    [vec![b'0'; zeros], value.to_string().into_bytes()].concat()
}

const HUGE: &[&[u8]] = &[
    b"1099511627775",
    b"1099511627776",
    b"1099511627777",
    b"2199023255552",
    b"4294967296",
    b"9223372036854775808",
    b"18446744073709551614",
    b"18446744073709551615",
    b"18446744073709551616",
    b"18446744073709551617",
    b"36893488147419103232",
    b"99999999999999999999999999999999999999999",
];

/// A number near 0, near `n` or anywhere below it, at times huge.
fn number(random: &mut Random, n: u64) -> Vec<u8> {
    if random.chance(4) {
        return random.pick(HUGE).to_vec();
    }
    let value = match random.below(10) {
        0 => n,
        1 => n + 1,
        2 => n.saturating_sub(1),
        3 => random.below(3),
        4 => n + random.below(400),
        _ => random.below(n + 1),
    };
    digits(random, value)
}

// ---- the server end

fn spec(random: &mut Random, n: u64) -> Vec<u8> {
    let first = number(random, n);
    let ordered = |random: &mut Random| {
        let first = random.below(n + 2);
        let most = *random.pick(&[1, 3, 20, n + 5]);
        let last = first + random.below(1 + most);
        [digits(random, first), b"-".to_vec(), digits(random, last)].concat()
    };
    match random.below(20) {
        0 | 1 => [&first[..], b"-"].concat(),
        2 | 3 => [b"-", &first[..]].concat(),
        4 => [b"-", &digits(random, 0)[..]].concat(),
        5 if random.chance(30) => [&first[..], b"-", &number(random, n)].concat(),
        6 if random.chance(20) => [*random.pick(HUGE), b"-", *random.pick(HUGE)].concat(),
        _ => ordered(random),
    }
}

/// A comma, blanks and perhaps empty members.
fn separator(random: &mut Random, plain: bool) -> Vec<u8> {
    if plain {
        return b",".to_vec();
    }
    let mut text = Vec::new();
    for _ in 0..*random.pick(&[1, 1, 1, 2, 3]) {
        text.extend(blanks(random));
        text.push(b',');
    }
    text.extend(blanks(random));
    text
}

/// A Range value.
pub fn range(random: &mut Random, n: u64) -> Vec<u8> {
    if random.chance(3) {
        let texts: &[&[u8]] =
            &[b"", b" ", b"\t", b"bytes", b"bytes=", b"bytes= ", b"bytes=,", b"byte=0-0", b"bytes =0-0", b"-"];
        return random.pick(texts).to_vec();
    }
    let mut value = any_case(random, "bytes=");
    let plain = random.chance(50);
    if random.chance(15) {
        for _ in 0..random.within(1, 3) {
            value.push(b',');
            value.extend(blanks(random));
        }
    }
    let count = *random.pick(&[1, 1, 1, 1, 2, 2, 2, 3, 3, 4, 6, 9, 16, 17, 63, 64, 64, 65, 66]);
    // each second position, from the front or from the end, so that parts become many
    let (apart, backward) = (count > 9 && random.chance(40), random.chance(50));
    for at in 0..count {
        if at > 0 {
            value.extend(separator(random, plain));
        }
        let place = 2 * if backward { count - 1 - at } else { at };
        value.extend(if apart { format!("{place}-{place}").into_bytes() } else { spec(random, n) });
    }
    if random.chance(8) {
        value.extend(separator(random, plain));
    }
    if random.chance(3) {
        // a length around the limit, made of zeros before the first digit
        let wanted = random.within(4094, 4099);
        let at = value.iter().position(u8::is_ascii_digit);
        if let (Some(at), true) = (at, value.len() < wanted) {
            value.splice(at..at, vec![b'0'; wanted - value.len()]);
        }
    }
    if random.chance(12) {
        damage(random, &mut value);
    }
    if random.chance(15) {
        value = [blanks(random), value, blanks(random)].concat();
    }
    value
}

const GOOD_TAGS: &[&[u8]] = &[b"\"k1\"", b"\"k1\"", b"\"k2\"", b"\"\"", b"\"\x80\xff!~\"", b"\"W/\""];

fn strong_tag(random: &mut Random) -> Vec<u8> {
    match random.below(12) {
        0 => [&b"\""[..], &vec![b'a'; random.within(60, 62)], b"\""].concat(),
        _ => random.pick(GOOD_TAGS).to_vec(),
    }
}

fn bad_tag(random: &mut Random) -> Vec<u8> {
    let tags: &[&[u8]] = &[
        b"\"",
        b"k1",
        b"\"k1",
        b"k1\"",
        b"w/\"k1\"",
        b"W/",
        b"W/\"",
        b"W\"k1\"",
        b"\"a b\"",
        b"\"a\"b\"",
        b"\"\x7f\"",
        b"\"\t\"",
        b" \"k1\"",
        b"\"k1\" ",
        b"*",
        b"Sun, 06 Nov 1994 08:49:37 GMT",
        b"\"k1\", \"k2\"",
        b"W/\"k1\"",
        b"",
    ];
    match random.below(8) {
        0 => [&b"\""[..], &[b'a'; 63], b"\""].concat(),
        1 => [&b"W/\""[..], &vec![b'a'; random.within(60, 61)], b"\""].concat(),
        _ => random.pick(tags).to_vec(),
    }
}

fn file_tag(random: &mut Random) -> Vec<u8> {
    match random.below(20) {
        0 => vec![],
        1 => [b"W/", &strong_tag(random)[..]].concat(),
        2 if random.chance(50) => bad_tag(random),
        _ => strong_tag(random),
    }
}

const DAY: i64 = 86_400;

/// Seconds at the ends of days, months, years and centuries: around 29 February 2000 and 2100, and at both bounds.
const TIMES: &[i64] = &[
    0,
    1,
    784_111_777,
    946_684_799,
    946_684_800,
    951_782_399,
    951_782_400,
    951_868_799,
    951_868_800,
    4_107_542_399,
    4_107_542_400,
    TIME_LIMIT - 1,
    TIME_LIMIT,
];

const BAD_TIMES: &[i64] = &[-1, TIME_LIMIT + 1, -784_111_777, i64::MIN, i64::MAX];

fn good_time(random: &mut Random) -> i64 {
    match random.below(4) {
        0 => *random.pick(TIMES),
        1 => random.below(TIME_LIMIT as u64 + 1) as i64,
        _ => random.below(4_200_000_000) as i64,
    }
}

fn time(random: &mut Random) -> i64 {
    match random.below(60) {
        0 => *random.pick(BAD_TIMES),
        _ => good_time(random),
    }
}

fn modified(random: &mut Random) -> Option<LastModified> {
    random.chance(60).then(|| LastModified { seconds: time(random), strong: random.chance(85) })
}

/// Any time, or about 50 years before or behind the Last-Modified, where the century of a two-digit year changes.
fn reference(random: &mut Random, modified: Option<LastModified>) -> i64 {
    let Some(modified) = modified else { return time(random) };
    let years = *random.pick(&[18_261, 18_262, 18_263]) * DAY + *random.pick(&[-1, 0, 1]);
    let reference = match random.below(6) {
        0 => modified.seconds.saturating_sub(years),
        1 => modified.seconds.saturating_add(years),
        2 | 3 => modified.seconds,
        _ => time(random),
    };
    if dates::is_bad_time(reference) {
        return time(random);
    }
    reference
}

/// A date whose day has the name of the day behind it, or before it.
fn misnamed(form: Form, seconds: i64) -> String {
    let other = if seconds < DAY { seconds + DAY } else { seconds - DAY };
    let (text, other) = (dates::text(form, seconds), dates::text(form, other));
    let name = |text: &str| text.find([',', ' ']).unwrap();
    other[..name(&other)].to_string() + &text[name(&text)..]
}

/// A second in one of the three forms, at times another second, invalid, in another case or damaged.
fn date(random: &mut Random, seconds: i64) -> Vec<u8> {
    let seconds = match random.below(10) {
        0 => seconds.saturating_sub(1),
        1 => seconds.saturating_add(1),
        2 => good_time(random),
        _ => seconds,
    };
    let seconds = seconds.clamp(0, TIME_LIMIT);
    let form = *random.pick(&[Form::Fixdate, Form::Rfc850, Form::Asctime]);
    let text = dates::text(form, seconds);
    let colon = text.find(':').unwrap();
    let mut value = text.clone().into_bytes();
    match random.below(16) {
        0 => damage(random, &mut value),
        1 => value = misnamed(form, seconds).into_bytes(),
        2 => value = any_case(random, &text),
        3 => value[colon - 2..colon].copy_from_slice(b"24"),
        4 => value[colon + 1..colon + 3].copy_from_slice(b"60"),
        5 => value[colon + 4..colon + 6].copy_from_slice(b"60"),
        6 if form == Form::Asctime && value[8] == b' ' => value[8] = b'0',
        7 => value = [blanks(random), value, blanks(random)].concat(),
        _ => {}
    }
    value
}

/// A value that may be a date, and a reference time.
pub fn dated(random: &mut Random) -> (Vec<u8>, i64) {
    let modified = LastModified { seconds: time(random), strong: true };
    (date(random, modified.seconds), reference(random, Some(modified)))
}

fn if_range(random: &mut Random, tag: &[u8], modified: Option<LastModified>) -> Option<Vec<u8>> {
    if let (Some(modified), true) = (modified, random.chance(40)) {
        return Some(date(random, modified.seconds));
    }
    match random.below(20) {
        0..=9 => None,
        10 => Some(bad_tag(random)),
        11 => Some([b"W/", tag].concat()),
        12 => Some(strong_tag(random)),
        13 => {
            let mut value = tag.to_vec();
            damage(random, &mut value);
            Some(value)
        }
        14 => Some([blanks(random), tag.to_vec(), blanks(random)].concat()),
        _ => Some(tag.to_vec()),
    }
}

fn media(random: &mut Random) -> Vec<u8> {
    let kinds: &[&[u8]] = &[
        b"",
        b"text/plain",
        b"text/plain; charset=utf-8",
        b"x;multipart/byteranges",
        b"a",
        b"~",
        b"multipart/byterange",
    ];
    let bad: &[&[u8]] = &[
        b" ",
        b" a",
        b"a ",
        b"a\tb",
        b"a\x7f",
        b"a\x80",
        b"a\r\nb",
        b"multipart/byteranges",
        b"Multipart/ByteRanges ; x",
        b"MULTIPART/BYTERANGES;",
    ];
    match random.below(30) {
        0 => vec![b'a'; random.within(126, 128)],
        1 if random.chance(60) => random.pick(bad).to_vec(),
        _ => random.pick(kinds).to_vec(),
    }
}

fn boundary(random: &mut Random) -> Vec<u8> {
    let kinds: &[&[u8]] = &[b"B", b"B", b"BB", b"-", b"--", b"_", b"b-B_9", b"THIS_STRING_SEPARATES"];
    match random.below(12) {
        0 => {
            let count = random.within(68, 70);
            random.bytes_of(count, b"Xx-_0")
        }
        _ => random.pick(kinds).to_vec(),
    }
}

fn server_boundary(random: &mut Random) -> Vec<u8> {
    let bad: &[&[u8]] = &[b"", b" ", b"B ", b"a.b", b"a=b", b"\"B\"", b"a\x80", b"B\r\n"];
    match random.below(60) {
        0 => vec![b'x'; 71],
        1 => random.pick(bad).to_vec(),
        _ => boundary(random),
    }
}

/// A file: any bytes, or bytes in which a boundary is likely to occur.
fn file(random: &mut Random, boundary: &[u8]) -> Vec<u8> {
    let count = match random.below(12) {
        0 => 0,
        1 => 1,
        2 => 2,
        3 => random.within(200, 600),
        _ => random.within(3, 60),
    };
    let mut file = if random.chance(50) { random.bytes(count) } else { random.bytes_of(count, b"\r\n--BBab") };
    if random.chance(20) && count > 0 {
        let mark = [*random.pick(&[&b"\r\n--"[..], b"--", b"\r\n-", b"\n--"]), boundary].concat();
        let at = random.index(count);
        for (slot, byte) in file[at..].iter_mut().zip(mark) {
            *slot = byte;
        }
    }
    file
}

/// A file with a delimiter, or most of one, inside it, and a Range of two parts one of which begins and ends near the
/// delimiter's ends.
fn delimiter_in_data(random: &mut Random, boundary: &[u8]) -> (Vec<u8>, Vec<u8>) {
    let mark = [*random.pick(&[&b"\r\n--"[..], b"\r\n--", b"--", b"\r\n-", b"\n--"]), boundary].concat();
    let mut file = random.bytes_of(8, b"ab-\r\n");
    file.extend(&mark);
    file.extend(random.bytes_of(8, b"ab-\r\n"));
    let first = random.within(6, 11);
    let last = (8 + mark.len() + random.index(4)).saturating_sub(2).max(first);
    let near = format!("{first}-{last}");
    let far = *random.pick(&["0-2", "-1", "-2", "0-0,-1"]);
    let range = if random.chance(50) { format!("bytes={near},{far}") } else { format!("bytes={far},{near}") };
    (file, range.into_bytes())
}

pub fn asked(random: &mut Random) -> Asked {
    let methods: &[&[u8]] = &[b"", b"get", b"POST", b"GETT", b"GE", b"HEAD ", b"head", b"\x00"];
    let method = match random.below(100) {
        0..=4 => b"HEAD".to_vec(),
        5 => random.pick(methods).to_vec(),
        _ => b"GET".to_vec(),
    };
    let boundary = server_boundary(random);
    let file = file(random, &boundary);
    let tag = file_tag(random);
    let modified = modified(random);
    let mut asked = Asked {
        method,
        range: if random.chance(95) { Some(range(random, file.len() as u64)) } else { None },
        if_range: if_range(random, &tag, modified),
        media: media(random),
        file,
        tag,
        boundary,
        modified,
        reference: reference(random, modified),
        room: usize::MAX,
    };
    if random.chance(4) {
        let (file, range) = delimiter_in_data(random, &asked.boundary);
        (asked.file, asked.range, asked.if_range) = (file, Some(range), None);
    }
    let whole = match server::answer(&asked) {
        Answer::Written { bytes, .. } => bytes.len(),
        Answer::Refused(_) => random.index(200),
    };
    asked.room = match random.below(10) {
        0 => whole.saturating_sub(1),
        1 => random.index(whole + 1),
        2..=5 => whole,
        _ => whole + random.index(40),
    };
    asked
}

/// The Range with zeros put before some of its numbers.
pub fn padded(random: &mut Random, range: &[u8]) -> Vec<u8> {
    let mut padded = Vec::new();
    for (at, byte) in range.iter().enumerate() {
        let begins = byte.is_ascii_digit() && (at == 0 || !range[at - 1].is_ascii_digit());
        if begins && random.chance(70) {
            let count = *random.pick(&[1, 7, 8, 9, 40]);
            padded.resize(padded.len() + count, b'0');
        }
        padded.push(*byte);
    }
    padded
}

// ---- the copy

fn length(random: &mut Random) -> u64 {
    match random.below(12) {
        0 => 0,
        1 => 1,
        2 => random.below(4),
        3 | 4 => random.below(12),
        5 => 60 + random.below(20),
        6 => 120 + random.below(20),
        7 => 250 + random.below(20),
        8 => 100 + random.below(300),
        _ => random.below(60),
    }
}

/// Ascending runs below `length` with gaps, at most `most` of them.
pub fn runs(random: &mut Random, length: u64, most: usize) -> Vec<(u64, u64)> {
    let mut runs = Vec::new();
    let (gap, width) = *random.pick(&[(1, 1), (1, 1), (2, 2), (3, 9), (20, 20), (1 + length / 3, 1 + length / 3)]);
    let mut next = if random.chance(50) { 0 } else { random.below(gap + 1) };
    while runs.len() < most && next < length {
        let last = (next + random.below(width)).min(length - 1);
        runs.push((next, last));
        next = last + 2 + random.below(gap);
    }
    while random.chance(10) && !runs.is_empty() {
        runs.remove(random.index(runs.len()));
    }
    runs
}

/// Runs of one position each, as many as a copy holds or a few less, with room for others between them.
fn crowded_runs(random: &mut Random) -> Vec<(u64, u64)> {
    let count = random.within(MAX_RUNS - 3, MAX_RUNS);
    let mut runs = Vec::new();
    let mut next = random.below(3);
    while runs.len() < count {
        runs.push((next, next));
        next += 2 + random.below(3);
    }
    runs
}

/// A copy of `file` under `tag`: held bytes are the file's, other bytes of the buffer are anything.
pub fn copy_of(random: &mut Random, file: &[u8], tag: &[u8], most: usize) -> Copy {
    let runs = if random.chance(35) { vec![] } else { runs(random, file.len() as u64, most) };
    copy_with(random, file, tag, runs)
}

fn copy_with(random: &mut Random, file: &[u8], tag: &[u8], runs: Vec<(u64, u64)>) -> Copy {
    let length = file.len() as u64;
    let mut buffer = random.bytes(file.len());
    for (first, last) in &runs {
        buffer[*first as usize..=*last as usize].copy_from_slice(&file[*first as usize..=*last as usize]);
    }
    Copy { tag: tag.to_vec(), length, runs, buffer }
}

/// The size of a list of runs as bytes.
const RECORD_SIZE: usize = 8 + 16 * MAX_RUNS;

/// A list of runs as bytes: the count, then first and last of each run, 8 bytes each, big-endian, the rest zero.
pub fn record(runs: &[(u64, u64)]) -> Vec<u8> {
    let mut bytes = (runs.len() as u64).to_be_bytes().to_vec();
    for (first, last) in runs {
        bytes.extend(first.to_be_bytes());
        bytes.extend(last.to_be_bytes());
    }
    bytes.resize(RECORD_SIZE, 0);
    bytes
}

/// The runs of a list of runs as bytes. None: another size, a count over 128, or an unused run that is not zero.
pub fn runs_of_record(bytes: &[u8]) -> Option<Vec<(u64, u64)>> {
    if bytes.len() != RECORD_SIZE {
        return None;
    }
    let number = |at: usize| u64::from_be_bytes(bytes[at..at + 8].try_into().unwrap());
    let count = number(0);
    if count > MAX_RUNS as u64 || bytes[8 + 16 * count as usize..].iter().any(|b| *b != 0) {
        return None;
    }
    Some((0..count as usize).map(|i| (number(8 + 16 * i), number(16 + 16 * i))).collect())
}

/// A list of runs as bytes that is likely to break the copy's rule.
pub fn damaged_record(random: &mut Random, length: u64) -> Vec<u8> {
    let length = length.min(LENGTH_LIMIT + 1);
    let mut bytes = record(&runs(random, length, MAX_RUNS));
    let put = |bytes: &mut Vec<u8>, slot: usize, value: u64| {
        bytes[8 * slot..8 * slot + 8].copy_from_slice(&value.to_be_bytes())
    };
    match random.below(8) {
        0 => bytes.truncate(random.index(RECORD_SIZE + 1)),
        1 => bytes.extend(vec![0; random.within(1, 17)]),
        2 => {
            let count = *random.pick(&[0, 1, 32, 33, 127, 128, 129, 130, u64::MAX, 1 << 60]);
            put(&mut bytes, 0, count);
        }
        3 => {
            let value = *random.pick(&[0, 1, length, length.wrapping_sub(1), u64::MAX, u64::MAX - 1, 1 << 63]);
            let slot = random.within(1, 2 * MAX_RUNS);
            put(&mut bytes, slot, value);
        }
        4 => {
            let at = random.index(RECORD_SIZE);
            bytes[at] ^= 1 << random.below(8);
        }
        5 => {
            let slot = random.within(1, 2 * MAX_RUNS);
            let value = random.below(length + 2);
            put(&mut bytes, slot, value);
        }
        6 if length > 3 => {
            // two runs of one position, which touch, or which do not
            let first = random.below(length - 3);
            let second = first + 1 + random.below(2);
            bytes = record(&[(first, first), (second, second)]);
        }
        _ => {}
    }
    bytes
}

/// Tag, length and list of runs for a request, and the room for it where only that decides.
pub fn wanted(random: &mut Random) -> (Vec<u8>, u64, Vec<u8>) {
    let tag = if random.chance(8) { bad_tag(random) } else { strong_tag(random) };
    let length = match random.below(10) {
        0 => LENGTH_LIMIT - 1 + random.below(3),
        1 => random.below(LENGTH_LIMIT),
        2 => *random.pick(&[u64::MAX, u64::MAX - 1, 1 << 63, 1 << 41]),
        _ => length(random),
    };
    let record = if random.chance(20) {
        damaged_record(random, length)
    } else {
        record(&runs(random, length.min(LENGTH_LIMIT + 1), MAX_RUNS))
    };
    (tag, length, record)
}

// ---- saved files

/// A copy of which something is written, and the length of the buffer.
pub struct Writing {
    pub tag: Vec<u8>,
    pub length: u64,
    pub record: Vec<u8>,
    pub room: usize,
}

/// For a saved file.
pub fn saving(random: &mut Random) -> Writing {
    let (tag, length, record) = wanted(random);
    let count = runs_of_record(&record).map_or(random.index(MAX_RUNS + 1), |runs| runs.len());
    let size = 16 + tag.len() + 16 * count;
    let room = *random.pick(&[size, size, size - 1, size + 1, size + 50, 2128, 0]);
    Writing { tag, length, record, room }
}

/// A state that keeps its rule.
fn good_state(random: &mut Random) -> State {
    let length = match random.below(6) {
        0 => LENGTH_LIMIT - random.below(3),
        1 => random.below(LENGTH_LIMIT),
        _ => length(random),
    };
    let most = *random.pick(&[0, 1, 2, 3, 31, 32, 33, 127, 128]);
    State { tag: strong_tag(random), length, runs: runs(random, length, most) }
}

/// A number at or beside one that counts where a run is judged.
fn run_edge(random: &mut Random, state: &State) -> u64 {
    let (first, last) = *random.pick(&state.runs);
    let near = *random.pick(&[first, last, last + 1, state.length]);
    match random.below(8) {
        0 => *random.pick(&[0, u64::MAX, u64::MAX - 1, 1 << 63]),
        1 => near.saturating_sub(1),
        2 => near + 1,
        3 => near + 2,
        _ => near,
    }
}

/// One unit of the saved file of a state, or a byte of it, changed to one at an edge.
fn change_unit(random: &mut Random, state: &State, file: &mut [u8]) {
    let t = state.tag.len();
    let length = *random.pick(&[0, LENGTH_LIMIT - 1, LENGTH_LIMIT, LENGTH_LIMIT + 1, 1 << 56, u64::MAX]);
    let (at, unit) = match random.below(10) {
        0 => (random.index(3), vec![*random.pick(b"HLDhX")]),
        1 => (3, high_byte_first(*random.pick(&[0, 1, 2, 3, 255, 256, 65535]), 2)),
        2 => (5, vec![*random.pick(&[0, 1, 2, t - 1, t + 1, 63, 64, 65, 255]) as u8]),
        3 => (6 + random.index(t), vec![*random.pick(TELLING)]),
        4 => (6 + t, high_byte_first(length, 8)),
        5 => (14 + t, high_byte_first(*random.pick(&[0, 1, 2, 31, 32, 33, 34, 127, 128, 129, 130, 256, 65535]), 2)),
        _ if state.runs.is_empty() => return,
        _ => (16 + t + 8 * random.index(2 * state.runs.len()), high_byte_first(run_edge(random, state), 8)),
    };
    file[at..at + unit.len()].copy_from_slice(&unit);
}

/// A saved file: right, with units changed, damaged, cut or lengthened; or no such file.
pub fn saved_file(random: &mut Random) -> Vec<u8> {
    let mut state = good_state(random);
    if random.chance(8) {
        state.tag = bad_tag(random);
        return saved::bytes(&state);
    }
    let mut file = saved::bytes_under(*random.pick(&[1, 1, 2, 2, 2]), &state);
    for _ in 0..*random.pick(&[0, 0, 1, 1, 1, 2, 3]) {
        change_unit(random, &state, &mut file);
    }
    match random.below(12) {
        0 | 1 => file.truncate(random.index(file.len() + 1)),
        2 => file.truncate(file.len() - 1),
        3 => {
            let count = *random.pick(&[1, 1, 2, 8, 16, 40]);
            file.extend(random.bytes(count));
        }
        4 => damage(random, &mut file),
        5 if random.chance(20) => {
            let count = random.index(60);
            file = random.bytes(count);
        }
        _ => {}
    }
    file
}

// ---- answers for the reader

/// A copy, and an answer to it as one string of bytes.
#[derive(Clone, Debug)]
pub struct Reading {
    pub copy: Copy,
    pub record: Vec<u8>,
    pub answer: Vec<u8>,
}

fn field(random: &mut Random, name: &str, value: &[u8]) -> Vec<u8> {
    let spaces = *random.pick(&[&b" "[..], b" ", b" ", b"", b"\t", b"  "]);
    let tail = if random.chance(8) { blanks(random) } else { vec![] };
    [&any_case(random, name)[..], b":", spaces, value, &tail].concat()
}

fn plain_field(random: &mut Random) -> Vec<u8> {
    let names = [
        "Date",
        "Server",
        "X-y",
        "Accept-Ranges",
        "TE",
        "Transfer-Encodin",
        "ETa",
        "Content-Rang",
        "Content-Length2",
        "!#$%&'*+-.^_`|~09az",
    ];
    let values: &[&[u8]] = &[b"", b"a", b"x:y", b"\x80\xff b", b"bytes 0-0/1", b"\"k1\"", b"\t"];
    let name = *random.pick(&names);
    let value = *random.pick(values);
    field(random, name, value)
}

fn bad_field(random: &mut Random) -> Vec<u8> {
    let lines: &[&[u8]] = &[
        b" folded",
        b"no colon",
        b": no name",
        b"na me: x",
        b"name : x",
        b"name\t: x",
        b"\x80: x",
        b" ",
        b"\t",
        b"--B",
        b"a\x7fb: x",
        b"a: \x00",
        b"a: \x0b",
        b"a: \n",
        b"a: \r",
        b"(: x",
        b"Transfer-Encoding: chunked",
        b"transfer-encoding:",
        b"\"a\": b",
    ];
    random.pick(lines).to_vec()
}

/// A line of a length around the limit.
fn long_field(random: &mut Random) -> Vec<u8> {
    let wanted = random.within(511, 513);
    let mut line = b"Long: ".to_vec();
    line.resize(wanted, b'v');
    line
}

fn status_line(random: &mut Random, status: u64) -> Vec<u8> {
    let texts: &[&[u8]] = &[b" OK", b" Partial Content", b"", b" ", b" \t\x80"];
    let bad: &[&[u8]] = &[
        b"HTTP/1.0 200 OK",
        b"http/1.1 200 OK",
        b"HTTP/1.1  200",
        b"HTTP/1.1 20",
        b"HTTP/1.1 2000",
        b"HTTP/1.1 200\tOK",
        b"",
        b"X",
        b"HTTP/1.1 2a0 OK",
        b"HTTP/1.1",
    ];
    if random.chance(2) {
        return random.pick(bad).to_vec();
    }
    [format!("HTTP/1.1 {status:03}").as_bytes(), *random.pick(texts)].concat()
}

/// A Content-Range value for a span of a file of `n` bytes, at times wrong.
fn content_range(random: &mut Random, first: u64, last: u64, n: u64) -> Vec<u8> {
    let forms: &[&[u8]] = &[
        b"",
        b"bytes",
        b"bytes */10",
        b"bytes 0-0",
        b"bytes 0-0/",
        b"bytes -0/1",
        b"bytes 0-/1",
        b"Bytes 0-0/1",
        b"bytes  0-0/1",
        b"bytes\t0-0/1",
        b"bytes 0 -0/1",
        b"bytes 0-0/*x",
        b"bytes 0-0/1x",
        b"bytes 0-0 /1",
        b"bytes=0-0/1",
        b"bytes 0-0/**",
        b"items 0-0/1",
        b"bytes 0/0-1",
        b"bytes 0-0-0/1",
        b"bytes 0-0/1/1",
    ];
    if random.chance(3) {
        return random.pick(forms).to_vec();
    }
    let stated = match random.below(20) {
        0 => number(random, n),
        1 => digits(random, n + 1),
        2 => digits(random, n.saturating_sub(1)),
        3 => random.pick(&HUGE[..3]).to_vec(),
        4..=7 => b"*".to_vec(),
        _ => digits(random, n),
    };
    let last = if random.chance(3) { number(random, n) } else { digits(random, last) };
    let first = if random.chance(3) { number(random, n) } else { digits(random, first) };
    [b"bytes ", &first[..], b"-", &last, b"/", &stated].concat()
}

/// A span of a file of `n` bytes, seldom reaching beyond it.
fn span(random: &mut Random, n: u64) -> (u64, u64) {
    let first = random.below(n.max(1));
    let most = *random.pick(&[2, 10, 60]);
    let last = match random.below(12) {
        0 => n + random.below(2),
        1 => n.saturating_sub(1),
        2..=5 => first,
        _ => (first + random.below(1 + most)).min(n.max(1) - 1),
    };
    (first, last.max(first))
}

/// The bytes of a span: the file's, at times with one changed; beyond the file anything.
fn data(random: &mut Random, file: &[u8], first: u64, last: u64) -> Vec<u8> {
    let mut data: Vec<u8> = (first..=last).map(|at| file.get(at as usize).copied().unwrap_or(b'?')).collect();
    if random.chance(5) {
        let at = random.index(data.len());
        data[at] ^= 1 << random.below(8);
    }
    data
}

/// A part's lines: a Content-Range of this value among others, at times an odd one.
fn part_lines(random: &mut Random, value: &[u8]) -> Vec<Vec<u8>> {
    let mut lines = vec![field(random, "Content-Range", value)];
    if random.chance(30) {
        lines.push(field(random, "Content-Type", b"text/plain"));
    }
    if random.chance(6) {
        let wanted = random.within(14, 17);
        while lines.len() < wanted {
            lines.push(plain_field(random));
        }
    }
    if random.chance(4) {
        let odd = match random.below(6) {
            0 => field(random, "Content-Range", value),
            1 => field(random, "Content-Length", b"zz"),
            2 => field(random, "Transfer-Encoding", b"chunked"),
            3 => long_field(random),
            _ => bad_field(random),
        };
        lines.push(odd);
    }
    if random.chance(2) {
        lines.remove(0);
    }
    if lines.len() > 1 && random.chance(50) {
        let at = random.index(lines.len());
        lines.swap(0, at);
    }
    lines
}

fn part(random: &mut Random, file: &[u8], boundary: &[u8]) -> Vec<u8> {
    let n = file.len() as u64;
    let (first, last) = span(random, n);
    let value = content_range(random, first, last, n);
    let mut part = [b"--", boundary, b"\r\n"].concat();
    for line in part_lines(random, &value) {
        part.extend(line);
        part.extend(b"\r\n");
    }
    part.extend(b"\r\n");
    part.extend(data(random, file, first, last));
    part.extend(b"\r\n");
    part
}

fn multipart_body(random: &mut Random, file: &[u8], boundary: &[u8]) -> Vec<u8> {
    let mut body = b"\r\n".repeat(*random.pick(&[0, 0, 0, 0, 1, 2, 4, 5]));
    let parts = *random.pick(&[1, 1, 1, 1, 2, 2, 2, 2, 3, 3, 3, 3, 5, 5, 16, 16, 33, 64, 129, 0, 0]);
    for _ in 0..parts {
        body.extend(part(random, file, boundary));
        if random.chance(1) {
            body.extend(*random.pick(&[&b"\r\n"[..], b" ", b"x"]));
        }
    }
    let odd: &[&[u8]] = &[b"-", b"", b"\r\n", b" --", b"-x"];
    let close = if random.chance(95) { b"--" } else { *random.pick(odd) };
    body.extend([b"--", boundary, close].concat());
    let tails: &[&[u8]] = &[b"\r\n", b"\r\n", b"", b"junk \x00\n", b"\r\n--B\r\n"];
    body.extend(*random.pick(tails));
    body
}

/// Parts of single bytes at every second position, so that runs become many.
fn sparse_body(random: &mut Random, file: &[u8], boundary: &[u8]) -> Vec<u8> {
    let mut body = Vec::new();
    let step = random.within(1, 3);
    let mut at = random.index(3);
    while at < file.len() {
        body.extend([b"--", boundary, b"\r\n"].concat());
        body.extend(format!("Content-Range: bytes {at}-{at}/*\r\n\r\n").as_bytes());
        body.push(file[at]);
        body.extend(b"\r\n");
        at += step;
    }
    body.extend([b"--", boundary, b"--\r\n"].concat());
    body
}

/// The fields of a head in random order, with odd ones among them.
fn head(random: &mut Random, status: u64, mut fields: Vec<Vec<u8>>) -> Vec<u8> {
    for _ in 0..*random.pick(&[0, 0, 1, 1, 2, 5]) {
        fields.push(plain_field(random));
    }
    if random.chance(6) && !fields.is_empty() {
        fields.push(random.pick(&fields).clone());
    }
    if random.chance(3) && !fields.is_empty() {
        fields.remove(random.index(fields.len()));
    }
    if random.chance(4) {
        fields.push(bad_field(random));
    }
    if random.chance(4) {
        fields.push(long_field(random));
    }
    if random.chance(4) {
        let wanted = random.within(62, 66);
        while fields.len() < wanted {
            fields.push(plain_field(random));
        }
    }
    for at in (1..fields.len()).rev() {
        let other = random.index(at + 1);
        fields.swap(at, other);
    }
    let mut head = status_line(random, status);
    head.extend(b"\r\n");
    for line in fields {
        head.extend(line);
        head.extend(b"\r\n");
    }
    head.extend(b"\r\n");
    head
}

fn content_length(random: &mut Random, body: usize) -> Vec<u8> {
    let bad: &[&[u8]] = &[
        b"",
        b"+1",
        b"1, 1",
        b"1 1",
        b"0x1",
        b"-1",
        b"2199023255553",
        b"18446744073709551616",
        b"99999999999999999999999999999",
    ];
    let value = match random.below(40) {
        0 => return random.pick(bad).to_vec(),
        1 => 2_199_023_255_552,
        2 => body as u64 + 1,
        3 => (body as u64).saturating_sub(1),
        4 => random.below(body as u64 + 1),
        5 => body as u64 + random.below(20),
        6 => 0,
        _ => body as u64,
    };
    digits(random, value)
}

fn multipart_type(random: &mut Random, boundary: &[u8]) -> Vec<u8> {
    let bad: &[&[u8]] = &[
        b"multipart/byteranges",
        b"multipart/byteranges;",
        b"multipart/byteranges; boundary=",
        b"multipart/byteranges; boundary=\"B\"",
        b"multipart/byteranges; boundary = B",
        b"multipart/byteranges; boundary=B; x=y",
        b"multipart/byteranges; x=y",
        b"multipart/byteranges;; boundary=B",
        b"multipart/mixed; boundary=B",
        b"multipart/byterangesx; boundary=B",
    ];
    if random.chance(6) {
        return random.pick(bad).to_vec();
    }
    let before = if random.chance(10) { blanks(random) } else { vec![] };
    let after = if random.chance(50) { b" ".to_vec() } else { blanks(random) };
    [
        any_case(random, "multipart/byteranges"),
        before,
        b";".to_vec(),
        after,
        any_case(random, "boundary="),
        boundary.to_vec(),
    ]
    .concat()
}

/// A 200's body; its fields are added.
fn whole_file(random: &mut Random, file: &[u8], fields: &mut Vec<Vec<u8>>) -> Vec<u8> {
    if random.chance(5) {
        fields.push(field(random, "Content-Range", b"bytes 0-0/1"));
    }
    let media = if random.chance(10) { multipart_type(random, b"B") } else { b"text/plain".to_vec() };
    fields.push(field(random, "Content-Type", &media));
    match file.len() as u64 {
        0 => vec![],
        n => data(random, file, 0, n - 1),
    }
}

/// A plain 206's body; its fields are added.
fn plain_part(random: &mut Random, file: &[u8], fields: &mut Vec<Vec<u8>>) -> Vec<u8> {
    let n = file.len() as u64;
    let (first, last) = span(random, n);
    let value = content_range(random, first, last, n);
    fields.push(field(random, "Content-Range", &value));
    data(random, file, first, last)
}

/// A multipart's body; its fields are added.
fn multipart(random: &mut Random, file: &[u8], fields: &mut Vec<Vec<u8>>) -> Vec<u8> {
    let boundary = boundary(random);
    let value = multipart_type(random, &boundary);
    fields.push(field(random, "Content-Type", &value));
    if random.chance(4) {
        fields.push(field(random, "Content-Range", b"bytes 0-0/1"));
    }
    if random.chance(15) {
        return sparse_body(random, file, &boundary);
    }
    multipart_body(random, file, &boundary)
}

/// A 416's body; its fields are added.
fn unsatisfied(random: &mut Random, file: &[u8], fields: &mut Vec<Vec<u8>>) -> Vec<u8> {
    if random.chance(50) {
        fields.remove(0);
    }
    fields.push(field(random, "Content-Range", format!("bytes */{}", file.len()).as_bytes()));
    let count = random.index(9);
    random.bytes(count)
}

/// An answer that may break any rule.
fn made_answer(random: &mut Random, file: &[u8], tag: &[u8]) -> Vec<u8> {
    let odd_tag = if random.chance(50) { strong_tag(random) } else { bad_tag(random) };
    let etag = if random.chance(94) { tag.to_vec() } else { odd_tag };
    let mut fields = vec![field(random, "ETag", &etag)];
    let (status, body) = match random.below(20) {
        0..=4 => (200, whole_file(random, file, &mut fields)),
        5..=9 => (206, plain_part(random, file, &mut fields)),
        10..=16 => (206, multipart(random, file, &mut fields)),
        _ => (416, unsatisfied(random, file, &mut fields)),
    };
    let other = *random.pick(&[0, 100, 200, 201, 204, 206, 304, 404, 416, 500, 999]);
    let status = if random.chance(4) { other } else { status };
    let length = content_length(random, body.len());
    fields.push(field(random, "Content-Length", &length));
    [head(random, status, fields), body].concat()
}

/// An answer of the model's server to a GET of `file`, of a changed file or under another tag.
fn server_answer(random: &mut Random, file: &[u8], tag: &[u8]) -> Vec<u8> {
    let mut file = file.to_vec();
    if random.chance(10) && !file.is_empty() {
        let at = random.index(file.len());
        file[at] ^= 1;
    }
    let other = strong_tag(random);
    let asked = Asked {
        method: b"GET".to_vec(),
        range: Some(range(random, file.len() as u64)),
        if_range: None,
        tag: if random.chance(90) { tag.to_vec() } else { other },
        media: if random.chance(50) { vec![] } else { b"text/plain".to_vec() },
        boundary: boundary(random),
        modified: modified(random),
        reference: 0,
        file,
        room: usize::MAX,
    };
    match server::answer(&asked) {
        Answer::Written { bytes, .. } => bytes,
        Answer::Refused(_) => vec![],
    }
}

/// A copy and an answer for it: whole, damaged, cut or with more behind it.
pub fn reading(random: &mut Random) -> Reading {
    let crowded = if random.chance(8) { crowded_runs(random) } else { vec![] };
    let n = match crowded.last() {
        Some((_, last)) => last + 1 + random.below(20),
        None => length(random),
    };
    let file = random.bytes(n as usize);
    let tag = strong_tag(random);
    let mut copy = match crowded.is_empty() {
        true => copy_of(random, &file, &tag, MAX_RUNS),
        false => copy_with(random, &file, &tag, crowded),
    };
    let mut answer =
        if random.chance(25) { server_answer(random, &file, &tag) } else { made_answer(random, &file, &tag) };
    if random.chance(20) {
        damage(random, &mut answer);
    }
    if random.chance(15) {
        answer.truncate(random.index(answer.len() + 1));
    }
    if random.chance(20) {
        answer.extend(*random.pick(&[&b"\r\n"[..], b"more", b"\x00"]));
    }
    let mut bytes = record(&copy.runs);
    match random.below(100) {
        0 => copy.tag = bad_tag(random),
        1 => copy.length += 1,
        2 => copy.length = *random.pick(&[0, n.saturating_sub(1), LENGTH_LIMIT, LENGTH_LIMIT + 1, u64::MAX]),
        3 => copy.buffer.push(0),
        4 => bytes = damaged_record(random, n),
        _ => {}
    }
    Reading { copy, record: bytes, answer }
}
