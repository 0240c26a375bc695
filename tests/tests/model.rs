//! The model gives what the vectors say, and the random cases reach every outcome of it.
use baxoodhiir_tests::cases::{self, runs_of_record};
use baxoodhiir_tests::random::Random;
use baxoodhiir_tests::saved::State;
use baxoodhiir_tests::server::Asked;
use baxoodhiir_tests::tablet::Copy;
use baxoodhiir_tests::{bytes, dates, saved, server, tablet, vectors};
use std::collections::BTreeMap;

fn check_server(file: &str) -> usize {
    let cases = vectors::server_cases(file);
    for case in &cases {
        assert_eq!(server::answer(&case.asked), case.answer, "{}", case.place);
    }
    cases.len()
}

fn check_dates(file: &str) -> usize {
    let cases = vectors::date_cases(file);
    for case in &cases {
        assert_eq!(dates::read(&case.value, case.reference), case.second, "{}", case.place);
    }
    cases.len()
}

fn check_requests(file: &str) -> usize {
    let cases = vectors::request_cases(file);
    for case in &cases {
        let request = tablet::request(&case.tag, case.length, &case.runs, case.room);
        assert_eq!(request, case.request, "{}", case.place);
    }
    cases.len()
}

fn check_readings(file: &str) -> usize {
    let cases = vectors::reader_cases(file);
    for case in &cases {
        let mut copy = case.before.clone();
        let (taken, report) = tablet::read(&mut copy, &case.pieces.concat());
        let reports = tablet::by_piece(&case.pieces, taken, report);
        assert_eq!(reports, case.reports, "{}", case.place);
        assert_eq!(copy, case.after, "{}", case.place);
        if let Some(complete) = case.complete {
            assert_eq!(tablet::is_complete(&copy), complete, "{}", case.place);
        }
    }
    cases.len()
}

fn check_savings(file: &str) -> usize {
    let cases = vectors::save_cases(file);
    for case in &cases {
        assert_eq!(saved::save(&case.state, case.room), case.saved, "{}", case.place);
    }
    cases.len()
}

fn is_complete(state: &State) -> bool {
    let State { tag, length, runs } = state.clone();
    tablet::is_complete(&Copy { tag, length, runs, buffer: vec![] })
}

/// What is loaded is also saved as the same bytes again, but for the version, which is then 2.
fn check_loadings(file: &str) -> usize {
    let cases = vectors::load_cases(file);
    for case in &cases {
        let loaded = saved::load(&case.file);
        assert_eq!(loaded, case.loaded, "{}", case.place);
        if let Ok(state) = &loaded {
            let mut anew = case.file.clone();
            anew[4] = 2;
            assert_eq!(saved::save(state, anew.len()), Ok(anew), "{}", case.place);
        }
        assert_eq!(Some(is_complete(loaded.as_ref().unwrap_or(&case.before))), case.complete, "{}", case.place);
    }
    cases.len()
}

#[test]
fn vectors() {
    assert_eq!(check_server(vectors::SERVER), 169);
    assert_eq!(check_requests(vectors::REQUEST), 46);
    assert_eq!((check_readings(vectors::READER), check_readings(vectors::READER_PARTS)), (293, 246));
    assert_eq!((check_dates(vectors::DATES), check_server(vectors::DATES)), (156, 248));
    assert_eq!(check_server(vectors::ZEROS), 443);
    assert_eq!((check_savings(vectors::SAVED), check_loadings(vectors::SAVED)), (70, 341));
    assert_eq!((check_server(vectors::COUNTS), check_requests(vectors::COUNTS)), (211, 40));
    assert_eq!(check_readings(vectors::COUNTS), 74);
    assert_eq!((check_savings(vectors::COUNTS), check_loadings(vectors::COUNTS)), (24, 133));
}

#[test]
fn edges() {
    assert!(check_server(vectors::SERVER_EDGES) >= 574);
    assert!(check_readings(vectors::HEAD_EDGES) >= 200);
    assert!(check_requests(vectors::TABLET_EDGES) >= 59);
    assert!(check_readings(vectors::TABLET_EDGES) >= 196);
    assert!(check_loadings(vectors::SAVED_EDGES) >= 321);
}

/// How often each outcome was seen must be at least `least`, for every outcome named.
fn each_is_reached(seen: &BTreeMap<String, usize>, outcomes: &[&str], least: usize) {
    for outcome in outcomes {
        let count = seen.get(*outcome).copied().unwrap_or(0);
        assert!(count >= least, "{outcome} was reached {count} times: {seen:?}");
    }
}

#[test]
fn random_answers_reach_every_outcome() {
    let mut seen = BTreeMap::new();
    for seed in 0..20_000 {
        let outcome = match server::answer(&cases::asked(&mut Random::new(seed))) {
            server::Answer::Refused(number) => number.to_string(),
            server::Answer::Written { reason, .. } => format!("{reason:?}"),
        };
        *seen.entry(outcome).or_insert(0) += 1;
    }
    let reasons = [
        "Head",
        "None",
        "Long",
        "Unit",
        "Malformed",
        "Many",
        "ChangedFile",
        "Invalid",
        "Unsatisfiable",
        "Empty",
        "Partial",
    ];
    each_is_reached(&seen, &reasons, 50);
    each_is_reached(&seen, &["1", "3", "4", "5", "6", "7", "9"], 50);
}

/// How a date in an If-Range that counts compares with the file's Last-Modified; None: no such If-Range.
fn date_outcome(asked: &Asked) -> Option<String> {
    let server::Answer::Written { reason, .. } = server::answer(asked) else { return None };
    let (value, modified) = (asked.if_range.as_ref()?, asked.modified?);
    if ![server::Reason::Partial, server::Reason::ChangedFile].contains(&reason) {
        return None;
    }
    let value = bytes::trim(value);
    let form = match value.len() {
        29 => "fixdate",
        24 => "asctime",
        _ => "rfc850",
    };
    let is = match dates::read(value, asked.reference) {
        None => return Some(format!("no date, {reason:?}")),
        Some(second) if second == modified.seconds && modified.strong => "the same",
        Some(second) if second == modified.seconds => "weak",
        Some(second) if second == modified.seconds - 1 => "one before",
        Some(second) if second == modified.seconds + 1 => "one behind",
        Some(_) => "another",
    };
    Some(format!("{form}, {is}, {reason:?}"))
}

#[test]
fn random_dates_reach_every_outcome() {
    let mut seen = BTreeMap::new();
    for seed in 0..20_000 {
        if let Some(outcome) = date_outcome(&cases::asked(&mut Random::new(seed))) {
            *seen.entry(outcome).or_insert(0) += 1;
        }
    }
    for form in ["fixdate", "asctime", "rfc850"] {
        each_is_reached(&seen, &[&format!("{form}, the same, Partial")], 100);
        for is in ["weak", "one before", "one behind", "another"] {
            each_is_reached(&seen, &[&format!("{form}, {is}, ChangedFile")], 20);
        }
    }
    each_is_reached(&seen, &["no date, ChangedFile"], 100);
}

#[test]
fn random_savings_reach_every_outcome() {
    let mut seen = BTreeMap::new();
    for seed in 0..20_000 {
        let saving = cases::saving(&mut Random::new(seed));
        let outcome = match runs_of_record(&saving.record) {
            None => "Err(19)".to_string(),
            Some(runs) => {
                let state = State { tag: saving.tag, length: saving.length, runs };
                format!("{:?}", saved::save(&state, saving.room).map(|_| ()))
            }
        };
        *seen.entry(outcome).or_insert(0) += 1;
    }
    each_is_reached(&seen, &["Ok(())", "Err(19)", "Err(20)"], 1000);
}

#[test]
fn random_loadings_reach_every_outcome() {
    let mut seen = BTreeMap::new();
    for seed in 0..20_000 {
        let outcome = match saved::load(&cases::saved_file(&mut Random::new(seed))) {
            Err(number) => number.to_string(),
            Ok(state) if is_complete(&state) => "complete".to_string(),
            Ok(_) => "incomplete".to_string(),
        };
        *seen.entry(outcome).or_insert(0) += 1;
    }
    each_is_reached(&seen, &["22", "23", "24", "25", "26", "27", "28", "29", "30", "complete", "incomplete"], 500);
}

/// Both sides of the most runs of each version.
#[test]
fn random_loadings_reach_every_count() {
    let mut seen = BTreeMap::new();
    for seed in 0..20_000 {
        let file = cases::saved_file(&mut Random::new(seed));
        let outcome = match saved::load(&file) {
            Ok(state) => format!("version {}, {} runs", file[4], state.runs.len()),
            Err(26) => format!("version {}, 26", file[4]),
            Err(_) => continue,
        };
        *seen.entry(outcome).or_insert(0) += 1;
    }
    each_is_reached(&seen, &["version 1, 31 runs", "version 1, 32 runs", "version 1, 26"], 50);
    each_is_reached(&seen, &["version 2, 33 runs", "version 2, 127 runs", "version 2, 128 runs", "version 2, 26"], 50);
}

/// Requests for as many holes as one asks for, of copies with fewer, as many and more.
#[test]
fn random_requests_reach_every_count() {
    let mut seen = BTreeMap::new();
    for seed in 0..20_000 {
        let (tag, length, record) = cases::wanted(&mut Random::new(seed));
        let Some(runs) = runs_of_record(&record) else { continue };
        let Ok(request) = tablet::request(&tag, length, &runs, usize::MAX) else { continue };
        let asked = request.iter().filter(|byte| **byte == b',').count() + 1;
        *seen.entry(format!("{asked} holes of a copy with {} runs", runs.len())).or_insert(0) += 1;
    }
    let edges =
        ["63 holes of a copy with 63 runs", "64 holes of a copy with 64 runs", "64 holes of a copy with 65 runs"];
    each_is_reached(&seen, &edges, 5);
    each_is_reached(&seen, &["64 holes of a copy with 127 runs", "64 holes of a copy with 128 runs"], 5);
}

fn count_of(bytes: &[u8], part: &[u8]) -> usize {
    bytes.windows(part.len()).filter(|window| *window == part).count()
}

/// Answers of as many parts as a Range has specs at most, and one more spec.
#[test]
fn random_answers_reach_every_count() {
    let mut seen = BTreeMap::new();
    for seed in 0..20_000 {
        let asked = cases::asked(&mut Random::new(seed));
        let specs = asked.range.as_ref().map_or(0, |range| count_of(range, b"-"));
        let server::Answer::Written { reason, bytes, .. } = server::answer(&asked) else { continue };
        let outcome = match reason {
            server::Reason::Partial => format!("{} parts", count_of(&bytes, b"Content-Range: ")),
            reason => format!("{reason:?} of {specs} specs"),
        };
        *seen.entry(outcome).or_insert(0) += 1;
    }
    each_is_reached(&seen, &["17 parts", "63 parts", "64 parts"], 5);
    each_is_reached(&seen, &["ChangedFile of 64 specs", "Many of 65 specs"], 50);
}

/// Copies that get more runs, up to as many as there may be, and readings refused at one more.
#[test]
fn random_readings_reach_every_count() {
    let mut seen = BTreeMap::new();
    for seed in 0..20_000 {
        let reading = cases::reading(&mut Random::new(seed));
        let Some(runs) = runs_of_record(&reading.record) else { continue };
        let before = runs.len();
        let mut copy = Copy { runs, ..reading.copy };
        let (_, report) = tablet::read(&mut copy, &reading.answer);
        if report == tablet::Report::Refused(16) {
            assert_eq!(copy.runs.len(), 128);
            *seen.entry("16".to_string()).or_insert(0) += 1;
        } else if copy.runs.len() > before {
            *seen.entry(format!("{} runs", copy.runs.len())).or_insert(0) += 1;
        }
    }
    each_is_reached(&seen, &["16"], 50);
    each_is_reached(&seen, &["127 runs", "128 runs"], 5);
}

#[test]
fn random_readings_reach_every_outcome() {
    let mut seen = BTreeMap::new();
    for seed in 0..20_000 {
        let reading = cases::reading(&mut Random::new(seed));
        let outcome = match runs_of_record(&reading.record) {
            None => "Refused(19)".to_string(),
            Some(runs) => {
                let mut copy = Copy { runs, ..reading.copy };
                format!("{:?}", tablet::read(&mut copy, &reading.answer).1)
            }
        };
        *seen.entry(outcome).or_insert(0) += 1;
    }
    let refusals: Vec<String> =
        [11, 12, 13, 14, 15, 16, 17, 19].iter().map(|number| format!("Refused({number})")).collect();
    each_is_reached(&seen, &refusals.iter().map(String::as_str).collect::<Vec<_>>(), 50);
    each_is_reached(&seen, &["More", "Finished"], 1000);
}
