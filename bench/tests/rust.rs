//! The Rust written for comparison follows the same rules: vectors, and random cases beside the model.
use baxoodhiir_bench::rust::server::{answer, Answered, Asked as Call, LastModified};
use baxoodhiir_bench::rust::tablet::{self as fast, Report as Said};
use baxoodhiir_tests::cases::{self, record, runs_of_record, Reading};
use baxoodhiir_tests::random::{setting, Random};
use baxoodhiir_tests::server::{self, Answer, Asked};
use baxoodhiir_tests::tablet::{self, Copy, Report};
use baxoodhiir_tests::vectors;

fn check_answer(asked: &Asked, wanted: &Answer, label: &str) {
    let call = Call {
        method: &asked.method,
        range: asked.range.as_deref(),
        if_range: asked.if_range.as_deref(),
        file: &asked.file,
        tag: &asked.tag,
        media: &asked.media,
        boundary: &asked.boundary,
        modified: asked.modified.map(|given| LastModified { seconds: given.seconds, strong: given.strong }),
        reference: asked.reference,
    };
    let mut out = vec![0xA5; asked.room];
    let mut wanted_out = out.clone();
    let result = answer(&call, &mut out);
    let wanted_result = match wanted {
        Answer::Refused(number) => Err(*number),
        Answer::Written { status, reason, bytes } => {
            wanted_out[..bytes.len()].copy_from_slice(bytes);
            Ok(Answered { status: *status, reason: *reason as usize, written: bytes.len() })
        }
    };
    assert_eq!(result, wanted_result, "{label}: {asked:?}");
    assert!(out == wanted_out, "{label}: {asked:?}");
}

fn check_read(reading: &Reading, piece: usize, wanted: (usize, Report), after: (&[u8], &[u8]), label: &str) {
    let copy = &reading.copy;
    let wanted_said = match wanted.1 {
        Report::More => Said::More,
        Report::Finished => Said::Finished,
        Report::Refused(number) => Said::Refused(number as u8),
    };
    for read in [fast::read, fast::read_checked] {
        let (mut record, mut buffer) = (reading.record.clone(), reading.copy.buffer.clone());
        let (taken, said) = read(&copy.tag, copy.length, &mut record, &mut buffer, &reading.answer, piece);
        assert_eq!((taken, said), (wanted.0, wanted_said), "{label}, pieces of {piece}: {reading:?}");
        assert!((&record[..], &buffer[..]) == after, "{label}, pieces of {piece}: {reading:?}");
    }
}

#[test]
fn server_vectors() {
    vectors::all_server_cases().for_each(|case| check_answer(&case.asked, &case.answer, &case.place));
}

#[test]
fn request_vectors() {
    for case in vectors::all_request_cases() {
        let mut out = vec![0; case.room];
        let result = fast::request(&case.tag, case.length, &record(&case.runs), &mut out);
        let request = result.map(|written| out[..written].to_vec());
        assert_eq!(request, case.request, "{}", case.place);
    }
}

#[test]
fn reader_vectors() {
    for case in vectors::all_reader_cases() {
        let taken = case.reports.iter().map(|(taken, _)| taken).sum();
        let wanted = (taken, case.reports.last().unwrap().1);
        let answer = case.pieces.concat();
        let reading = Reading { record: record(&case.before.runs), copy: case.before, answer };
        for piece in [0, 1, 2, 7, 64] {
            check_read(&reading, piece, wanted, (&record(&case.after.runs), &case.after.buffer), &case.place);
        }
    }
}

#[test]
fn random_cases() {
    let seed = setting("BAXOODHIIR_SEED", 1);
    for at in 0..setting("BAXOODHIIR_CASES", 20_000) {
        let seed = seed.wrapping_add(at);
        let label = format!("seed {seed}");
        let asked = cases::asked(&mut Random::new(seed));
        check_answer(&asked, &server::answer(&asked), &label);
        let (tag, length, bytes) = cases::wanted(&mut Random::new(seed));
        let wanted = runs_of_record(&bytes).ok_or(19).and_then(|runs| tablet::request(&tag, length, &runs, 2000));
        let mut out = [0; 2000];
        let request = fast::request(&tag, length, &bytes, &mut out).map(|written| out[..written].to_vec());
        assert_eq!(request, wanted, "{label}");
        let reading = cases::reading(&mut Random::new(seed));
        let mut copy = reading.copy.clone();
        let (wanted, after) = match runs_of_record(&reading.record) {
            Some(runs) => {
                copy = Copy { runs, ..copy };
                let wanted = tablet::read(&mut copy, &reading.answer);
                (wanted, record(&copy.runs))
            }
            None => ((0, Report::Refused(19)), reading.record.clone()),
        };
        for piece in [0, 1, 5] {
            check_read(&reading, piece, wanted, (&after, &copy.buffer), &label);
        }
    }
}
