//! Writes random cases with what the model gives, in the form of the stored cases: `cases server|date|request|reader COUNT SEED`.
//! A reader's answer is split at random places. Cases whose record breaks its rule are left out.
use baxoodhiir_tests::cases::{self, runs_of_record};
use baxoodhiir_tests::random::Random;
use baxoodhiir_tests::tablet::{self, Copy};
use baxoodhiir_tests::vectors::*;
use baxoodhiir_tests::{dates, server, tablet::Report};

fn server_case(random: &mut Random) -> String {
    let asked = cases::asked(random);
    format!("{} = {}", server_line(&asked), answer_line(&server::answer(&asked)))
}

fn date_case(random: &mut Random) -> String {
    let (value, reference) = cases::dated(random);
    let read = match dates::read(&value, reference) {
        Some(second) => format!("second {second}"),
        None => "invalid".to_string(),
    };
    format!("{} {reference} = {read}", hex(&value))
}

fn request_case(random: &mut Random) -> Option<String> {
    let (tag, length, record) = cases::wanted(random);
    let runs = runs_of_record(&record)?;
    let room = *random.pick(&[0, 33, 34, 35, 60, 100, 200, 1000, 2000]);
    let right = match tablet::request(&tag, length, &runs, room) {
        Err(19) => return None,
        Err(number) => format!("refuse {number}"),
        Ok(bytes) => format!("request {}", hex(&bytes)),
    };
    Some(format!("{} {length} {} {room} = {right}", hex(&tag), runs_line(&runs)))
}

/// The answer in pieces, some of them empty.
fn split(random: &mut Random, answer: &[u8]) -> Vec<Vec<u8>> {
    let mut pieces = Vec::new();
    let mut rest = answer;
    let most = *random.pick(&[1, 3, 40, 200, 100_000]);
    while !rest.is_empty() {
        let count = random.within(0, most).min(rest.len());
        pieces.push(rest[..count].to_vec());
        rest = &rest[count..];
    }
    pieces.push(vec![]);
    pieces
}

fn reader_case(random: &mut Random) -> Option<String> {
    let reading = cases::reading(random);
    let before = Copy { runs: runs_of_record(&reading.record)?, ..reading.copy };
    let mut copy = before.clone();
    let (taken, report) = tablet::read(&mut copy, &reading.answer);
    if report == Report::Refused(19) {
        return None;
    }
    let pieces = split(random, &reading.answer);
    let reports = reports_line(&tablet::by_piece(&pieces, taken, report));
    let complete = if tablet::is_complete(&copy) { "complete" } else { "incomplete" };
    let (tag, runs, buffer) = (hex(&before.tag), runs_line(&before.runs), hex(&before.buffer));
    let left = format!("{tag} {} {runs} {buffer} {}", before.length, pieces_line(&pieces));
    Some(format!("{left} = {reports} {} {} {complete}", runs_line(&copy.runs), hex(&copy.buffer)))
}

fn main() {
    let words: Vec<String> = std::env::args().skip(1).collect();
    let [kind, count, seed] = &words[..] else { panic!("usage: cases server|date|request|reader COUNT SEED") };
    let seed: u64 = seed.parse().expect("a seed");
    for at in 0..count.parse().expect("a count") {
        let mut random = Random::new(seed.wrapping_add(at));
        let case = match kind.as_str() {
            "server" => Some(server_case(&mut random)),
            "date" => Some(date_case(&mut random)),
            "request" => request_case(&mut random),
            "reader" => reader_case(&mut random),
            other => panic!("no kind {other}"),
        };
        if let Some(case) = case {
            println!("{case}");
        }
    }
}
