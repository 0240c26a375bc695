//! `bench`: times every case. `bench count`: how many there are. `bench only NUMBER SIDE`: runs one side of one
//! case, for counting instructions.
mod cases;
use cases::{Case, Side, CASES};
use std::time::{Duration, Instant};

/// Time spent on one case, all passes of all sides.
const BUDGET: Duration = Duration::from_millis(1500);
const LEAST_PASSES: usize = 20;
/// A timed pass repeats a short case until it is about this long.
const PASS: Duration = Duration::from_micros(300);

/// The mean time of `repeats` passes, after one that is not timed.
fn time(case: &mut Case, side: Side, repeats: u32) -> Duration {
    case.run(side);
    let begin = Instant::now();
    for _ in 0..repeats {
        case.run(side);
    }
    begin.elapsed() / repeats
}

/// The least time of each side. The sides take turns, and so does who is first.
fn least_times(case: &mut Case) -> [Duration; 4] {
    let once = time(case, Side::Rust, 1).max(Duration::from_nanos(100));
    let repeats = (PASS.as_nanos() / once.as_nanos()).clamp(1, 10_000) as u32;
    let [mut rattle, mut rust, mut checked, mut memcpy] = [Duration::MAX; 4];
    let begin = Instant::now();
    let mut passes = 0;
    while passes < LEAST_PASSES || begin.elapsed() < BUDGET {
        if passes % 2 == 0 {
            rattle = time(case, Side::Rattle, repeats).min(rattle);
        }
        rust = time(case, Side::Rust, repeats).min(rust);
        if passes % 2 == 1 {
            rattle = time(case, Side::Rattle, repeats).min(rattle);
        }
        if case.reads() {
            checked = time(case, Side::Checked, repeats).min(checked);
        }
        memcpy = time(case, Side::Memcpy, repeats).min(memcpy);
        passes += 1;
    }
    [rattle, rust, checked, memcpy]
}

/// One pass, under a name by which its instructions are counted.
#[inline(never)]
#[no_mangle]
fn counted_pass(case: &mut Case, side: Side) {
    case.run(side);
}

fn micros(time: Duration) -> f64 {
    time.as_nanos() as f64 / 1000.0
}

fn main() {
    let words: Vec<String> = std::env::args().skip(1).collect();
    match words.iter().map(String::as_str).collect::<Vec<_>>()[..] {
        [] => {
            println!("| case | bytes | Rattle, µs | Rust, µs | ratio | Rust that checks, µs | ratio | memcpy, µs |");
            println!("|---|---:|---:|---:|---:|---:|---:|---:|");
            for make in CASES {
                let mut case = make();
                let [rattle, rust, checked, memcpy] = least_times(&mut case).map(micros);
                let (name, bytes, ratio) = (case.name, case.bytes, rattle / rust);
                let beside =
                    if case.reads() { format!("{checked:.3} | {:.2}", rattle / checked) } else { " | ".into() };
                println!("| {name} | {bytes} | {rattle:.3} | {rust:.3} | {ratio:.2} | {beside} | {memcpy:.3} |");
            }
        }
        ["count"] => println!("{}", CASES.len()),
        ["only", number, side] => {
            let side = Side::named(side).unwrap_or_else(|| panic!("no side {side}"));
            let mut case = CASES[number.parse::<usize>().expect("a case's number")]();
            println!("{}\t{}", case.bytes, case.name);
            counted_pass(&mut case, side);
        }
        _ => panic!("usage: bench [count | only NUMBER rattle|rust|checked|memcpy]"),
    }
}
