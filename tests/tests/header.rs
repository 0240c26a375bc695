//! The numbers for C: include/baxoodhiir.h, the binding for Rust and crates/baxoodhiir/specs/Anchors.antt say the same. Without the archive:
//! `cargo test --offline --release --manifest-path tests/Cargo.toml --no-default-features --test header`.
use std::collections::{BTreeMap, BTreeSet};
use std::path::PathBuf;

/// Every number of the documents that C names.
const NUMBERS: [(&str, u64); 47] = [
    ("BAD_METHOD", 1),
    ("FILE_TOO_LONG", 2),
    ("BAD_TAG", 3),
    ("BAD_TYPE", 4),
    ("BAD_BOUNDARY", 5),
    ("BOUNDARY_IN_DATA", 6),
    ("ANSWER_TOO_LONG", 7),
    ("BAD_TIME", 9),
    ("BAD_HEAD", 11),
    ("BAD_STATUS", 12),
    ("OTHER_FILE", 13),
    ("BAD_CONTENT_RANGE", 14),
    ("BAD_MULTIPART", 15),
    ("TOO_MANY_RUNS", 16),
    ("BYTE_DIFFERS", 17),
    ("COPY_COMPLETE", 18),
    ("BAD_COPY", 19),
    ("REQUEST_TOO_LONG", 20),
    ("BAD_MARK", 22),
    ("UNKNOWN_VERSION", 23),
    ("BAD_SAVED_TAG", 24),
    ("SAVED_LENGTH_TOO_LONG", 25),
    ("TOO_MANY_SAVED_RUNS", 26),
    ("BAD_SAVED_RUNS", 27),
    ("SAVED_RUN_TOO_FAR", 28),
    ("SAVED_CUT_SHORT", 29),
    ("SAVED_TRAILING", 30),
    ("MORE", 0),
    ("FINISHED", 100),
    ("WRITTEN", 0),
    ("LOADED", 0),
    ("REASON_NOT_ANSWERED", 0),
    ("REASON_HEAD", 1),
    ("REASON_NONE", 2),
    ("REASON_LONG", 3),
    ("REASON_UNIT", 4),
    ("REASON_MALFORMED", 5),
    ("REASON_MANY", 6),
    ("REASON_CHANGED_FILE", 7),
    ("REASON_INVALID", 8),
    ("REASON_UNSATISFIABLE", 9),
    ("REASON_EMPTY", 10),
    ("REASON_PARTIAL", 11),
    ("MAX_RUNS", 128),
    ("RUNS_SIZE", 2056),
    ("MAX_TAG", 64),
    ("MAX_SAVED", 2128),
];

/// Those that are no outcome of a call, and those that say of a call that it did what was asked.
const SIZES: [&str; 4] = ["MAX_RUNS", "RUNS_SIZE", "MAX_TAG", "MAX_SAVED"];
const DONE: [&str; 4] = ["MORE", "FINISHED", "WRITTEN", "LOADED"];

/// The reasons, in the order of the table of statuses.
const REASONS: [&str; 11] = [
    "HEAD",
    "NONE",
    "LONG",
    "UNIT",
    "MALFORMED",
    "MANY",
    "CHANGED FILE",
    "INVALID",
    "UNSATISFIABLE",
    "EMPTY",
    "PARTIAL",
];

fn text(path: &str) -> String {
    let path = PathBuf::from(env!("CARGO_MANIFEST_DIR")).join("..").join(path);
    std::fs::read_to_string(&path).unwrap_or_else(|e| panic!("{}: {e}", path.display()))
}

/// The number that every name has in the header; each is defined once.
fn defined() -> BTreeMap<String, u64> {
    let mut numbers = BTreeMap::new();
    for line in text("include/baxoodhiir.h").lines() {
        let mut words = line.split_whitespace();
        if words.next() != Some("#define") {
            continue;
        }
        let name = words.next().unwrap();
        let Some(value) = words.next() else { continue };
        let name = name.strip_prefix("BAXOODHIIR_").unwrap_or_else(|| panic!("{line}"));
        let value = value.parse().unwrap_or_else(|_| panic!("{line}"));
        assert_eq!(numbers.insert(name.to_string(), value), None, "{name} is defined twice");
    }
    numbers
}

#[test]
fn header() {
    let table: BTreeMap<String, u64> = NUMBERS.iter().map(|(name, k)| (name.to_string(), *k)).collect();
    assert_eq!(table.len(), NUMBERS.len());
    assert_eq!(defined(), table);
}

/// The refusals of the header.
fn refused() -> BTreeMap<String, u64> {
    let mut numbers = defined();
    let others = [SIZES, DONE].concat();
    numbers.retain(|name, _| !name.starts_with("REASON_") && !others.contains(&name.as_str()));
    numbers
}

/// Within a group of names no two share a number: C can tell them apart.
#[test]
fn apart() {
    let numbers = defined();
    let reasons: Vec<_> = numbers.iter().filter(|(name, _)| name.starts_with("REASON_")).map(|(_, k)| *k).collect();
    let refusals: Vec<_> = refused().into_values().collect();
    let outcomes = |done: &[&str]| [refusals.clone(), done.iter().map(|name| numbers[*name]).collect()].concat();
    for group in [reasons, outcomes(&["MORE", "FINISHED"]), outcomes(&["WRITTEN"]), outcomes(&["LOADED"])] {
        assert_eq!(group.iter().collect::<BTreeSet<_>>().len(), group.len(), "{group:?}");
    }
}

/// The list of runs: a count and `MAX_RUNS` runs of two numbers, each in 8 bytes; both numbers are those that are proved.
#[test]
fn list_of_runs() {
    let numbers = defined();
    assert_eq!(numbers["RUNS_SIZE"], 8 + 16 * numbers["MAX_RUNS"]);
    let limits = text("crates/rules_demands/specs/AnchorLimits.antt");
    assert!(limits.contains(&format!(" max_runs is {}\n", numbers["MAX_RUNS"])));
    let anchors = text("crates/baxoodhiir/specs/Anchors.antt");
    assert!(anchors.contains(&format!(" runs_size ≡ {}\n", numbers["RUNS_SIZE"])));
}

/// The longest saved file: mark, version and the tag's count, length and the count of runs are 16 bytes, then the tag and the runs.
#[test]
fn saved_file() {
    let numbers = defined();
    assert_eq!(numbers["MAX_SAVED"], 16 + numbers["MAX_TAG"] + 16 * numbers["MAX_RUNS"]);
    let limits = text("crates/rules_demands/specs/AnchorLimits.antt");
    assert!(limits.contains(&format!(" max_tag is {}\n", numbers["MAX_TAG"])));
    let saved = text("crates/rules_demands/specs/AnchorSaved.antt");
    assert!(saved.contains(&format!(" max_saved is {} ", numbers["MAX_SAVED"])));
}

/// The rows of a record of crates/baxoodhiir/specs/Anchors.antt, each by the header's name and the number at its end.
fn rows(record: &str) -> BTreeMap<String, u64> {
    let anchors = text("crates/baxoodhiir/specs/Anchors.antt");
    let (_, rest) = anchors.split_once(&format!("pub record {record} : Type 0 where\n")).unwrap();
    let body = rest.split("\n\n").next().unwrap();
    let mut numbers = BTreeMap::new();
    for row in body.split("  pub ").skip(1) {
        let (name, claim) = row.split_once(" :").unwrap();
        let (_, number) = claim.rsplit_once(" ≡ ").unwrap();
        let number = number.trim().parse().unwrap_or_else(|_| panic!("{row}"));
        let name = name.to_uppercase();
        assert_eq!(numbers.insert(name, number), None, "{row}");
    }
    numbers
}

/// Every refusal of the header is a row of the proved table, and the other way round.
#[test]
fn refusals() {
    assert_eq!(rows("RefusalsNumbered"), refused());
}

/// What the binding for Rust says in its text: the reasons, and the numbers that it tells apart.
#[test]
fn binding() {
    let numbers = defined();
    let source = text("bindings/rust/src/lib.rs");
    let prose = source.replace("\n/// ", " ");
    for (i, name) in REASONS.iter().enumerate() {
        let number = numbers[&format!("REASON_{}", name.replace(' ', "_"))];
        assert_eq!(number, i as u64 + 1, "{name}");
        let said = match *name {
            "PARTIAL" => format!("{number} for a 206."),
            name => format!("{number} {name},"),
        };
        assert!(prose.contains(&said), "{said}");
    }
    assert!(source.contains(&format!("{} => Report::More,", numbers["MORE"])));
    assert!(source.contains(&format!("{} => Report::Finished,", numbers["FINISHED"])));
    assert!(source.contains(&format!("{} => Ok(written),", numbers["WRITTEN"])));
    assert!(source.contains(&format!("{} => Ok(()),", numbers["LOADED"])));
    assert!(source.contains(&format!("if reason == {} {{", numbers["REASON_NOT_ANSWERED"])));
}

/// What is proved of the definitions: crates/baxoodhiir/specs/Anchors.antt has the same numbers.
#[test]
fn anchors() {
    let numbers = defined();
    let anchors = text("crates/baxoodhiir/specs/Anchors.antt");
    let mut rows = 0;
    for line in anchors.lines() {
        let Some((_, claim)) = line.split_once(" : reason_number ") else { continue };
        let (_, number) = claim.split_once(" ≡ ").unwrap();
        let name = line.trim().strip_prefix("pub ").unwrap().split(' ').next().unwrap();
        let name = name.to_uppercase();
        assert_eq!(numbers[&format!("REASON_{name}")], number.parse::<u64>().unwrap(), "{name}");
        rows += 1;
    }
    assert_eq!(rows, REASONS.len());
    for (claim, name) in [("report_number More", "MORE"), ("report_number Finished", "FINISHED")] {
        assert!(anchors.contains(&format!("{claim} ≡ {}\n", numbers[name])), "{claim}");
    }
    assert!(anchors.contains(&format!("request_number (Ok n) ≡ {}\n", numbers["WRITTEN"])));
}
