//! A copy's state as a saved file, of requests 2026-02 and 2026-04.
use crate::bytes::*;
use crate::tablet::{record_is_good, MAX_RUNS};

/// What a saved file holds of a copy.
#[derive(Clone, Debug, PartialEq, Eq)]
pub struct State {
    pub tag: Vec<u8>,
    pub length: u64,
    pub runs: Vec<(u64, u64)>,
}

/// "high byte first", in `count` bytes.
pub fn high_byte_first(value: u64, count: usize) -> Vec<u8> {
    (0..count).rev().map(|at| (value >> (8 * at)) as u8).collect()
}

/// The bytes that are written: "under version 2, laid out alike, which is now written".
pub fn bytes(state: &State) -> Vec<u8> {
    bytes_under(2, state)
}

/// "the mark `HLD`, a 16-bit version .. high byte first, the tag, length and runs", whether or not the state keeps its rule.
pub fn bytes_under(version: u64, state: &State) -> Vec<u8> {
    let mut bytes = b"HLD".to_vec();
    bytes.extend(high_byte_first(version, 2));
    bytes.extend(high_byte_first(state.tag.len() as u64, 1));
    bytes.extend(&state.tag);
    bytes.extend(high_byte_first(state.length, 8));
    bytes.extend(high_byte_first(state.runs.len() as u64, 2));
    for (first, last) in &state.runs {
        bytes.extend(high_byte_first(*first, 8));
        bytes.extend(high_byte_first(*last, 8));
    }
    bytes
}

/// The saved file, or refusal 19 or 20.
pub fn save(state: &State, room: usize) -> Result<Vec<u8>, usize> {
    if !record_is_good(&state.tag, state.length, &state.runs) {
        return Err(19);
    }
    let bytes = bytes(state);
    if bytes.len() > room {
        return Err(20);
    }
    Ok(bytes)
}

/// The bytes of a saved file that are not yet read.
struct Rest<'a>(&'a [u8]);

impl<'a> Rest<'a> {
    /// The next `count` bytes, or 29: "judged once whole".
    fn take(&mut self, count: usize) -> Result<&'a [u8], usize> {
        let (front, rest) = self.0.split_at_checked(count).ok_or(29usize)?;
        self.0 = rest;
        Ok(front)
    }

    fn number(&mut self, count: usize) -> Result<u64, usize> {
        Ok(self.take(count)?.iter().fold(0, |value, byte| value * 256 + u64::from(*byte)))
    }

    /// Both numbers of a run are one unit.
    fn run(&mut self) -> Result<(u64, u64), usize> {
        let mut unit = Rest(self.take(16)?);
        Ok((unit.number(8)?, unit.number(8)?))
    }
}

fn refuse_if(wrong: bool, number: usize) -> Result<(), usize> {
    if wrong {
        return Err(number);
    }
    Ok(())
}

/// "up to 128 runs under version 2", "version 1 files still load, 26 coming above 32 runs"; any other version is unknown, 23.
fn most_runs(version: u64) -> Result<usize, usize> {
    match version {
        1 => Ok(32),
        2 => Ok(MAX_RUNS),
        _ => Err(23),
    }
}

/// The state that a file holds, or refusal 22 to 30.
pub fn load(file: &[u8]) -> Result<State, usize> {
    let mut rest = Rest(file);
    refuse_if(rest.take(3)? != b"HLD", 22)?;
    let most_runs = most_runs(rest.number(2)?)?;
    let count = rest.number(1)? as usize;
    refuse_if(count > TAG_LIMIT, 24)?;
    let tag = rest.take(count)?.to_vec();
    refuse_if(!is_strong_tag(&tag), 24)?;
    let length = rest.number(8)?;
    refuse_if(length > LENGTH_LIMIT, 25)?;
    let count = rest.number(2)? as usize;
    refuse_if(count > most_runs, 26)?;
    let mut runs: Vec<(u64, u64)> = Vec::new();
    for _ in 0..count {
        let (first, last) = rest.run()?;
        let near = runs.iter().any(|(_, before)| first <= before + 1);
        refuse_if(last < first || near, 27)?;
        refuse_if(last >= length, 28)?;
        runs.push((first, last));
    }
    refuse_if(!rest.0.is_empty(), 30)?;
    Ok(State { tag, length, runs })
}
