//! `oracle bench-log KIND COUNT`: the logs that `bin/bench-replay` times, of a table and at least
//! COUNT records.

use original::VoterReplacementPhase::CaughtUp;

use crate::named::{voters, with, Log};
use crate::record::{Body, Step};
use crate::sample::{
    advance, begin, cut, identity, idle, largest, marker, observation, open, snapshot,
};
use crate::wire;

pub const KINDS: [&str; 6] = [
    "replacements-3",
    "replacements-9",
    "advances",
    "markers",
    "observations",
    "tables",
];

/// Where the pieces of a log go as they are made: one of ten million records is never held whole.
type Sink<'a> = &'a mut dyn FnMut(&[u8]) -> Result<(), String>;

/// A piece goes out when it has so many bytes.
const PIECE: usize = 1 << 16;

/// Writes a log of a kind.
pub fn write(kind: &str, count: usize, sink: Sink) -> Result<(), String> {
    match kind {
        "replacements-3" => replacements(3, count, sink),
        "replacements-9" => replacements(9, count, sink),
        "advances" => advances(count, sink),
        "markers" => repeated(count, marker(1, cut(2, 50)), sink),
        "observations" => {
            let old = voters(3, 1);
            let nodes = with(&old, identity(2, 2).node_id().get());
            repeated(count, observation(cut(2, 50), &[&old], &nodes), sink)
        }
        "tables" => tables(count, sink),
        _ => Err(format!("the kinds are: {}", KINDS.join(" "))),
    }
}

/// Hands over what was made, where it is `least` bytes or more.
fn pass_on(log: &mut Log, least: usize, sink: Sink) -> Result<(), String> {
    if log.bytes.len() >= least {
        sink(&log.bytes)?;
        log.bytes.clear();
    }
    Ok(())
}

/// Of so many slots, slot 2 is replaced again and again, eight records each time.
fn replacements(slots: u16, count: usize, sink: Sink) -> Result<(), String> {
    let mut log = Log::of_table(&idle(slots));
    let voters = |incarnation| voters(slots.into(), incarnation);
    for round in 0..count.div_ceil(8) as u64 {
        // The receipt keeps the id of the last request, so two ids in turn are enough.
        let request = 1 + (round % 2) as u8;
        let at = |step: u64| cut(2, 1 + 10 * round + step);
        let (old, new) = (voters(round + 1), voters(round + 2));
        let union = with(&old, identity(2, round + 2).node_id().get());
        let first = begin(log.table(), 2, request, at(0));
        log.calls([
            Body::Begin(first),
            advance(request, at(1), snapshot(at(0))),
            observation(at(2), &[&old], &union),
            advance(request, at(4), Step::CaughtUp(at(3))),
            advance(request, at(5), Step::Fence),
            observation(at(6), &[&old, &new], &union),
            observation(at(7), &[&new], &new),
            advance(request, at(8), Step::Finalize),
        ]);
        pass_on(&mut log, PIECE, sink)?;
    }
    pass_on(&mut log, 0, sink)
}

/// Three slots; the open request catches up to a later marker each time, so every record changes
/// the table.
fn advances(count: usize, sink: Sink) -> Result<(), String> {
    let mut log = Log::of_table(&open(3, CaughtUp));
    for at in 0..count as u64 {
        let (mark, own) = (cut(2, 50 + 2 * at), cut(2, 51 + 2 * at));
        log.calls([advance(1, own, Step::CaughtUp(mark))]);
        pass_on(&mut log, PIECE, sink)?;
    }
    pass_on(&mut log, 0, sink)
}

/// One record, again and again, on a table of three slots whose request has caught up: it is
/// accepted and changes nothing.
fn repeated(count: usize, body: Body, sink: Sink) -> Result<(), String> {
    let mut log = Log::of_table(&open(3, CaughtUp));
    for _ in 0..count {
        log.calls([body.clone()]);
        pass_on(&mut log, PIECE, sink)?;
    }
    pass_on(&mut log, 0, sink)
}

/// The largest table again and again: 33 from the second on, since one stands.
fn tables(count: usize, sink: Sink) -> Result<(), String> {
    let table = largest();
    let mut log = Log::of_table(&table);
    for _ in 0..count {
        log.put(*b"TB", &wire::table(&table).bytes);
        pass_on(&mut log, PIECE, sink)?;
    }
    pass_on(&mut log, 0, sink)
}

#[cfg(test)]
mod tests {
    use super::*;
    use crate::replay;

    fn log(kind: &str, count: usize) -> Vec<u8> {
        let mut bytes = Vec::new();
        let mut sink = |piece: &[u8]| {
            bytes.extend_from_slice(piece);
            Ok(())
        };
        write(kind, count, &mut sink).expect("a kind of log");
        bytes
    }

    /// What is timed is what the kind says: accepted, or 33 where a table stands.
    #[test]
    fn every_record_is_answered_as_meant() {
        for kind in KINDS {
            let lines = replay::lines(&log(kind, 40));
            let answers: Vec<&str> = lines
                .lines()
                .filter_map(|line| line.split(' ').nth(2))
                .collect();
            assert_eq!(answers.len(), 41, "{kind}");
            assert_eq!(answers[0], "0", "{kind}");
            let expected = if kind == "tables" { "33" } else { "0" };
            assert!(
                answers[1..].iter().all(|answer| *answer == expected),
                "{kind}"
            );
        }
        for kind in ["replacements-3", "replacements-9"] {
            let lines = replay::lines(&log(kind, 40));
            assert!(lines.ends_with("41 AD 0 41\n"), "{kind}");
        }
    }
}
