//! Tests of the generator: the same input for the same seed, and every answer of document 01.
//! Which answers come up is counted, not assumed.

use std::collections::BTreeSet;

use super::*;
use crate::{cases, format, replay};

#[test]
fn a_seed_gives_the_same_input_again() {
    for (kind, _) in KINDS {
        let first = generate(5, 200, kind);
        assert_eq!(first, generate(5, 200, kind));
        assert_ne!(first, generate(6, 200, kind));
    }
    assert_eq!(generate(1, 1, "none"), None);
}

/// The generator's numbers must never change unnoticed: the stored samples are made from them.
#[test]
fn the_checksum_of_a_known_seed() {
    let sum = |kind| format::crc32(&generate(1, 300, kind).unwrap_or_default());
    assert_eq!((sum("text"), sum("questions"), sum("log")), KNOWN);
}

const KNOWN: (u32, u32, u32) = (2_587_388_897, 2_726_241_888, 1_435_221_181);

fn numbers(lines: &str) -> BTreeSet<u8> {
    lines
        .lines()
        .filter_map(|line| line.split(' ').nth(2)?.parse().ok())
        .collect()
}

#[test]
fn questions_reach_every_answer() {
    let file = generate(1, 30_000, "questions").unwrap_or_default();
    let expected = [
        0, 1, 2, 3, 4, 5, 6, 7, 12, 13, 14, 15, 16, 19, 23, 24, 25, 30, 31, 32, 33,
    ];
    assert_eq!(numbers(&cases::answers(&file)), BTreeSet::from(expected));
}

/// Each step and observation on valid tables is accepted and refused, so its comparisons of cuts
/// come out both ways.
#[test]
fn cuts_are_accepted_and_refused() {
    let file = generate(1, 20_000, "cuts").unwrap_or_default();
    let mut answers = BTreeSet::new();
    for item in format::items(&file) {
        let format::Item::Whole(mark, body) = item else {
            panic!("a whole question");
        };
        // The record's mark, and of an Advance the kind of its step.
        let kind = (body[..2] == *b"AD").then(|| body[4 + 64]);
        let answer = cases::answer(mark, body);
        let number = answer.split(' ').next().map(str::to_owned);
        answers.insert((body[..2].to_vec(), kind, number));
    }
    let steps = (0..5).map(|step| (b"AD", Some(step)));
    for (mark, kind) in steps.chain([(b"BG", None), (b"OB", None)]) {
        for number in ["0", "24", "25"] {
            let wanted = (mark.to_vec(), kind, Some(number.to_owned()));
            assert!(answers.contains(&wanted), "{wanted:?}");
        }
    }
}

#[test]
fn logs_reach_every_answer_of_a_replay() {
    let mut reached = BTreeSet::new();
    for seed in 0..400 {
        let log = generate(seed, 120, "log").unwrap_or_default();
        reached.append(&mut numbers(&replay::lines(&log)));
    }
    // 3 needs a table that attests the last incarnation; 7 and 32 are no answers of a replay.
    let expected = [
        0, 1, 2, 4, 5, 6, 12, 13, 14, 15, 16, 19, 23, 24, 25, 30, 31, 33,
    ];
    assert!(
        reached.is_superset(&BTreeSet::from(expected)),
        "{reached:?}"
    );
    assert!(reached.is_disjoint(&BTreeSet::from([7, 11, 17, 18, 20, 21, 22, 26, 27, 28, 32])));
}
