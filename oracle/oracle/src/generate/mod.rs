//! `oracle generate`: inputs made from a seed, the same on every machine. The original runs along,
//! so that most lines of history go all the way through a replacement.

mod cuts;
mod damage;
mod departures;
mod limits;
mod logs;
mod observations;
mod pairs;
mod questions;
mod random;
mod records;
mod reshape;
mod tables;
#[cfg(test)]
mod tests;
mod text;
mod walk;

use crate::format::{Mark, HIGHER_MARKS};
use questions::Source;
use random::Random;

/// The kinds of input, as the command names them, and what they hold.
pub const KINDS: [(&str, &str); 10] = [
    (
        "text",
        "questions of layer one: U8 NM SI SN CC WS SL IN NX EP ND ID",
    ),
    (
        "validity",
        "validity and the successor check of raw tables: VT SC",
    ),
    ("bytes", "reading table and attestation bytes: TR AR"),
    ("writing", "the writer on raw tables: WR"),
    (
        "values",
        "validity, writer, successor check, retired test: VT WR SC RT",
    ),
    ("retired", "the retired test on raw tables: RT"),
    ("calls", "commands and observations on raw tables: CM OV"),
    (
        "cuts",
        "commands and observations on valid tables with small cuts: CM OV",
    ),
    ("questions", "all questions"),
    ("log", "one replay log of COUNT records"),
];

/// An input of a kind, or `None` where there is no such kind.
pub fn generate(seed: u64, count: usize, kind: &str) -> Option<Vec<u8>> {
    let mut random = Random::for_kind(seed, kind);
    match kind {
        "text" => Some(text_questions(&mut random, count)),
        "validity" => Some(table_questions(&mut random, count, &[*b"VT", *b"SC"])),
        "bytes" => Some(table_questions(&mut random, count, &HIGHER_MARKS[..2])),
        "writing" => Some(table_questions(&mut random, count, &[*b"WR"])),
        "values" => Some(table_questions(&mut random, count, &HIGHER_MARKS[2..6])),
        "retired" => Some(table_questions(&mut random, count, &[*b"RT"])),
        "calls" => Some(table_questions(&mut random, count, &HIGHER_MARKS[6..])),
        "cuts" => Some(cuts_questions(&mut random, count)),
        "questions" => Some(all_questions(&mut random, count)),
        "log" => Some(logs::log(&mut random, count)),
        _ => None,
    }
}

fn text_questions(random: &mut Random, count: usize) -> Vec<u8> {
    let mut out = Vec::new();
    for _ in 0..count {
        text::put_text_question(random, &mut out);
    }
    out
}

fn table_questions(random: &mut Random, count: usize, marks: &[Mark]) -> Vec<u8> {
    let mut out = Vec::new();
    let mut source = Source::new(random);
    for _ in 0..count {
        let mark = random.pick(marks);
        source.put(random, mark, &mut out);
    }
    out
}

fn cuts_questions(random: &mut Random, count: usize) -> Vec<u8> {
    let mut out = Vec::new();
    for _ in 0..count {
        cuts::put(random, &mut out);
    }
    out
}

fn all_questions(random: &mut Random, count: usize) -> Vec<u8> {
    let mut out = Vec::new();
    let mut source = Source::new(random);
    for _ in 0..count {
        if random.chance(20) {
            text::put_text_question(random, &mut out);
        } else {
            let mark = random.pick(&HIGHER_MARKS);
            source.put(random, mark, &mut out);
        }
    }
    out
}
