//! `oracle replay`: document 01's replay program, decided by the original functions.
//! One record's order: 33, the reader's number, 30, 31, the original.

use original::{decode_voter_slot_table, encode_voter_slot_table, VoterSlotTable};

use crate::answer::{self, ACCEPTED, BAD_FORM};
use crate::call;
use crate::format::{Fields, Mark};
use crate::record::{self, Body};

/// The first line of every run.
pub const HEADLINE: &str = "replay 1\n";

/// What stands at one place of a log.
#[derive(Debug, Clone, Copy, PartialEq, Eq)]
pub enum Item<'a> {
    Whole(Mark, &'a [u8]),
    /// Unknown mark, or mark, size or body cut short. Nothing after it is read.
    Bad(Option<Mark>),
}

/// The items of a log, in order.
pub fn items(log: &[u8]) -> Vec<Item<'_>> {
    let mut items = Vec::new();
    let mut fields = Fields(log);
    while !fields.0.is_empty() {
        let mark = fields.array();
        let known = mark.filter(|mark| record::is_known(*mark));
        let body = known.and_then(|_| fields.sized());
        let (Some(mark), Some(body)) = (known, body) else {
            items.push(Item::Bad(known));
            break;
        };
        items.push(Item::Whole(mark, body));
    }
    items
}

/// The lines of a whole run.
pub fn lines(log: &[u8]) -> String {
    let row = |mark, answer, run: &Run| format!("{} {answer} {}", mark_text(mark), run.revision());
    HEADLINE.to_owned() + &rows(log, row)
}

/// `oracle phases`: for each line of a run the phase afterwards, `none` where no request is open
/// and `-` where no table stands.
pub fn phases(log: &[u8]) -> String {
    rows(log, |_, _, run| run.phase())
}

/// A numbered row for each record: its mark, its answer and the run after it, as `row` shows them.
fn rows(log: &[u8], row: impl Fn(Option<Mark>, u8, &Run) -> String) -> String {
    let mut rows = String::new();
    let mut run = Run::default();
    for (index, item) in items(log).into_iter().enumerate() {
        let (mark, answer) = match item {
            Item::Whole(mark, body) => (Some(mark), run.step(mark, body)),
            Item::Bad(mark) => (mark, BAD_FORM),
        };
        rows += &format!("{} {}\n", index + 1, row(mark, answer, &run));
    }
    rows
}

/// The tables of a whole run: a line for each record, with its number, mark, answer and the bytes
/// of the table afterwards, in hex; `-` where none stands, `=` where they are those of the line
/// before.
pub fn tables(log: &[u8]) -> String {
    let mut lines = String::new();
    let mut run = Run::default();
    let mut before = None;
    for (index, item) in items(log).into_iter().enumerate() {
        let (mark, answer) = match item {
            Item::Whole(mark, body) => (Some(mark), run.step(mark, body)),
            Item::Bad(mark) => (mark, BAD_FORM),
        };
        let bytes = run.bytes();
        let shown = match &bytes {
            None => "-".to_owned(),
            Some(_) if bytes == before => "=".to_owned(),
            Some(bytes) => bytes.iter().map(|byte| format!("{byte:02x}")).collect(),
        };
        lines += &format!("{} {} {answer} {shown}\n", index + 1, mark_text(mark));
        before = bytes;
    }
    lines
}

fn mark_text(mark: Option<Mark>) -> String {
    mark.map_or("??".to_owned(), |mark| {
        String::from_utf8_lossy(&mark).into_owned()
    })
}

/// A run between two records.
#[derive(Default)]
pub struct Run {
    pub table: Option<VoterSlotTable>,
}

impl Run {
    /// Plays one record of a known mark and gives its answer.
    pub fn step(&mut self, mark: Mark, body: &[u8]) -> u8 {
        if mark == *b"TB" {
            return self.set_table(body);
        }
        let (Some(table), Some(body)) = (&mut self.table, Body::read(mark, body)) else {
            return BAD_FORM;
        };
        match call::held(&body) {
            Ok(call) => call::run(&call, table),
            Err(refusal) => refusal.number(),
        }
    }

    fn set_table(&mut self, body: &[u8]) -> u8 {
        if self.table.is_some() {
            return BAD_FORM;
        }
        match decode_voter_slot_table(body) {
            Ok(table) => {
                self.table = Some(table);
                ACCEPTED
            }
            Err(error) => answer::of_slot_error(error),
        }
    }

    /// The bytes of the table, as the original writes them. What stands is valid.
    fn bytes(&self) -> Option<Vec<u8>> {
        let table = self.table.as_ref()?;
        Some(encode_voter_slot_table(table).expect("a table that stands is valid"))
    }

    pub fn revision(&self) -> u64 {
        self.table.as_ref().map_or(0, |table| table.revision)
    }

    fn phase(&self) -> String {
        let Some(table) = &self.table else {
            return "-".to_owned();
        };
        let open = table.replacement.as_ref();
        open.map_or("none".to_owned(), |open| format!("{:?}", open.phase))
    }
}

#[cfg(test)]
mod tests {
    use super::*;
    use crate::generate;

    /// The revision in a table's bytes, in hex.
    fn revision(hex: &str) -> u64 {
        u64::from_str_radix(&hex[140..156], 16).expect("a revision")
    }

    #[test]
    fn the_tables_have_the_answers_and_revisions_of_the_lines() {
        for seed in 1..=5 {
            let log = generate::generate(seed, 300, "log").expect("a log");
            let (lines, tables) = (lines(&log), tables(&log));
            assert_eq!(lines.lines().count(), tables.lines().count() + 1);
            let mut stands = 0;
            for (line, table) in lines.lines().skip(1).zip(tables.lines()) {
                let (head, shown) = table.rsplit_once(' ').expect("four words");
                match shown {
                    "-" => stands = 0,
                    "=" => {}
                    hex => stands = revision(hex),
                }
                assert_eq!(line, format!("{head} {stands}"));
            }
        }
    }
}
