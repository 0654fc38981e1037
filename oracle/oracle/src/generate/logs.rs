//! Replay logs: a table and the records of a line of history, with records of every wrong form
//! between them and, now and then, an end that is cut short.

use super::random::Random;
use super::walk::Walk;
use super::{departures, questions};
use crate::format::Mark;
use crate::record::{put_record, Cut, MARKS};
use crate::wire;

/// Percent of records that take the request further.
const RIGHT: usize = 72;

/// One log of `count` records.
pub fn log(random: &mut Random, count: usize) -> Vec<u8> {
    let mut out = Vec::new();
    let mut walk = Walk::new(random, RIGHT);
    let before = if random.chance(40) {
        random.below(6)
    } else {
        0
    };
    let mut other = Walk::new(random, 100);
    for _ in 0..before.min(count) {
        put_record_before_the_table(random, &mut other, &mut out);
    }
    put_record(&mut out, *b"TB", &wire::table(&walk.table).bytes);
    for _ in before + 1..count {
        put_next(random, &mut walk, &mut out);
    }
    if random.chance(20) {
        put_bad_end(random, &mut out);
    }
    out
}

/// A call with no table, or a table that is refused: of another line, which goes on meanwhile.
fn put_record_before_the_table(random: &mut Random, other: &mut Walk, out: &mut Vec<u8>) {
    for _ in 0..random.below(8) {
        let record = other.next(random);
        other.play(&record);
    }
    if random.chance(30) {
        let record = departures::other(random, &other.table, Cut { term: 1, index: 1 });
        put_record(out, record.mark(), &record.bytes());
        return;
    }
    // It must be refused, or the line would start from another table.
    let bytes = questions::table_bytes(random, &other.table);
    let refused = original::decode_voter_slot_table(&bytes).is_err() && bytes.len() <= 65_535;
    put_record(out, *b"TB", if refused { &bytes } else { &[] });
}

fn put_next(random: &mut Random, walk: &mut Walk, out: &mut Vec<u8>) {
    if random.chance(4) {
        put_record_of_a_wrong_form(random, walk, out);
        return;
    }
    let record = walk.next(random);
    put_record(out, record.mark(), &record.bytes());
    walk.play(&record);
}

/// A body that is too short, too long, under another mark, or with an invalid step; a second
/// table.
fn put_record_of_a_wrong_form(random: &mut Random, walk: &mut Walk, out: &mut Vec<u8>) {
    let record = walk.next(random);
    let (mut mark, mut body) = (record.mark(), record.bytes());
    match random.below(6) {
        0 => body.truncate(random.below(body.len())),
        1 => body.push(random.byte()),
        2 => mark = other_mark(random, mark),
        3 if mark == *b"AD" => body[64] = random.pick(&[5, 6, 128, 255]),
        4 => body.clear(),
        5 => (mark, body) = (*b"TB", wire::table(&walk.table).bytes),
        _ => drop(body.pop()),
    }
    put_record(out, mark, &body);
    // What looked wrong may still have the form of another record: then it counts.
    if let Some(body) = crate::record::Body::read(mark, &body) {
        walk.play(&body);
    }
}

fn other_mark(random: &mut Random, mark: Mark) -> Mark {
    let others: Vec<Mark> = MARKS.into_iter().filter(|other| *other != mark).collect();
    random.pick(&others)
}

/// An unknown mark, or a mark, size or body cut short.
fn put_bad_end(random: &mut Random, out: &mut Vec<u8>) {
    let ends: [&[u8]; 9] = [
        b"XX\0\0",
        b"X",
        b"B",
        b"BG",
        b"OB\0",
        b"MK\0\x40",
        b"AD\xFF\xFFabc",
        b"tb\0\0",
        b"\0\0",
    ];
    out.extend(random.pick(&ends));
}
