//! New logs from old ones. Changes that know the form keep the records whole, so that an input
//! reaches the calls and not the reader of records alone; libFuzzer's own changes of bytes come in
//! between.

use original::{decode_voter_slot_table, encode_voter_slot_table, VoterSlotTable};

use crate::call;
use crate::calls::records;
use crate::format::Mark;
use crate::generate::random::Random;
use crate::generate::{
    damage, departures, limits, observations, records as right_records, tables, text,
};
use crate::record::{put_record, Body, Cut, MARKS};
use crate::text::SCHEME;
use crate::wire;

const LONGEST_BODY: usize = 65_535;
/// Where the id begins in an Advance that records a snapshot.
const SNAPSHOT_ID: usize = 83;

extern "C" {
    fn LLVMFuzzerMutate(data: *mut u8, size: usize, most: usize) -> usize;
}

/// A record: its mark and its body.
type Part = (Mark, Vec<u8>);

/// The log with one or more changes, at most so many bytes.
pub fn changed(log: &[u8], most: usize, seed: u64) -> Vec<u8> {
    let mut random = Random::for_kind(seed, "mutate");
    if random.chance(12) {
        return by_libfuzzer(log, most);
    }
    let mut parts: Vec<Part> = parts(log);
    for _ in 0..random.pick(&[1, 1, 1, 2, 3]) {
        change(&mut random, &mut parts);
    }
    let mut log = joined(&parts, most);
    if random.chance(4) {
        log.truncate(random.below(log.len() + 1));
    }
    log
}

/// The first records of one log, and then records of another.
pub fn crossed(one: &[u8], two: &[u8], seed: u64) -> Vec<u8> {
    let mut random = Random::for_kind(seed, "cross");
    let (one, two) = (parts(one), parts(two));
    let first = random.below(one.len() + 1);
    let second = random.below(two.len() + 1);
    joined(&[&one[..first], &two[second..]].concat(), usize::MAX)
}

fn parts(log: &[u8]) -> Vec<Part> {
    records(log)
        .map(|(mark, body)| (mark, body.to_vec()))
        .collect()
}

fn joined(parts: &[Part], most: usize) -> Vec<u8> {
    let mut log = Vec::new();
    for (mark, body) in parts {
        if log.len() + 4 + body.len() > most {
            break;
        }
        put_record(&mut log, *mark, body);
    }
    log
}

/// libFuzzer's own change of some bytes.
fn by_libfuzzer(bytes: &[u8], most: usize) -> Vec<u8> {
    let size = bytes.len().min(most);
    let mut room = bytes[..size].to_vec();
    room.resize(most.max(1), 0);
    // SAFETY: `room` has at least `most` bytes, and the first `size` of them are the input.
    let size = unsafe { LLVMFuzzerMutate(room.as_mut_ptr(), size, most.max(1)) };
    room.truncate(size);
    room
}

fn change(random: &mut Random, parts: &mut Vec<Part>) {
    if parts.is_empty() {
        let table = tables::start(random);
        parts.push((*b"TB", wire::table(&table).bytes));
        return;
    }
    let at = random.below(parts.len());
    match random.below(24) {
        0..=6 => insert_fitting(random, parts),
        7..=10 => change_values(random, parts, at),
        11..=13 => change_bytes(random, &mut parts[at].1),
        14 | 15 => copy_piece(random, parts, at),
        16 => {
            let again = parts[at].clone();
            parts.insert(random.below(parts.len() + 1), again);
        }
        17 | 18 => drop(parts.remove(at)),
        19 => {
            let other = random.below(parts.len());
            parts.swap(at, other);
        }
        20 => start_later(random, parts),
        21 | 22 => change_text(random, &mut parts[at]),
        _ => parts[at].0 = random.pick(&MARKS),
    }
}

/// A record that the table at that place could be given next: the right one, or one near it.
fn insert_fitting(random: &mut Random, parts: &mut Vec<Part>) {
    let at = match random.below(3) {
        0 => random.below(parts.len() + 1),
        _ => parts.len(),
    };
    let Some(table) = standing(&parts[..at]) else {
        return;
    };
    let cut = next_cut(random, &parts[..at]);
    let mut body = match random.below(12) {
        0..=5 => right_records::right(random, &table, cut),
        6 => departures::superseding(random, &table, cut),
        7 => departures::begin_or_repeat(random, &table, cut),
        8 => observations::any_observation(random, &table, cut),
        _ => departures::other(random, &table, cut),
    };
    match random.below(10) {
        0..=2 => departures::depart(random, &table, &mut body),
        3 | 4 => body.set_cut(departures::near_cut(random, &table, cut)),
        _ => {}
    }
    let bytes = body.bytes();
    if bytes.len() <= LONGEST_BODY {
        parts.insert(at, (body.mark(), bytes));
    }
}

/// One value of a record, as its form has it.
fn change_values(random: &mut Random, parts: &mut [Part], at: usize) {
    let table = standing(&parts[..at]);
    let (mark, bytes) = &mut parts[at];
    if *mark == *b"TB" {
        if let Ok(table) = decode_voter_slot_table(bytes) {
            *bytes = damage::damaged(random, &wire::table(&table));
            bytes.truncate(LONGEST_BODY);
            return;
        }
    } else if let (Some(mut body), Some(table)) = (Body::read(*mark, bytes), table) {
        if random.chance(40) {
            body.set_cut(departures::near_cut(random, &table, body.cut()));
        } else {
            departures::depart(random, &table, &mut body);
        }
        let changed = body.bytes();
        if changed.len() <= LONGEST_BODY {
            *bytes = changed;
        }
        return;
    }
    change_number(random, bytes);
}

/// Eight bytes, as a number near its value or near a limit.
fn change_number(random: &mut Random, bytes: &mut [u8]) {
    if bytes.len() < 8 {
        return;
    }
    let at = random.below(bytes.len() - 7);
    let place = bytes[at..].first_chunk_mut::<8>().expect("eight bytes");
    *place = limits::near(random, u64::from_be_bytes(*place)).to_be_bytes();
}

fn change_bytes(random: &mut Random, bytes: &mut Vec<u8>) {
    let room = random.pick(&[0, 0, 8, 64]);
    *bytes = by_libfuzzer(bytes, (bytes.len() + room).min(LONGEST_BODY));
}

/// An invalid character or sequence, laid over a part of a name or of a snapshot id.
fn change_text(random: &mut Random, part: &mut Part) {
    let (mark, bytes) = part;
    let names = bytes.windows(SCHEME.len()).enumerate();
    let mut texts: Vec<usize> = names
        .filter(|(_, text)| *text == SCHEME.as_bytes())
        .map(|(at, _)| at + SCHEME.len())
        .collect();
    if *mark == *b"AD" && bytes.len() > SNAPSHOT_ID + 32 {
        texts.push(SNAPSHOT_ID);
    }
    if texts.is_empty() {
        return;
    }
    let piece = match random.below(2) {
        0 => text::piece(random),
        _ => text::invalid_sequence(random),
    };
    let at = random.pick(&texts) + random.below(4);
    for (byte, new) in bytes.iter_mut().skip(at).zip(piece) {
        *byte = new;
    }
}

/// Some bytes of a record laid over as many of another: ids, digests and cuts come to agree so.
fn copy_piece(random: &mut Random, parts: &mut [Part], at: usize) {
    let size = random.pick(&[1, 2, 8, 16, 32]);
    let from = random.below(parts.len());
    if parts[from].1.len() < size || parts[at].1.len() < size {
        return;
    }
    let start = random.below(parts[from].1.len() - size + 1);
    let piece = parts[from].1[start..start + size].to_vec();
    let to = random.below(parts[at].1.len() - size + 1);
    parts[at].1[to..to + size].copy_from_slice(&piece);
}

/// The log begins at a later table of its own.
fn start_later(random: &mut Random, parts: &mut Vec<Part>) {
    let at = random.below(parts.len() + 1);
    let table = standing(&parts[..at]);
    if let Some(bytes) = table.and_then(|table| encode_voter_slot_table(&table).ok()) {
        parts.splice(..at, [(*b"TB", bytes)]);
    }
}

/// The table that stands after these records.
fn standing(parts: &[Part]) -> Option<VoterSlotTable> {
    let mut table = None;
    for (mark, body) in parts {
        if *mark == *b"TB" {
            table = decode_voter_slot_table(body).ok().or(table);
        } else if let (Some(table), Some(body)) = (&mut table, Body::read(*mark, body)) {
            if let Ok(call) = call::held(&body) {
                call::run(&call, table);
            }
        }
    }
    table
}

/// A cut after those of the records.
fn next_cut(random: &mut Random, parts: &[Part]) -> Cut {
    let mut bodies = parts
        .iter()
        .filter_map(|(mark, body)| Body::read(*mark, body));
    let last = bodies
        .next_back()
        .map_or(Cut { term: 1, index: 10 }, |body| body.cut());
    Cut {
        term: last.term.saturating_add(u64::from(random.chance(6))),
        index: last.index.saturating_add(1 + random.below(4) as u64),
    }
}
