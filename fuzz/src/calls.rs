//! The service's library against the original, record by record. A TB brings a table, be it refused
//! or not, and every other record is a call on the table that stands. Compared are the whole result
//! and every byte of the buffer that is lent, the bytes around it included. The same records go
//! through a table value too (`values.rs`).

use std::cell::RefCell;

use original::{decode_voter_slot_table, encode_voter_slot_table, VoterSlotTable};

use crate::answer::{self, ACCEPTED, BAD_FORM, BUFFER_TOO_SHORT};
use crate::call::{self, Refusal};
use crate::fence::Fenced;
use crate::format::Mark;
use crate::generate::random::Random;
use crate::port::{Library, Outcome, LIBRARIES};
use crate::record::Body;
use crate::values::Values;

pub const LONGEST_TABLE: usize = 8072;
const LONGEST_BODY: usize = 65_535;
/// Records of a log that are played here; the replay program plays them all.
const MOST_RECORDS: usize = 300;
const NO_PHASE: u32 = 255;
const NOT_RETIRED: u32 = 100;
const RETIRED: u32 = 101;
/// What a lent buffer holds, and so many bytes before it.
pub const PAINT: u8 = 0xA5;
pub const BEFORE: usize = 32;

/// Where the bytes lie that the library is given.
struct Rooms {
    table: Fenced,
    body: Fenced,
    out: Fenced,
    values: Values,
}

thread_local! {
    static ROOMS: RefCell<Rooms> = RefCell::new(Rooms {
        table: Fenced::new(LONGEST_BODY),
        body: Fenced::new(LONGEST_BODY),
        out: Fenced::new(LONGEST_TABLE + LONGEST_BODY),
        values: Values::new(),
    });
}

/// Bytes of a table, and what the original reads in them: a table, or its number.
pub struct Given {
    pub bytes: Vec<u8>,
    pub table: Result<VoterSlotTable, u8>,
}

impl Given {
    pub fn read(bytes: &[u8]) -> Self {
        Self {
            bytes: bytes.to_vec(),
            table: decode_voter_slot_table(bytes).map_err(answer::of_slot_error),
        }
    }

    fn write(table: VoterSlotTable) -> Self {
        Self {
            bytes: encode_voter_slot_table(&table).expect("a table that stands is valid"),
            table: Ok(table),
        }
    }
}

/// Ends the process where the library and the original differ on this log.
pub fn compare(log: &[u8]) {
    let mut random = Random::for_kind(seed_of(log), "calls");
    ROOMS.with(|rooms| {
        let rooms = &mut rooms.borrow_mut();
        let mut given = Given::read(&[]);
        rooms.values.start();
        for (mark, body) in records(log).take(MOST_RECORDS) {
            compare_values(rooms, &mut random, mark, body);
            if mark == *b"TB" {
                given = Given::read(body);
            } else if let Some(after) = compare_call(rooms, &mut random, &given, mark, body) {
                given = after;
            } else {
                continue;
            }
            compare_table(rooms, &mut random, &given);
        }
    });
}

/// The record, of a table too, with a table value.
fn compare_values(rooms: &mut Rooms, random: &mut Random, mark: Mark, body: &[u8]) {
    let body = rooms.body.copy(body);
    rooms.values.compare(random, mark, body, &mut rooms.out);
}

/// A number from a log, the same in every run.
pub fn seed_of(log: &[u8]) -> u64 {
    let ends = log.iter().take(64).chain(log.iter().rev().take(64));
    let number = ends.fold(log.len() as u64, |number, byte| {
        (number ^ u64::from(*byte)).wrapping_mul(0x0100_0000_01B3)
    });
    number ^ number >> 29
}

/// The records of a log. An unknown mark does not end them here, and of a body that is cut short
/// the bytes that are there are taken.
pub fn records(mut log: &[u8]) -> impl Iterator<Item = (Mark, &[u8])> {
    std::iter::from_fn(move || {
        let (mark, rest) = log.split_first_chunk::<2>()?;
        let (size, rest) = rest.split_first_chunk::<2>()?;
        let size = usize::from(u16::from_be_bytes(*size)).min(rest.len());
        let body;
        (body, log) = rest.split_at(size);
        Some((*mark, body))
    })
}

/// What the call gives by the original, in the order of docs/BINDINGS.md: 33, the number of the
/// table's reader, that of the attestation's reader, 30, 31, the call's.
fn expected(given: &Given, mark: Mark, body: &[u8]) -> Result<VoterSlotTable, u8> {
    let body = Body::read(mark, body).ok_or(BAD_FORM)?;
    let mut table = given.table.clone()?;
    let call = call::held(&body).map_err(Refusal::number)?;
    match call::run(&call, &mut table) {
        ACCEPTED => Ok(table),
        refusal => Err(refusal),
    }
}

/// A command or an observation. Gives the table afterwards, where it is accepted.
fn compare_call(
    rooms: &mut Rooms,
    random: &mut Random,
    given: &Given,
    mark: Mark,
    body: &[u8],
) -> Option<Given> {
    let after = expected(given, mark, body).map(Given::write);
    let written = after.as_ref().map(|after| &after.bytes[..]);
    let number = u32::from(u16::from_be_bytes(mark));
    let (table, body) = (rooms.table.copy(&given.bytes), rooms.body.copy(body));
    let mut lent = vec![LONGEST_TABLE];
    if let Ok(written) = written {
        lent.push(another_room(random, written.len()));
    }
    for library in &LIBRARIES {
        for &room in &lent {
            let call = |out: &mut [u8]| library.call(table, number, body, out);
            compare_written(library, &after, room, &mut rooms.out, call);
        }
    }
    after.ok()
}

/// Reading, writing again, and the retired test.
fn compare_table(rooms: &mut Rooms, random: &mut Random, given: &Given) {
    let bytes = rooms.table.copy(&given.bytes);
    let read = match &given.table {
        Ok(table) => Ok(Given::write(table.clone())),
        Err(number) => Err(*number),
    };
    let room = match &read {
        Ok(written) => another_room(random, written.bytes.len()),
        Err(_) => LONGEST_TABLE,
    };
    let nodes = nodes(random, &given.table);
    for library in &LIBRARIES {
        held("read", library, outcome(&read), library.read(bytes));
        let write = |out: &mut [u8]| library.write(bytes, out);
        compare_written(library, &read, room, &mut rooms.out, write);
        for &node in &nodes {
            let expected = retired(&given.table, node);
            held("retired", library, expected, library.retired(bytes, node));
        }
    }
}

/// A call that writes a table, with so many bytes lent.
pub fn compare_written(
    library: &Library,
    after: &Result<Given, u8>,
    room: usize,
    out: &mut Fenced,
    call: impl Fn(&mut [u8]) -> Outcome,
) {
    let fits = |after: &Given| after.bytes.len() <= room;
    let (result, written) = match after {
        Ok(after) if fits(after) => (outcome_of(after), &after.bytes[..]),
        Ok(_) => (refused(BUFFER_TOO_SHORT), &[][..]),
        Err(number) => (refused(*number), &[][..]),
    };
    let place = out.last(BEFORE + room);
    place.fill(PAINT);
    let (before, lent) = place.split_at_mut(BEFORE);
    held("a call", library, result, call(lent));
    held("bytes written", library, written, &lent[..written.len()]);
    let painted = |bytes: &[u8]| bytes.iter().all(|byte| *byte == PAINT);
    held(
        "bytes after",
        library,
        true,
        painted(&lent[written.len()..]),
    );
    held("bytes before", library, true, painted(before));
}

/// Exactly enough bytes, one too few, one more, none, or any number.
pub fn another_room(random: &mut Random, enough: usize) -> usize {
    match random.below(5) {
        0 => enough,
        1 => enough - 1,
        2 => enough + 1,
        3 => 0,
        _ => random.below(LONGEST_TABLE),
    }
}

fn outcome(after: &Result<Given, u8>) -> Outcome {
    match after {
        Ok(after) => outcome_of(after),
        Err(number) => refused(*number),
    }
}

fn outcome_of(given: &Given) -> Outcome {
    let table = given.table.as_ref().expect("a table that is written");
    accepted(table, given.bytes.len())
}

pub fn accepted(table: &VoterSlotTable, count: usize) -> Outcome {
    let open = table.replacement.as_ref();
    Outcome {
        answer: 0,
        slots: table.slots.len() as u32,
        count: count as u64,
        revision: table.revision,
        epoch: table.configuration_epoch.get(),
        open_slot: open.map_or(0, |open| u32::from(open.attestation.slot.get())),
        open_phase: open.map_or(NO_PHASE, |open| open.phase as u32),
    }
}

pub fn refused(number: u8) -> Outcome {
    Outcome {
        answer: u32::from(number),
        slots: 0,
        count: 0,
        revision: 0,
        epoch: 0,
        open_slot: 0,
        open_phase: NO_PHASE,
    }
}

/// The retired test's answer. A number that the original's type cannot hold is no node's.
pub fn retired(table: &Result<VoterSlotTable, u8>, node: u64) -> u32 {
    match table {
        Ok(table) if call::held_node(node).is_some_and(|node| table.is_retired(node)) => RETIRED,
        Ok(_) => NOT_RETIRED,
        Err(number) => u32::from(*number),
    }
}

/// The node of a slot, in its incarnation and the ones next to it, and a number near a limit.
pub fn nodes(random: &mut Random, table: &Result<VoterSlotTable, u8>) -> Vec<u64> {
    let limits = [
        0,
        1,
        65_536,
        u64::MAX >> 1,
        1 << 63,
        u64::MAX,
        random.next(),
    ];
    let mut nodes = vec![random.pick(&limits)];
    let slots = table.as_ref().map_or(&[][..], |table| &table.slots);
    if !slots.is_empty() {
        let slot = &slots[random.below(slots.len())];
        let node = slot.member.identity.node_id().get();
        nodes.extend([node, node.wrapping_sub(65_536), node.wrapping_add(65_536)]);
    }
    nodes
}

/// Ends the process where the two are not equal.
pub fn held<T: PartialEq + std::fmt::Debug>(what: &str, library: &Library, expected: T, given: T) {
    assert!(
        expected == given,
        "DIFFERENCE: {what}, {}\n  original: {expected:?}\n  port:     {given:?}",
        library.name
    );
}
