//! Questions above layer one, each about a table that a line of history has come to, as it stands
//! or spoilt.

use original::{VoterSlotTable, MAX_VOTER_INCARNATION};

use super::random::Random;
use super::tables::held_incarnation;
use super::walk::Walk;
use super::{damage, departures, limits, observations, reshape};
use crate::format::{put_question, Mark, MAX_BODY};
use crate::record::{put_record, Body};
use crate::text::attestation_of;
use crate::{raw, wire};

/// After so many questions a new line of history is begun.
const QUESTIONS_OF_A_LINE: usize = 60;

/// Percent of records in a line that take its request further.
const RIGHT: usize = 75;

pub struct Source {
    pub(super) walk: Walk,
    asked: usize,
    /// Earlier tables of the line, for the successor check.
    pub(super) earlier: Vec<VoterSlotTable>,
}

impl Source {
    pub fn new(random: &mut Random) -> Self {
        Self {
            walk: Walk::new(random, RIGHT),
            asked: 0,
            earlier: Vec::new(),
        }
    }

    /// Puts a question of this mark after the others and takes the line a record further.
    pub fn put(&mut self, random: &mut Random, mark: Mark, out: &mut Vec<u8>) {
        if self.asked == QUESTIONS_OF_A_LINE {
            *self = Self::new(random);
        }
        self.asked += 1;
        let record = self.walk.next(random);
        let mut body = match &mark {
            b"TR" => table_bytes(random, &self.walk.table),
            b"AR" => self.attestation_bytes(random),
            b"VT" => self.any_raw(random),
            b"WR" => self.writing(random),
            b"SC" => self.two_tables(random),
            b"RT" => self.node_and_table(random),
            b"CM" => self.command(random, &record),
            _ => self.observation(random),
        };
        // A longer one would be cut short, and the rest of the file with it.
        body.truncate(MAX_BODY);
        put_question(out, mark, &body);
        self.earlier.push(self.walk.table.clone());
        self.walk.play(&record);
    }

    fn attestation_bytes(&self, random: &mut Random) -> Vec<u8> {
        let open = self.walk.table.replacement.as_ref();
        let claims = open.map(|open| open.attestation.clone());
        let layout =
            wire::attestation(&claims.unwrap_or_else(|| attestation_of("spiffe://a".to_owned())));
        match random.below(10) {
            0 => layout.bytes,
            1 if random.chance(30) => of_length(random, layout.bytes, 8192),
            _ => damage::damaged(random, &layout),
        }
    }

    /// The table as it stands, out of order, reshaped or spoilt; sparse.
    fn any_raw(&self, random: &mut Random) -> Vec<u8> {
        let mut table = self.walk.table.clone();
        match random.below(10) {
            0 | 1 => reshape::disorder(random, &mut table),
            2..=4 => reshape::reshape(random, &mut table),
            5 => attest_last_incarnation(random, &mut table),
            _ => {}
        }
        sparse(random, &table, 40)
    }

    fn writing(&self, random: &mut Random) -> Vec<u8> {
        let size = wire::table(&self.walk.table).bytes.len();
        let lengths = [size - 1, size, size, size + 1, 0, 180, 8072, 65_536, 70_000];
        let length = if random.chance(1) {
            70_001
        } else {
            random.pick(&lengths) as u32
        };
        let mut table = self.walk.table.clone();
        if random.chance(8) {
            attest_last_incarnation(random, &mut table);
        }
        [&length.to_be_bytes()[..], &sparse(random, &table, 35)].concat()
    }

    fn node_and_table(&self, random: &mut Random) -> Vec<u8> {
        let mut table = self.walk.table.clone();
        if random.chance(30) {
            reshape::disorder(random, &mut table);
        }
        let node = node(random, &table);
        [&node.to_be_bytes()[..], &sparse(random, &table, 15)].concat()
    }

    fn command(&self, random: &mut Random, record: &Body) -> Vec<u8> {
        let cut = record.cut();
        let mut record = if random.chance(50) {
            self.walk.departed(random, cut)
        } else {
            record.clone()
        };
        if matches!(record, Body::Observation(_)) {
            record = departures::begin_or_repeat(random, &self.walk.table, cut);
        }
        let mut table = self.walk.table.clone();
        if random.chance(8) {
            reshape::disorder(random, &mut table);
        }
        let mut body = record_bytes(random, record.mark(), &record.bytes());
        body.extend(sparse(random, &table, 8));
        body
    }

    fn observation(&self, random: &mut Random) -> Vec<u8> {
        let mut table = self.walk.table.clone();
        if random.chance(40) {
            reshape::disorder(random, &mut table);
        }
        let mut cut = self.walk.position();
        if random.chance(40) {
            cut = departures::near_cut(random, &table, cut);
        }
        let record = if random.chance(50) {
            observations::observation_of_next(&table, cut)
        } else {
            observations::any_observation(random, &table, cut)
        };
        let mut body = record_bytes(random, *b"OB", &record.bytes());
        body.extend(sparse(random, &table, 10));
        body
    }
}

/// The table's bytes, right or damaged.
pub fn table_bytes(random: &mut Random, table: &VoterSlotTable) -> Vec<u8> {
    let mut table = table.clone();
    match random.below(20) {
        0..=2 => return wire::table(&table).bytes,
        3 => return head(random, &wire::table(&table).bytes),
        4 if random.chance(15) => return of_length(random, wire::table(&table).bytes, 65_536),
        5 | 6 => attest_last_incarnation(random, &mut table),
        7 | 8 => reshape::disorder(random, &mut table),
        9 | 10 => reshape::reshape(random, &mut table),
        _ => {}
    }
    let layout = wire::table(&table);
    if random.chance(20) {
        return layout.bytes;
    }
    damage::damaged(random, &layout)
}

/// The raw form, sparse; spoilt in `percent` of 100 cases.
pub(super) fn sparse(random: &mut Random, table: &VoterSlotTable, percent: usize) -> Vec<u8> {
    let layout = raw::of_table(table);
    if !random.chance(percent) {
        return raw::to_sparse(&layout.bytes);
    }
    let mut sparse = raw::to_sparse(&damage::spoilt_value(random, &layout));
    if random.chance(4) {
        // Not of the form any more, in most cases.
        let at = random.below(sparse.len());
        sparse[at] = sparse[at].wrapping_add(1);
    }
    sparse
}

/// A record, now and then of a wrong form.
fn record_bytes(random: &mut Random, mark: Mark, body: &[u8]) -> Vec<u8> {
    let mut out = Vec::new();
    put_record(&mut out, mark, body);
    match random.below(60) {
        0 => out[random.below(4)] ^= 1,
        1 => {
            let at = random.below(out.len());
            out.remove(at);
        }
        2 => out[..2].copy_from_slice(&random.pick(&[*b"TB", *b"OB", *b"MK", *b"XX"])),
        _ => {}
    }
    out
}

/// The request attests the last incarnation of all, which has no next one.
pub(super) fn attest_last_incarnation(random: &mut Random, table: &mut VoterSlotTable) {
    let last = held_incarnation(MAX_VOTER_INCARNATION);
    if let Some(operation) = &mut table.replacement {
        operation.attestation.expected_incarnation = last;
    }
    // Now and then a fault in some slot: before the target it wins, after it it does not.
    if random.chance(40) {
        reshape::disorder(random, table);
    }
}

/// Magic and version, right or wrong, alone or before the rest.
fn head(random: &mut Random, bytes: &[u8]) -> Vec<u8> {
    let magic = random.pick(&[*b"OPVI", *b"OPVI", *b"OPVX", *b"opvi", [0; 4]]);
    let version = random.pick(&[0u16, 1, 1, 2, 256, 65_535]).to_be_bytes();
    let rest = if random.chance(50) { &bytes[6..] } else { &[] };
    let mut head = [&magic[..], &version, rest].concat();
    if random.chance(30) {
        head.truncate(random.below(7));
    }
    head
}

/// Filled with zeros to the bound, or one byte past it.
fn of_length(random: &mut Random, mut bytes: Vec<u8>, bound: usize) -> Vec<u8> {
    bytes.resize(bound + random.below(2), 0);
    bytes
}

/// An id near one that the table knows, or any id.
fn node(random: &mut Random, table: &VoterSlotTable) -> u64 {
    if table.slots.is_empty() || random.chance(15) {
        return limits::u64_near_limits(random);
    }
    let slot = &table.slots[random.below(table.slots.len())];
    let known = slot.member.identity.node_id().get();
    match random.below(5) {
        0 => known,
        1 | 2 => known.wrapping_sub(65_536 * (1 + random.below(3) as u64)),
        3 => known.wrapping_add(65_536),
        _ => random.pick(&[0, 1 << 63, known ^ (1 << 63), known & !0xFFFF, known + 1]),
    }
}
