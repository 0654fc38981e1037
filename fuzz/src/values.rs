//! The calls on a table value that the caller lends, against the original. One value goes from
//! record to record, from the blank one on; and now and then a record meets a value that is
//! damaged. Compared are the result and every field of the value afterwards, what is written of it,
//! and the retired test.

use original::{encode_voter_slot_table, VoterSlotTable};

use crate::answer::{self, ACCEPTED, BAD_FORM, NOT_HELD};
use crate::call::{self, Refusal};
use crate::calls::*;
use crate::fence::Fenced;
use crate::format::Mark;
use crate::generate::random::Random;
use crate::generate::{damage, tables};
use crate::layout::Nature;
use crate::port::{LIBRARIES, VALUE};
use crate::raw;
use crate::record::Body;

/// A field of a table: where it begins in the oracle's raw form and in the value, its size in each.
#[derive(Clone, Copy)]
struct Field {
    nature: Nature,
    raw: usize,
    raw_size: usize,
    at: usize,
    size: usize,
}

/// The fields in the layout of C. The raw form has them in the same order, with nothing in between.
fn fields() -> Vec<Field> {
    let table = tables::start(&mut Random::for_kind(0, "fields"));
    let mut end: usize = 0;
    let place = |field: &crate::layout::Field| {
        let (size, align) = match field.nature {
            Nature::Number => (field.size, field.size),
            Nature::Count | Nature::Length => (8, 8),
            // A request id begins its record.
            Nature::Digest if field.size == 16 => (16, 8),
            Nature::Flag | Nature::Digest | Nature::Text => (field.size, 1),
        };
        let at = end.next_multiple_of(align);
        end = at + size;
        Field {
            nature: field.nature,
            raw: field.at,
            raw_size: field.size,
            at,
            size,
        }
    };
    let fields = raw::of_table(&table).fields.iter().map(place).collect();
    assert_eq!(end, VALUE);
    fields
}

impl Field {
    fn of<'a>(&self, value: &'a [u8]) -> &'a [u8] {
        &value[self.at..self.at + self.size]
    }

    /// Numbers of the raw form have their highest byte first, and those of the value their lowest.
    fn put(&self, raw: &[u8], value: &mut [u8]) {
        let from = &raw[self.raw..self.raw + self.raw_size];
        let to = &mut value[self.at..self.at + self.size];
        if matches!(self.nature, Nature::Digest | Nature::Text) {
            to.copy_from_slice(from);
            return;
        }
        to.fill(0);
        for (to, from) in to.iter_mut().zip(from.iter().rev()) {
            *to = *from;
        }
    }
}

/// The value of a raw table. What lies between the fields is no zero: it must not matter.
fn value_of(fields: &[Field], raw: &[u8]) -> Vec<u8> {
    let mut value = vec![PAINT; VALUE];
    fields.iter().for_each(|field| field.put(raw, &mut value));
    value
}

/// A value that is lent to each build of the library: what its fields must be, and the table that
/// the original's types hold of it, or 30.
struct Lent {
    places: [Fenced; 2],
    value: Vec<u8>,
    table: Result<VoterSlotTable, u8>,
}

pub struct Values {
    fields: Vec<Field>,
    standing: Lent,
    damaged: Lent,
}

impl Values {
    pub fn new() -> Self {
        Self {
            fields: fields(),
            standing: Lent::new(),
            damaged: Lent::new(),
        }
    }

    /// The blank value.
    pub fn start(&mut self) {
        let blank = value_of(&self.fields, &[0; raw::TABLE]);
        self.standing.lend(blank, Err(NOT_HELD));
    }

    /// Plays a record.
    pub fn compare(&mut self, random: &mut Random, mark: Mark, body: &[u8], out: &mut Fenced) {
        if let Some((value, table)) = self.damage(random) {
            self.damaged.lend(value, table);
            self.damaged.play(&self.fields, mark, body);
            self.damaged.look(random, out);
        }
        self.standing.play(&self.fields, mark, body);
        self.standing.look(random, out);
    }

    /// For half of the records the standing table with a field or two changed: the value, and the
    /// table that is held of it. A flag stays 0 or 1.
    fn damage(&self, random: &mut Random) -> Option<(Vec<u8>, Result<VoterSlotTable, u8>)> {
        let table = self.standing.table.as_ref().ok()?;
        if random.chance(50) {
            return None;
        }
        let mut bytes = damage::spoilt_value(random, &raw::of_table(table));
        for field in &self.fields {
            if field.nature == Nature::Flag {
                bytes[field.raw] = bytes[field.raw].min(1);
            }
        }
        let mut value = value_of(&self.fields, &bytes);
        let mut table = raw::held(&bytes).ok_or(NOT_HELD);
        if random.chance(10) {
            // A count or a length of more bits than the raw form has.
            let wide = |field: &&Field| field.size > field.raw_size;
            let wide: Vec<Field> = self.fields.iter().filter(wide).copied().collect();
            let field = random.pick(&wide);
            value[field.at + random.pick(&[2, 4, 7])] = random.pick(&[1, 0x80, 0xFF]);
            table = Err(NOT_HELD);
        }
        Some((value, table))
    }
}

impl Lent {
    fn new() -> Self {
        let place = || Fenced::new(BEFORE + VALUE);
        Self {
            places: [place(), place()],
            value: Vec::new(),
            table: Err(NOT_HELD),
        }
    }

    fn lend(&mut self, value: Vec<u8>, table: Result<VoterSlotTable, u8>) {
        for place in &mut self.places {
            place.last(BEFORE + VALUE).fill(PAINT);
            place.copy(&value);
        }
        (self.value, self.table) = (value, table);
    }

    /// A reading, a command or an observation. Refused, the value stays.
    fn play(&mut self, fields: &[Field], mark: Mark, body: &[u8]) {
        let is_table = mark == *b"TB";
        let (after, count) = if is_table {
            (Given::read(body).table, body.len())
        } else {
            (expected(&self.table, mark, body), 0)
        };
        let result = match &after {
            Ok(table) => accepted(table, count),
            Err(number) => refused(*number),
        };
        if let Ok(table) = after {
            self.value = value_of(fields, &raw::of_table(&table).bytes);
            self.table = Ok(table);
        }
        let number = u32::from(u16::from_be_bytes(mark));
        for (library, place) in LIBRARIES.iter().zip(&mut self.places) {
            let place = place.last(BEFORE + VALUE);
            let (before, value) = place.split_first_chunk_mut().expect("bytes before");
            let given = if is_table {
                library.table_read(value, body)
            } else {
                library.table_call(value, number, body)
            };
            held("a call on a value", library, result, given);
            for field in fields {
                let (expected, given) = (field.of(&self.value), field.of(value));
                held("a field of the value", library, expected, given);
            }
            held("bytes before a value", library, [PAINT; BEFORE], *before);
        }
    }

    /// Writing and the retired test: they leave the value alone, what lies between its fields too.
    fn look(&mut self, random: &mut Random, out: &mut Fenced) {
        let written = self.table.clone().and_then(|table| {
            let bytes = encode_voter_slot_table(&table).map_err(answer::of_slot_error)?;
            let table = Ok(table);
            Ok(Given { bytes, table })
        });
        let enough = written.as_ref().map_or(1, |written| written.bytes.len());
        let rooms = [LONGEST_TABLE, another_room(random, enough)];
        let nodes = nodes(random, &self.table);
        for (library, place) in LIBRARIES.iter().zip(&mut self.places) {
            let value = &*place.last(VALUE);
            let before = value.to_vec();
            for room in rooms {
                let write = |out: &mut [u8]| library.table_write(value, out);
                compare_written(library, &written, room, out, write);
            }
            for &node in &nodes {
                let expected = retired(&self.table, node);
                let given = library.table_retired(value, node);
                held("retired of a value", library, expected, given);
            }
            held("a value that is not to change", library, &before[..], value);
        }
    }
}

/// What a call on a value gives by the original, in the order of docs/BINDINGS.md: 33, the number
/// of the attestation's reader, 30, 31, the call's.
fn expected(
    table: &Result<VoterSlotTable, u8>,
    mark: Mark,
    body: &[u8],
) -> Result<VoterSlotTable, u8> {
    let body = Body::read(mark, body).ok_or(BAD_FORM)?;
    let call = call::held(&body);
    if let Err(Refusal::Reader(number)) = call {
        return Err(number);
    }
    let mut table = table.clone()?;
    match call::run(&call.map_err(Refusal::number)?, &mut table) {
        ACCEPTED => Ok(table),
        refusal => Err(refusal),
    }
}
