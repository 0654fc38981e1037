//! `oracle bench-service`: nanoseconds of a call over bytes, as the service's library has it (the
//! table is read, the command's body is read and applied, the table is written), next to the
//! original's `decode_voter_slot_table`, the call, `encode_voter_slot_table`, to which the command
//! is given as a value. The bytes that both write must be equal. Then the same call on a table
//! value that is kept in memory, next to the original's call alone: each call has a fresh copy of
//! the table, made before the clock starts.

use std::hint::black_box;
use std::time::Instant;

use original::{
    decode_voter_slot_table, encode_voter_slot_table, with_supplied, VoterReplacementPhase,
    VoterSlotTable,
};

use crate::bench::{commands, median};
use crate::call::{self, Call};
use crate::record::Body;
use crate::sample::{identity, idle, largest, open};

const CALLS: usize = 64;
const BATCHES: usize = 101;

#[repr(C)]
struct Outcome {
    answer: u32,
    slots: u32,
    count: u64,
    revision: u64,
    epoch: u64,
    open_slot: u32,
    open_phase: u32,
}

extern "C" {
    fn voter_slots_read(table: *const u8, table_len: usize) -> Outcome;
    fn voter_slots_write(
        table: *const u8,
        table_len: usize,
        out: *mut u8,
        out_len: usize,
    ) -> Outcome;
    fn voter_slots_apply(
        table: *const u8,
        table_len: usize,
        mark: u32,
        body: *const u8,
        body_len: usize,
        out: *mut u8,
        out_len: usize,
    ) -> Outcome;
    fn voter_slots_observe(
        table: *const u8,
        table_len: usize,
        body: *const u8,
        body_len: usize,
        out: *mut u8,
        out_len: usize,
    ) -> Outcome;
    fn voter_slots_retired(table: *const u8, table_len: usize, node: u64) -> u32;
    fn voter_slots_table_read(table: *mut Value, bytes: *const u8, bytes_len: usize) -> Outcome;
    fn voter_slots_table_write(table: *const Value, out: *mut u8, out_len: usize) -> Outcome;
    fn voter_slots_table_apply(
        table: *mut Value,
        mark: u32,
        body: *const u8,
        body_len: usize,
    ) -> Outcome;
    fn voter_slots_table_observe(table: *mut Value, body: *const u8, body_len: usize) -> Outcome;
}

/// A table value, opaque.
#[derive(Clone)]
#[repr(C)]
struct Value([u64; 1057]);

/// Hands over a line for each call as soon as it is measured.
pub fn run(mut line: impl FnMut(&str) -> Result<(), String>) -> Result<(), String> {
    line(&format!(
        "{:<22}{:>6}  {:<26}{:>10}{:>10}  (ns, median of {BATCHES} batches of {CALLS} calls)",
        "over bytes", "slots", "state", "original", "port"
    ))?;
    for count in [3, 5, 9] {
        for (state, table) in [
            ("idle", idle(count)),
            (
                "open, CaughtUp",
                open(count, VoterReplacementPhase::CaughtUp),
            ),
        ] {
            line(&read(state, &table))?;
            line(&write(state, &table))?;
            line(&retired(state, &table))?;
        }
        for (name, state, table, body) in commands(count) {
            line(&called(name, &state, &table, &body))?;
        }
        for (name, state, table, body) in commands(count) {
            line(&kept(name, &state, &table, &body))?;
        }
    }
    line(&read("largest", &largest()))?;
    line(&write("largest", &largest()))
}

/// Batches of both in turn, and the line of their medians.
fn measured(
    name: &str,
    slots: usize,
    state: &str,
    mut original: impl FnMut(),
    mut port: impl FnMut(),
) -> String {
    let mut times = [Vec::new(), Vec::new()];
    for _ in 0..BATCHES {
        times[0].push(timed(&mut original));
        times[1].push(timed(&mut port));
    }
    let [first, second] = times.map(|mut times| median(&mut times, CALLS).unwrap_or(0.0));
    let ratio = second / first;
    format!("{name:<22}{slots:>6}  {state:<26}{first:>10.1}{second:>10.1}  ratio {ratio:.2}")
}

fn timed(call: &mut impl FnMut()) -> u128 {
    let start = Instant::now();
    for _ in 0..CALLS {
        call();
    }
    start.elapsed().as_nanos()
}

fn bytes_of(table: &VoterSlotTable) -> Vec<u8> {
    encode_voter_slot_table(table).expect("a valid table")
}

fn decoded(bytes: &[u8]) -> VoterSlotTable {
    decode_voter_slot_table(black_box(bytes)).expect("a valid table")
}

fn read(state: &str, table: &VoterSlotTable) -> String {
    let bytes = bytes_of(table);
    let original = || {
        black_box(decoded(&bytes));
    };
    let port = || {
        let said = unsafe { voter_slots_read(black_box(bytes.as_ptr()), bytes.len()) };
        assert_eq!((said.answer, said.revision), (0, table.revision));
    };
    measured("read", table.slots.len(), state, original, port)
}

fn write(state: &str, table: &VoterSlotTable) -> String {
    let bytes = bytes_of(table);
    let mut out = vec![0; 8072];
    let original = || {
        black_box(encode_voter_slot_table(black_box(&decoded(&bytes))).is_ok());
    };
    let (place, room) = (out.as_mut_ptr(), out.len());
    let port = || {
        let said =
            unsafe { voter_slots_write(black_box(bytes.as_ptr()), bytes.len(), place, room) };
        assert_eq!(said.answer, 0);
    };
    measured("read and write", table.slots.len(), state, original, port)
}

fn retired(state: &str, table: &VoterSlotTable) -> String {
    let bytes = bytes_of(table);
    let id = identity(2, 1).node_id();
    let original = || {
        black_box(decoded(&bytes).is_retired(black_box(id)));
    };
    let port = || {
        let said = unsafe { voter_slots_retired(black_box(bytes.as_ptr()), bytes.len(), id.get()) };
        assert!(said == 100 || said == 101);
    };
    measured("retired test", table.slots.len(), state, original, port)
}

fn called(name: &str, state: &str, table: &VoterSlotTable, body: &Body) -> String {
    let Ok(call) = call::held(body) else {
        unreachable!("values that can be held")
    };
    let bytes = bytes_of(table);
    let mut after = table.clone();
    assert_eq!(call::run(&call, &mut after), 0, "an accepted call");
    let expected = bytes_of(&after);
    let (mark, body) = (body.mark(), body.bytes());
    let mut out = vec![0; 8072];
    let (place, room) = (out.as_mut_ptr(), out.len());
    let supplied = match &call {
        Call::Control { supplied, .. } => *supplied,
        Call::Observation { .. } => ([0; 32], [0; 32]),
    };
    let line = with_supplied(supplied.0, supplied.1, || {
        let original = || {
            let mut table = decoded(&bytes);
            match &call {
                Call::Control { control, cut, .. } => table
                    .apply_control(black_box(control), *cut)
                    .expect("accepted"),
                Call::Observation { sets, nodes, cut } => table
                    .observe_membership(black_box(sets), nodes, *cut)
                    .expect("accepted"),
            }
            black_box(encode_voter_slot_table(&table).is_ok());
        };
        let port = || {
            let said = unsafe { over_bytes(&bytes, mark, &body, place, room) };
            assert_eq!((said.answer, said.count), (0, expected.len() as u64));
        };
        measured(name, table.slots.len(), state, original, port)
    });
    assert_eq!(
        &out[..expected.len()],
        &expected[..],
        "the port wrote other bytes"
    );
    line
}

unsafe fn over_bytes(
    table: &[u8],
    mark: [u8; 2],
    body: &[u8],
    place: *mut u8,
    room: usize,
) -> Outcome {
    let (bytes, len) = (black_box(table.as_ptr()), table.len());
    if mark == *b"OB" {
        return voter_slots_observe(bytes, len, body.as_ptr(), body.len(), place, room);
    }
    let mark = u32::from(u16::from_be_bytes(mark));
    voter_slots_apply(bytes, len, mark, body.as_ptr(), body.len(), place, room)
}

/// The call on a value that is kept in memory.
fn kept(name: &str, state: &str, table: &VoterSlotTable, body: &Body) -> String {
    let Ok(call) = call::held(body) else {
        unreachable!("values that can be held")
    };
    let bytes = bytes_of(table);
    let mut value = Value([0; 1057]);
    let said = unsafe { voter_slots_table_read(&mut value, bytes.as_ptr(), bytes.len()) };
    assert_eq!(said.answer, 0, "a valid table");
    let mut after = table.clone();
    assert_eq!(call::run(&call, &mut after), 0, "an accepted call");
    let (mark, body) = (body.mark(), body.bytes());
    let supplied = match &call {
        Call::Control { supplied, .. } => *supplied,
        Call::Observation { .. } => ([0; 32], [0; 32]),
    };
    let mut times = [Vec::new(), Vec::new()];
    let mut values = vec![value.clone(); CALLS];
    with_supplied(supplied.0, supplied.1, || {
        for _ in 0..BATCHES {
            let mut tables = vec![table.clone(); CALLS];
            values.fill(value.clone());
            let start = Instant::now();
            for table in &mut tables {
                match &call {
                    Call::Control { control, cut, .. } => table
                        .apply_control(black_box(control), *cut)
                        .expect("accepted"),
                    Call::Observation { sets, nodes, cut } => table
                        .observe_membership(black_box(sets), nodes, *cut)
                        .expect("accepted"),
                }
            }
            times[0].push(start.elapsed().as_nanos());
            let start = Instant::now();
            for value in &mut values {
                let said = unsafe { in_memory(value, mark, &body) };
                assert_eq!(said.answer, 0);
            }
            times[1].push(start.elapsed().as_nanos());
        }
    });
    let mut out = vec![0; 8072];
    let said = unsafe { voter_slots_table_write(&values[0], out.as_mut_ptr(), out.len()) };
    assert_eq!(said.answer, 0);
    assert_eq!(
        &out[..said.count as usize],
        &bytes_of(&after)[..],
        "the port's table has other bytes"
    );
    let slots = table.slots.len();
    let [first, second] = times.map(|mut times| median(&mut times, CALLS).unwrap_or(0.0));
    let ratio = second / first;
    let name = format!("kept: {name}");
    format!("{name:<22}{slots:>6}  {state:<26}{first:>10.1}{second:>10.1}  ratio {ratio:.2}")
}

unsafe fn in_memory(value: &mut Value, mark: [u8; 2], body: &[u8]) -> Outcome {
    if mark == *b"OB" {
        return voter_slots_table_observe(value, body.as_ptr(), body.len());
    }
    let mark = u32::from(u16::from_be_bytes(mark));
    voter_slots_table_apply(value, mark, body.as_ptr(), body.len())
}
