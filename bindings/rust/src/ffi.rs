//! The functions of the archive, made safe. All of the crate's `unsafe` is here.

use std::mem::MaybeUninit;

/// What a call gives; see `voter_slots_result` in `bindings/c/voter_slots.h`.
#[derive(Clone, Copy, Debug, PartialEq, Eq)]
#[repr(C)]
pub(crate) struct Outcome {
    pub answer: u32,
    pub slots: u32,
    pub count: u64,
    pub revision: u64,
    pub epoch: u64,
    pub open_slot: u32,
    pub open_phase: u32,
}

/// Size of a table value, in words; `bin/bindings` holds it to the header's.
const WORDS: usize = 1057;

/// Room for a table value; see `voter_slots_table` in `bindings/c/voter_slots.h`. All zero, it is
/// the blank table, which no call but a reading accepts.
#[derive(Clone)]
#[repr(C)]
pub(crate) struct Value([MaybeUninit<u64>; WORDS]);

impl Value {
    pub(crate) fn blank() -> Box<Self> {
        Box::new(Value([MaybeUninit::new(0); WORDS]))
    }
}

/// The answers of the retired test that are no refusals.
pub(crate) const NOT_RETIRED: u32 = 100;
pub(crate) const RETIRED: u32 = 101;

extern "C" {
    fn voter_slots_read(table: *const u8, table_len: usize) -> Outcome;
    fn voter_slots_write(
        table: *const u8,
        table_len: usize,
        out: *mut u8,
        out_len: usize,
    ) -> Outcome;
    fn voter_slots_apply(
        table: *const u8,
        table_len: usize,
        mark: u32,
        body: *const u8,
        body_len: usize,
        out: *mut u8,
        out_len: usize,
    ) -> Outcome;
    fn voter_slots_observe(
        table: *const u8,
        table_len: usize,
        body: *const u8,
        body_len: usize,
        out: *mut u8,
        out_len: usize,
    ) -> Outcome;
    fn voter_slots_retired(table: *const u8, table_len: usize, node: u64) -> u32;
    fn voter_slots_table_read(table: *mut Value, bytes: *const u8, bytes_len: usize) -> Outcome;
    fn voter_slots_table_write(table: *const Value, out: *mut u8, out_len: usize) -> Outcome;
    fn voter_slots_table_apply(
        table: *mut Value,
        mark: u32,
        body: *const u8,
        body_len: usize,
    ) -> Outcome;
    fn voter_slots_table_observe(table: *mut Value, body: *const u8, body_len: usize) -> Outcome;
    fn voter_slots_table_retired(table: *const Value, node: u64) -> u32;
}

// SAFETY, of each call: every pointer and length is that of a slice that lives throughout it, and
// the slice that is written is borrowed `&mut`, so that it overlaps no other. The archive keeps no
// pointer. A `Value` is zero when it is made, which is the blank table, and only the archive writes
// it; its filler may be anything and is never looked at.

pub(crate) fn read(table: &[u8]) -> Outcome {
    unsafe { voter_slots_read(table.as_ptr(), table.len()) }
}

pub(crate) fn write(table: &[u8], out: &mut [u8]) -> Outcome {
    unsafe { voter_slots_write(table.as_ptr(), table.len(), out.as_mut_ptr(), out.len()) }
}

pub(crate) fn apply(table: &[u8], mark: u32, body: &[u8], out: &mut [u8]) -> Outcome {
    unsafe {
        voter_slots_apply(
            table.as_ptr(),
            table.len(),
            mark,
            body.as_ptr(),
            body.len(),
            out.as_mut_ptr(),
            out.len(),
        )
    }
}

pub(crate) fn observe(table: &[u8], body: &[u8], out: &mut [u8]) -> Outcome {
    unsafe {
        voter_slots_observe(
            table.as_ptr(),
            table.len(),
            body.as_ptr(),
            body.len(),
            out.as_mut_ptr(),
            out.len(),
        )
    }
}

pub(crate) fn retired(table: &[u8], node: u64) -> u32 {
    unsafe { voter_slots_retired(table.as_ptr(), table.len(), node) }
}

pub(crate) fn table_read(table: &mut Value, bytes: &[u8]) -> Outcome {
    unsafe { voter_slots_table_read(table, bytes.as_ptr(), bytes.len()) }
}

pub(crate) fn table_write(table: &Value, out: &mut [u8]) -> Outcome {
    unsafe { voter_slots_table_write(table, out.as_mut_ptr(), out.len()) }
}

pub(crate) fn table_apply(table: &mut Value, mark: u32, body: &[u8]) -> Outcome {
    unsafe { voter_slots_table_apply(table, mark, body.as_ptr(), body.len()) }
}

pub(crate) fn table_observe(table: &mut Value, body: &[u8]) -> Outcome {
    unsafe { voter_slots_table_observe(table, body.as_ptr(), body.len()) }
}

pub(crate) fn table_retired(table: &Value, node: u64) -> u32 {
    unsafe { voter_slots_table_retired(table, node) }
}
