//! The port's code, made safe to call: the service's library and the replay program, each built
//! twice from the proved crates. `plain` is the code that is delivered; `guided` is the same with
//! counters, which tell libFuzzer how far an input gets.

/// What a call gives; see `voter_slots_result` in `bindings/c/voter_slots.h`.
#[derive(Clone, Copy, Debug, PartialEq, Eq)]
#[repr(C)]
pub struct Outcome {
    pub answer: u32,
    pub slots: u32,
    pub count: u64,
    pub revision: u64,
    pub epoch: u64,
    pub open_slot: u32,
    pub open_phase: u32,
}

type Read = unsafe extern "C" fn(*const u8, usize) -> Outcome;
type Write = unsafe extern "C" fn(*const u8, usize, *mut u8, usize) -> Outcome;
type Apply =
    unsafe extern "C" fn(*const u8, usize, u32, *const u8, usize, *mut u8, usize) -> Outcome;
type Observe = unsafe extern "C" fn(*const u8, usize, *const u8, usize, *mut u8, usize) -> Outcome;
type Retired = unsafe extern "C" fn(*const u8, usize, u64) -> u32;
type TableRead = unsafe extern "C" fn(*mut u8, *const u8, usize) -> Outcome;
type TableWrite = unsafe extern "C" fn(*const u8, *mut u8, usize) -> Outcome;
type TableApply = unsafe extern "C" fn(*mut u8, u32, *const u8, usize) -> Outcome;
type TableObserve = unsafe extern "C" fn(*mut u8, *const u8, usize) -> Outcome;
type TableRetired = unsafe extern "C" fn(*const u8, u64) -> u32;

/// Bytes of a table value; see `voter_slots_table` in `bindings/c/voter_slots.h`.
pub const VALUE: usize = 8 * 1057;

/// One build of the library.
pub struct Library {
    pub name: &'static str,
    read: Read,
    write: Write,
    apply: Apply,
    observe: Observe,
    retired: Retired,
    table_read: TableRead,
    table_write: TableWrite,
    table_apply: TableApply,
    table_observe: TableObserve,
    table_retired: TableRetired,
}

macro_rules! library {
    (
        $name:literal, $read:ident, $write:ident, $apply:ident, $observe:ident, $retired:ident,
        $table_read:ident, $table_write:ident, $table_apply:ident, $table_observe:ident,
        $table_retired:ident
    ) => {{
        extern "C" {
            fn $read(table: *const u8, len: usize) -> Outcome;
            fn $write(table: *const u8, len: usize, out: *mut u8, room: usize) -> Outcome;
            fn $apply(
                table: *const u8,
                len: usize,
                mark: u32,
                body: *const u8,
                size: usize,
                out: *mut u8,
                room: usize,
            ) -> Outcome;
            fn $observe(
                table: *const u8,
                len: usize,
                body: *const u8,
                size: usize,
                out: *mut u8,
                room: usize,
            ) -> Outcome;
            fn $retired(table: *const u8, len: usize, node: u64) -> u32;
            fn $table_read(value: *mut u8, bytes: *const u8, len: usize) -> Outcome;
            fn $table_write(value: *const u8, out: *mut u8, room: usize) -> Outcome;
            fn $table_apply(value: *mut u8, mark: u32, body: *const u8, size: usize) -> Outcome;
            fn $table_observe(value: *mut u8, body: *const u8, size: usize) -> Outcome;
            fn $table_retired(value: *const u8, node: u64) -> u32;
        }
        Library {
            name: $name,
            read: $read,
            write: $write,
            apply: $apply,
            observe: $observe,
            retired: $retired,
            table_read: $table_read,
            table_write: $table_write,
            table_apply: $table_apply,
            table_observe: $table_observe,
            table_retired: $table_retired,
        }
    }};
}

pub const LIBRARIES: [Library; 2] = [
    library!(
        "libvoter_slots.a",
        voter_slots_read,
        voter_slots_write,
        voter_slots_apply,
        voter_slots_observe,
        voter_slots_retired,
        voter_slots_table_read,
        voter_slots_table_write,
        voter_slots_table_apply,
        voter_slots_table_observe,
        voter_slots_table_retired
    ),
    library!(
        "the library with counters",
        guided_voter_slots_read,
        guided_voter_slots_write,
        guided_voter_slots_apply,
        guided_voter_slots_observe,
        guided_voter_slots_retired,
        guided_voter_slots_table_read,
        guided_voter_slots_table_write,
        guided_voter_slots_table_apply,
        guided_voter_slots_table_observe,
        guided_voter_slots_table_retired
    ),
];

// SAFETY, of each call: every pointer and length is that of a slice that lives throughout it, and
// the slice that is written is borrowed `&mut`, so that it overlaps no other. A value has its size,
// is aligned, and its flags are 0 or 1 (`values.rs`).
impl Library {
    pub fn read(&self, table: &[u8]) -> Outcome {
        unsafe { (self.read)(table.as_ptr(), table.len()) }
    }

    pub fn write(&self, table: &[u8], out: &mut [u8]) -> Outcome {
        unsafe { (self.write)(table.as_ptr(), table.len(), out.as_mut_ptr(), out.len()) }
    }

    /// A command, or with the mark OB an observation.
    pub fn call(&self, table: &[u8], mark: u32, body: &[u8], out: &mut [u8]) -> Outcome {
        let (bytes, len, size, room) = (table.as_ptr(), table.len(), body.len(), out.len());
        let (body, out) = (body.as_ptr(), out.as_mut_ptr());
        if mark == OBSERVATION {
            return unsafe { (self.observe)(bytes, len, body, size, out, room) };
        }
        unsafe { (self.apply)(bytes, len, mark, body, size, out, room) }
    }

    pub fn retired(&self, table: &[u8], node: u64) -> u32 {
        unsafe { (self.retired)(table.as_ptr(), table.len(), node) }
    }

    pub fn table_read(&self, value: &mut [u8], bytes: &[u8]) -> Outcome {
        is_value(value);
        unsafe { (self.table_read)(value.as_mut_ptr(), bytes.as_ptr(), bytes.len()) }
    }

    pub fn table_write(&self, value: &[u8], out: &mut [u8]) -> Outcome {
        is_value(value);
        unsafe { (self.table_write)(value.as_ptr(), out.as_mut_ptr(), out.len()) }
    }

    /// A command, or with the mark OB an observation.
    pub fn table_call(&self, value: &mut [u8], mark: u32, body: &[u8]) -> Outcome {
        is_value(value);
        let (value, size, body) = (value.as_mut_ptr(), body.len(), body.as_ptr());
        if mark == OBSERVATION {
            return unsafe { (self.table_observe)(value, body, size) };
        }
        unsafe { (self.table_apply)(value, mark, body, size) }
    }

    pub fn table_retired(&self, value: &[u8], node: u64) -> u32 {
        is_value(value);
        unsafe { (self.table_retired)(value.as_ptr(), node) }
    }
}

fn is_value(value: &[u8]) {
    assert!(value.len() == VALUE && value.as_ptr().addr() % 8 == 0);
}

/// The mark of an observation, as a number.
pub const OBSERVATION: u32 = 0x4F42;

extern "C" {
    fn plain_replay_main() -> i32;
    fn guided_replay_main() -> i32;
}

/// The builds of the replay program's `main`. It reads by `fuzz_read` and writes by `fuzz_write`.
pub const PROGRAMS: [(&str, unsafe extern "C" fn() -> i32); 2] = [
    ("the replay program", plain_replay_main),
    ("the replay program with counters", guided_replay_main),
];
