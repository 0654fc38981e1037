//! Fuzzing: a log of replay records goes to the original Rust and to the port, in one process.
//! Where the two differ, the process ends, and libFuzzer keeps the log. See README.md.

// The oracle's own modules: the values of a record as the original's types, the call, the lines of
// a log, and the generator of records. They are compiled here as they stand.
#[allow(dead_code)]
#[path = "../../oracle/oracle/src/answer.rs"]
mod answer;
#[allow(dead_code)]
#[path = "../../oracle/oracle/src/call.rs"]
mod call;
#[allow(dead_code)]
#[path = "../../oracle/oracle/src/fixed.rs"]
mod fixed;
#[allow(dead_code)]
#[path = "../../oracle/oracle/src/format.rs"]
mod format;
#[allow(dead_code)]
#[path = "../../oracle/oracle/src/layout.rs"]
mod layout;
#[allow(dead_code)]
#[path = "../../oracle/oracle/src/raw.rs"]
mod raw;
#[allow(dead_code)]
#[path = "../../oracle/oracle/src/record.rs"]
mod record;
#[allow(dead_code)]
#[path = "../../oracle/oracle/src/replay.rs"]
mod replay;
#[allow(dead_code)]
#[path = "../../oracle/oracle/src/text.rs"]
mod text;
#[allow(dead_code)]
#[path = "../../oracle/oracle/src/wire.rs"]
mod wire;

mod calls;
mod coverage;
mod fence;
mod generate;
mod mutate;
mod port;
mod program;
mod values;

use std::slice;

/// libFuzzer's entry: one input.
///
/// # Safety
/// `data` is the start of `size` bytes.
#[no_mangle]
pub unsafe extern "C" fn LLVMFuzzerTestOneInput(data: *const u8, size: usize) -> i32 {
    let log = bytes_at(data, size);
    calls::compare(log);
    program::compare(log);
    coverage::note();
    0
}

/// libFuzzer's entry: changes the input in place, and gives its new size.
///
/// # Safety
/// `data` is the start of `most` bytes, of which the first `size` are the input.
#[no_mangle]
pub unsafe extern "C" fn LLVMFuzzerCustomMutator(
    data: *mut u8,
    size: usize,
    most: usize,
    seed: u32,
) -> usize {
    let log = mutate::changed(bytes_at(data, size), most, u64::from(seed));
    put(&log, data, most)
}

/// libFuzzer's entry: a new input made of two.
///
/// # Safety
/// Each pointer is the start of so many bytes as the number after it says.
#[no_mangle]
pub unsafe extern "C" fn LLVMFuzzerCustomCrossOver(
    one: *const u8,
    one_size: usize,
    two: *const u8,
    two_size: usize,
    out: *mut u8,
    most: usize,
    seed: u32,
) -> usize {
    let (one, two) = (bytes_at(one, one_size), bytes_at(two, two_size));
    put(&mutate::crossed(one, two, u64::from(seed)), out, most)
}

/// The bytes at a place. libFuzzer may give a null pointer with a size of 0.
unsafe fn bytes_at<'a>(data: *const u8, size: usize) -> &'a [u8] {
    if size == 0 {
        return &[];
    }
    slice::from_raw_parts(data, size)
}

unsafe fn put(bytes: &[u8], out: *mut u8, most: usize) -> usize {
    let count = bytes.len().min(most);
    std::ptr::copy(bytes.as_ptr(), out, count);
    count
}
