//! How much code the inputs reach. Where FUZZ_COVERAGE names a file, a line for each counter is
//! written to it at the end: part, address, 1 where it is a function's entry, and 1 where it was
//! reached. fuzz/coverage.py sums them up.

use std::io::Write;
use std::slice;
use std::sync::{Mutex, OnceLock};

/// The ends of a part's counters, and the addresses that they stand for.
#[repr(C)]
struct Ends {
    start: *const u8,
    stop: *const u8,
    addresses: *const [usize; 2],
}

/// The parts, in the order of parts.c.
const NAMES: [&str; 3] = ["rust", "library", "program"];

extern "C" {
    // parts.c
    static fuzz_parts: [Ends; 3];

    fn atexit(work: extern "C" fn()) -> i32;
}

/// The counters of a part of the code, and whether each was ever above 0.
struct Part {
    name: &'static str,
    counters: &'static [u8],
    addresses: &'static [[usize; 2]],
    reached: Vec<bool>,
}

static PARTS: OnceLock<Option<Mutex<Vec<Part>>>> = OnceLock::new();

fn part((name, ends): (&'static str, &Ends)) -> Part {
    let count = ends.stop as usize - ends.start as usize;
    // SAFETY: the linker lays the counters and the addresses of a part one after the other, as many
    // of the one as of the other.
    unsafe {
        Part {
            name,
            counters: slice::from_raw_parts(ends.start, count),
            addresses: slice::from_raw_parts(ends.addresses, count),
            reached: vec![false; count],
        }
    }
}

fn parts() -> Option<Mutex<Vec<Part>>> {
    std::env::var_os("FUZZ_COVERAGE")?;
    // SAFETY: nobody changes `fuzz_parts`, and `atexit` is given a function that lives on.
    let ends = unsafe {
        atexit(report);
        &fuzz_parts
    };
    Some(Mutex::new(NAMES.into_iter().zip(ends).map(part).collect()))
}

/// Notes what the input that was just played has reached.
pub fn note() {
    let Some(parts) = PARTS.get_or_init(parts) else {
        return;
    };
    for part in parts.lock().expect("one thread").iter_mut() {
        for (reached, counter) in part.reached.iter_mut().zip(part.counters) {
            // SAFETY: a byte that lives on. The counting code changes it unseen by the compiler.
            *reached |= unsafe { std::ptr::read_volatile(counter) } != 0;
        }
    }
}

extern "C" fn report() {
    let (Some(Some(parts)), Some(path)) = (PARTS.get(), std::env::var_os("FUZZ_COVERAGE")) else {
        return;
    };
    let mut text = String::new();
    for part in parts.lock().expect("one thread").iter() {
        for ([address, entry], reached) in part.addresses.iter().zip(&part.reached) {
            let (entry, reached) = (entry & 1, u8::from(*reached));
            text += &format!("{} {address:x} {entry} {reached}\n", part.name);
        }
    }
    let written = std::fs::File::create(path).and_then(|mut file| file.write_all(text.as_bytes()));
    written.expect("the report is written");
}
