//! The replay program against the original, line by line. The program runs in this process: its
//! `read` and `write` are the two functions here. How much a read brings, and whether one is
//! interrupted or fails, follows from the log.

use std::cell::RefCell;
use std::slice;

use crate::calls::seed_of;
use crate::generate::random::Random;
use crate::port::PROGRAMS;
use crate::replay::{self, Item};

const INTERRUPTED: i32 = 4;
const INPUT_OUTPUT: i32 = 5;
const BROKEN_PIPE: i32 = 32;
/// What the program says of a read that fails, before the system's words for it.
const COMPLAINT: &[u8] = b"replay: standard input: ";

extern "C" {
    fn __errno_location() -> *mut i32;
}

/// What the program is given, and what it has written.
struct Io {
    log: Vec<u8>,
    /// How far the log is read, and how far it can be.
    at: usize,
    end: usize,
    /// A read past `end` fails; else it is the end of the input.
    breaks: bool,
    /// Most bytes of one read or write.
    piece: usize,
    interrupts: bool,
    /// Bytes that the output takes before it is closed.
    room: usize,
    random: Random,
    out: Vec<u8>,
    err: Vec<u8>,
}

thread_local! {
    static IO: RefCell<Option<Io>> = const { RefCell::new(None) };
}

fn failed(error: i32) -> isize {
    // SAFETY: the C library's own place for the number, of this thread.
    unsafe { *__errno_location() = error };
    -1
}

impl Io {
    /// Everything at once, in pieces, with interrupted reads, with a read that fails, or with an
    /// output that is closed after some bytes.
    fn new(log: &[u8], expected: usize) -> Self {
        let mut random = Random::for_kind(seed_of(log), "program");
        let mut io = Self {
            log: log.to_vec(),
            at: 0,
            end: log.len(),
            breaks: false,
            piece: usize::MAX,
            interrupts: false,
            room: usize::MAX,
            random: Random::for_kind(seed_of(log), "pieces"),
            out: Vec::new(),
            err: Vec::new(),
        };
        if random.chance(30) {
            // A long log in at most some fifty reads: each costs the program a turn.
            let piece = random.pick(&[1, 2, 3, 7, 64, 500, 5000]);
            io.piece = piece.max(log.len() / 25);
            io.interrupts = random.chance(50);
        }
        match random.below(6) {
            0 => {
                io.end = random.below(log.len() + 1);
                io.breaks = true;
            }
            1 => io.room = random.below(expected + 2),
            _ => {}
        }
        io
    }

    fn read(&mut self, room: &mut [u8]) -> isize {
        assert!(!room.is_empty(), "a read that can bring nothing");
        if self.interrupts && self.random.chance(25) {
            return failed(INTERRUPTED);
        }
        if self.at == self.end && self.breaks {
            return failed(INPUT_OUTPUT);
        }
        let count = self.some(room.len().min(self.end - self.at));
        room[..count].copy_from_slice(&self.log[self.at..self.at + count]);
        self.at += count;
        count as isize
    }

    fn write(&mut self, file: i32, bytes: &[u8]) -> isize {
        if file == 2 {
            self.err.extend(bytes);
            return bytes.len() as isize;
        }
        assert_eq!(file, 1, "a write to another file");
        let left = self.room - self.out.len();
        if left == 0 {
            return failed(BROKEN_PIPE);
        }
        let count = self.some(bytes.len().min(left));
        self.out.extend(&bytes[..count]);
        count as isize
    }

    /// Some of so many bytes: none only where there are none.
    fn some(&mut self, count: usize) -> usize {
        if self.piece == usize::MAX || count == 0 {
            return count;
        }
        count.min(1 + self.random.below(self.piece))
    }
}

/// The program's `read`.
///
/// # Safety
/// `bytes` is the start of `size` bytes that nobody else uses.
#[no_mangle]
pub unsafe extern "C" fn fuzz_read(file: i32, bytes: *mut u8, size: usize) -> isize {
    assert_eq!(file, 0, "a read of another file");
    let room = slice::from_raw_parts_mut(bytes, size);
    IO.with(|io| io.borrow_mut().as_mut().expect("a run").read(room))
}

/// The program's `write`.
///
/// # Safety
/// `bytes` is the start of `size` bytes.
#[no_mangle]
pub unsafe extern "C" fn fuzz_write(file: i32, bytes: *const u8, size: usize) -> isize {
    let bytes = slice::from_raw_parts(bytes, size);
    IO.with(|io| io.borrow_mut().as_mut().expect("a run").write(file, bytes))
}

/// Ends the process where the program's output is not the one by the original.
pub fn compare(log: &[u8]) {
    let whole = replay::lines(log);
    for (name, main) in PROGRAMS {
        let io = Io::new(log, whole.len());
        let (breaks, room) = (io.breaks.then_some(io.end), io.room);
        IO.with(|place| *place.borrow_mut() = Some(io));
        // SAFETY: the program touches nothing but its own stack and what the two functions give it.
        let status = unsafe { main() };
        let ran = IO.with(|place| place.borrow_mut().take()).expect("a run");
        let (lines, complains) = match breaks {
            Some(place) => until(log, place),
            None => (whole.clone(), false),
        };
        let expected = &lines.as_bytes()[..lines.len().min(room)];
        assert!(
            expected == ran.out,
            "DIFFERENCE: {name}\n  original: {}\n  port:     {}",
            String::from_utf8_lossy(expected),
            String::from_utf8_lossy(&ran.out)
        );
        let said = ran.err.starts_with(COMPLAINT) && ran.err.ends_with(b"\n");
        assert!(
            if complains { said } else { ran.err.is_empty() },
            "DIFFERENCE: {name}, standard error: {}",
            String::from_utf8_lossy(&ran.err)
        );
        assert_eq!(status, 0, "DIFFERENCE: {name}, its status");
    }
}

/// The lines of a log that cannot be read past a place: those of the whole records before it, and
/// of an unknown mark. The second part: the program gets as far as the read that fails, and says
/// so.
fn until(log: &[u8], place: usize) -> (String, bool) {
    let part = &log[..place];
    let mut whole = 0;
    for item in replay::items(part) {
        match item {
            Item::Whole(_, body) => whole += 4 + body.len(),
            // A mark of which both bytes are there, and which is unknown, ends the log.
            Item::Bad(None) if place - whole >= 2 => return (replay::lines(part), false),
            Item::Bad(_) => {}
        }
    }
    (replay::lines(&part[..whole]), true)
}
