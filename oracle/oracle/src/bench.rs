//! `oracle bench`: nanoseconds of each call on tables of 3, 5 and 9 slots, idle and with a request
//! open, and of the bytes of the smallest, a typical and the largest table. Every subject gets the
//! same inputs in the same run, batch by batch in turn.

use std::hint::black_box;
use std::time::Instant;

use original::VoterReplacementPhase::*;
use original::{
    decode_voter_slot_table, encode_voter_slot_table, with_supplied, VoterReplacementPhase,
    VoterSlotTable,
};

use crate::call::{self, Call};
use crate::flat;
use crate::raw;
use crate::record::{Body, Step};
use crate::sample::{
    advance, begin, cut, identity, idle, largest, marker, observation, open, replacement, snapshot,
    typical,
};

/// Calls of one batch, and batches of one measurement. The median batch counts.
const CALLS: usize = 256;
const BATCHES: usize = 151;

/// One measured call on one table.
struct Task {
    name: &'static str,
    state: String,
    table: VoterSlotTable,
    work: Work,
}

enum Work {
    Validity,
    /// The representability check (30), which the original's types spare it.
    Representable,
    /// The check of the task's table against this older one.
    Successor(Box<VoterSlotTable>),
    Decode,
    Encode,
    Command(Box<Body>),
    Retired(u64),
    /// As many bytes as the port's value has are read, and are zero.
    Zeros,
    /// As many bytes are cleared and handed on.
    Made,
    /// The port's table is returned with an answer and kept, with nothing read.
    Returned,
}

/// The bytes of the port's table, as a value.
const VALUE: usize = 8456;

/// Something that can be timed.
trait Subject {
    fn name(&self) -> &'static str;

    /// Nanoseconds of one batch: fresh inputs are made first, and only the calls are timed. None
    /// where the subject has no such call.
    fn batch(&self, task: &Task) -> Option<u128>;
}

/// The columns of the report. The port's library is the second one, where the program was built
/// with the feature `port`; its ratio to the first is printed then. The last is the port's value in
/// Rust, by reference.
fn subjects() -> Vec<Box<dyn Subject>> {
    vec![
        Box::new(Original),
        #[cfg(feature = "port")]
        Box::new(port::Port),
        Box::new(Flat),
    ]
}

/// Hands over a line for each task as soon as it is measured.
pub fn run(mut line: impl FnMut(&str) -> Result<(), String>) -> Result<(), String> {
    let subjects = subjects();
    let names: String = subjects
        .iter()
        .map(|subject| format!("{:>10}", subject.name()))
        .collect();
    let (call, slots, state) = ("call", "slots", "state");
    let unit = format!("(ns, median of {BATCHES} batches of {CALLS} calls)");
    line(&format!("{call:<22}{slots:>6}  {state:<26}{names}  {unit}"))?;
    let of_slots = [3, 5, 9].into_iter().flat_map(tasks);
    let all = value_tasks().into_iter().chain(bytes_tasks());
    for task in all.chain(of_slots) {
        line(&measured(&subjects, &task))?;
    }
    Ok(())
}

fn measured(subjects: &[Box<dyn Subject>], task: &Task) -> String {
    let mut times: Vec<Vec<u128>> = vec![Vec::new(); subjects.len()];
    for _ in 0..BATCHES {
        for (subject, times) in subjects.iter().zip(&mut times) {
            times.extend(subject.batch(task));
        }
    }
    let medians: Vec<Option<f64>> = times.iter_mut().map(|times| median(times, CALLS)).collect();
    let slots = task.table.slots.len();
    let mut line = format!("{:<22}{slots:>6}  {:<26}", task.name, task.state);
    for median in &medians {
        match median {
            Some(median) => line += &format!("{median:>10.1}"),
            None => line += &format!("{:>10}", "-"),
        }
    }
    #[cfg(feature = "port")]
    if let [Some(first), Some(second), ..] = medians[..] {
        line += &format!("  ratio {:.2}", second / first);
    }
    line
}

/// Of one call; none where the subject has no such call.
pub fn median(times: &mut [u128], calls: usize) -> Option<f64> {
    times.sort_unstable();
    let middle = times.get(times.len() / 2)?;
    Some(*middle as f64 / calls as f64)
}

/// What the size of the port's value costs, whatever its table.
fn value_tasks() -> [Task; 3] {
    let task = |name, work| Task {
        name,
        state: format!("{VALUE} bytes"),
        table: idle(1),
        work,
    };
    [
        task("value read", Work::Zeros),
        task("value made", Work::Made),
        task("value returned", Work::Returned),
    ]
}

/// Reading and writing, by the size of the table.
fn bytes_tasks() -> Vec<Task> {
    let tables = [
        ("smallest", idle(1)),
        ("typical", typical()),
        ("largest", largest()),
    ];
    let task = |name, state: &str, table: &VoterSlotTable, work| Task {
        name,
        state: format!("{state}, {} bytes", bytes_of(table).len()),
        table: table.clone(),
        work,
    };
    let both = |(state, table)| {
        [
            task("decode", state, &table, Work::Decode),
            task("encode", state, &table, Work::Encode),
        ]
    };
    tables.into_iter().flat_map(both).collect()
}

fn bytes_of(table: &VoterSlotTable) -> Vec<u8> {
    encode_voter_slot_table(table).expect("a valid table")
}

fn tasks(count: u16) -> Vec<Task> {
    let mut tasks = Vec::new();
    let mut add = |name, state: &str, table: VoterSlotTable, work| {
        tasks.push(Task {
            name,
            state: state.to_owned(),
            table,
            work,
        });
    };
    let node = identity(2, 1).node_id().get();
    for (state, table) in [
        ("idle", idle(count)),
        ("open, CaughtUp", open(count, CaughtUp)),
    ] {
        add("validity", state, table.clone(), Work::Validity);
        add(
            "representability check",
            state,
            table.clone(),
            Work::Representable,
        );
        add("decode", state, table.clone(), Work::Decode);
        add("encode", state, table.clone(), Work::Encode);
        add("retired test", state, table, Work::Retired(node));
    }
    let older = Box::new(open(count, LearnerAdded));
    add(
        "successor check",
        "open, CaughtUp",
        open(count, CaughtUp),
        Work::Successor(older),
    );
    for (name, state, table, body) in commands(count) {
        add(name, &state, table, Work::Command(Box::new(body)));
    }
    tasks
}

pub type Command = (&'static str, String, VoterSlotTable, Body);

/// Every command and observation that takes a request further, and the repeats.
pub fn commands(count: u16) -> Vec<Command> {
    let idle = idle(count);
    let at = |phase: VoterReplacementPhase| (format!("open, {phase:?}"), open(count, phase));
    let steps = replacement(&idle, 1, 10);
    let names = [
        "Begin",
        "Advance snapshot",
        "observation learner",
        "Advance caught up",
        "Advance fence",
        "observation joint",
        "observation uniform",
        "Advance finalize",
    ];
    let phases = [
        Prepared,
        SnapshotInstalled,
        LearnerAdded,
        CaughtUp,
        Fenced,
        Joint,
        Uniform,
    ];
    let before = [("idle".to_owned(), idle.clone())]
        .into_iter()
        .chain(phases.map(at));
    let mut commands: Vec<Command> = names
        .into_iter()
        .zip(before)
        .zip(steps)
        .map(|((name, (state, table)), body)| (name, state, table, body))
        .collect();
    let (state, prepared) = at(Prepared);
    let superseding = Body::Begin(begin(&prepared, 2, 2, cut(2, 30)));
    let repeated = Body::Begin(begin(&idle, 2, 1, cut(2, 10)));
    commands.push((
        "Begin superseding",
        state.clone(),
        prepared.clone(),
        superseding,
    ));
    commands.push(("Begin repeated", state.clone(), prepared.clone(), repeated));
    commands.push((
        "Advance continuation",
        state,
        prepared,
        advance(1, cut(2, 30), Step::Continuation),
    ));
    let (state, installed) = at(SnapshotInstalled);
    commands.push((
        "Advance repeated",
        state,
        installed,
        advance(1, cut(2, 30), snapshot(cut(2, 10))),
    ));
    let (state, added) = at(LearnerAdded);
    commands.push((
        "Marker",
        state.clone(),
        added.clone(),
        marker(1, cut(2, 30)),
    ));
    let all: Vec<u64> = (1..=u64::from(count)).collect();
    let union = [&all[..], &[identity(2, 2).node_id().get()]].concat();
    commands.push((
        "observation repeated",
        state,
        added,
        observation(cut(2, 30), &[&all], &union),
    ));
    commands.push((
        "observation idle",
        "idle".to_owned(),
        idle,
        observation(cut(2, 30), &[&all], &all),
    ));
    commands
}

/// The original functions, with the digests supplied as document 01 has it, so that no time goes
/// into hashing.
struct Original;

impl Subject for Original {
    fn name(&self) -> &'static str {
        "original"
    }

    fn batch(&self, task: &Task) -> Option<u128> {
        let time = match &task.work {
            Work::Validity => timed(|| black_box(&task.table).check_validity()),
            Work::Representable | Work::Returned => return None,
            Work::Successor(older) => {
                timed(|| black_box(&task.table).validate_successor_of(black_box(older)))
            }
            Work::Decode => {
                let bytes = bytes_of(&task.table);
                timed(|| decode_voter_slot_table(black_box(&bytes)))
            }
            Work::Encode => timed(|| encode_voter_slot_table(black_box(&task.table))),
            Work::Retired(node) => {
                let node = call::held_node(*node).expect("an id that can be held");
                timed(|| black_box(&task.table).is_retired(black_box(node)))
            }
            Work::Zeros => {
                let value = vec![0_u8; VALUE];
                timed(|| black_box(&value).iter().fold(0, |all, byte| all | byte))
            }
            Work::Made => {
                let mut places = [vec![1_u8; VALUE], vec![1_u8; VALUE]];
                made(&mut places)
            }
            Work::Command(body) => {
                let Ok(call) = call::held(body) else {
                    unreachable!("values that can be held")
                };
                let tables = vec![task.table.clone(); CALLS];
                commanded(&call, tables)
            }
        };
        Some(time)
    }
}

/// The port's value, looked at where it lies (see flat.rs).
struct Flat;

impl Subject for Flat {
    fn name(&self) -> &'static str {
        "flat"
    }

    fn batch(&self, task: &Task) -> Option<u128> {
        let raw = raw::of_table(&task.table).bytes;
        let table = flat::of_raw(&raw).expect("a raw table");
        match &task.work {
            Work::Validity => {
                assert_eq!(flat::validate(&table), 0, "a valid table");
                Some(timed(|| flat::validate(black_box(&table))))
            }
            Work::Representable => Some(timed(|| flat::representable(black_box(&table)))),
            _ => None,
        }
    }
}

/// The port, through its static library.
#[cfg(feature = "port")]
mod port {
    use std::time::Instant;

    use super::{bytes_of, Subject, Task, Work, CALLS, VALUE};
    use crate::raw;

    extern "C" {
        fn bench_validity(raw: *const u8, len: usize, turns: u64) -> u64;
        fn bench_representable(raw: *const u8, len: usize, turns: u64) -> u64;
        fn bench_successor(
            new: *const u8,
            new_len: usize,
            old: *const u8,
            old_len: usize,
            turns: u64,
        ) -> u64;
        fn bench_returned(turns: u64) -> u64;
        fn bench_zeros(bytes: *const u8, len: usize, turns: u64) -> u64;
        fn bench_decode(bytes: *const u8, len: usize, turns: u64) -> u64;
        fn bench_encode(
            raw: *const u8,
            len: usize,
            buffer: *mut u8,
            buffer_len: usize,
            turns: u64,
        ) -> u64;
    }

    pub struct Port;

    impl Subject for Port {
        fn name(&self) -> &'static str {
            "port"
        }

        /// A table goes over in its raw form once for each batch; each call gets a copy of the
        /// value.
        fn batch(&self, task: &Task) -> Option<u128> {
            let turns = CALLS as u64;
            let table = raw::of_table(&task.table).bytes;
            match &task.work {
                Work::Validity => Some(timed(|| unsafe {
                    bench_validity(table.as_ptr(), table.len(), turns)
                })),
                Work::Representable => Some(timed(|| unsafe {
                    bench_representable(table.as_ptr(), table.len(), turns)
                })),
                Work::Successor(older) => {
                    let older = raw::of_table(older).bytes;
                    Some(timed(|| unsafe {
                        bench_successor(
                            table.as_ptr(),
                            table.len(),
                            older.as_ptr(),
                            older.len(),
                            turns,
                        )
                    }))
                }
                Work::Decode => {
                    let bytes = bytes_of(&task.table);
                    Some(timed(|| unsafe {
                        bench_decode(bytes.as_ptr(), bytes.len(), turns)
                    }))
                }
                Work::Encode => Some(encoded(task, &table, turns)),
                Work::Returned => Some(timed(|| unsafe { bench_returned(turns) })),
                Work::Zeros => {
                    let value = vec![0_u8; VALUE];
                    Some(timed(|| unsafe {
                        bench_zeros(value.as_ptr(), value.len(), turns)
                    }))
                }
                _ => None,
            }
        }
    }

    /// One batch of writing, in which two revisions take turns; the last bytes are those of the
    /// original.
    fn encoded(task: &Task, raw: &[u8], turns: u64) -> u128 {
        let mut last = task.table.clone();
        last.revision += (turns + 1) % 2;
        let expected = bytes_of(&last);
        let mut buffer = vec![0xEE; expected.len()];
        let (place, room) = (buffer.as_mut_ptr(), buffer.len());
        let time = timed(|| unsafe { bench_encode(raw.as_ptr(), raw.len(), place, room, turns) });
        assert_eq!(buffer, expected, "the port wrote other bytes");
        time
    }

    /// One batch. The port gives the sum of the answers' numbers, 0 where all were accepted.
    fn timed(calls: impl Fn() -> u64) -> u128 {
        let start = Instant::now();
        let refused = calls();
        let time = start.elapsed().as_nanos();
        assert_eq!(refused, 0, "the port refused what the original accepts");
        time
    }
}

/// `CALLS` calls of the same work. What they return is dropped within the time, as a caller
/// would drop it.
fn timed<T>(work: impl Fn() -> T) -> u128 {
    let start = Instant::now();
    for _ in 0..CALLS {
        black_box(work());
    }
    start.elapsed().as_nanos()
}

/// A value is made in one place and copied to another.
fn made(places: &mut [Vec<u8>; 2]) -> u128 {
    let [first, second] = places;
    let start = Instant::now();
    for _ in 0..CALLS {
        black_box(&mut *first).fill(0);
        black_box(&mut *second).copy_from_slice(black_box(first));
    }
    start.elapsed().as_nanos()
}

/// One call on each of the tables.
pub fn commanded(call: &Call, mut tables: Vec<VoterSlotTable>) -> u128 {
    match call {
        Call::Control {
            control,
            cut,
            supplied,
        } => with_supplied(supplied.0, supplied.1, || {
            let start = Instant::now();
            for table in &mut tables {
                black_box(table.apply_control(black_box(control), *cut))
                    .expect("an accepted command");
            }
            start.elapsed().as_nanos()
        }),
        Call::Observation { sets, nodes, cut } => {
            let start = Instant::now();
            for table in &mut tables {
                black_box(table.observe_membership(black_box(sets), nodes, *cut))
                    .expect("an accepted observation");
            }
            start.elapsed().as_nanos()
        }
    }
}
