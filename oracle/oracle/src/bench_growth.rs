//! `oracle bench-growth SUPPORT BYTES LIBRARY...` and `oracle once-growth SUPPORT BYTES
//! LIBRARY...`: how the cost of a call grows with the slots and with the length of the names, of
//! the original and of the port. The first one times the calls, batch by batch in turn; the second
//! one makes each call once, inside `counted_call`, for callgrind to count its instructions.
//! `scripts/growth.py` runs both.
//!
//! Each line has, between tabs: what is varied, the call, the state of the table, its slots, the
//! bytes of a name, the subject; and the nanoseconds where they were measured.

use std::hint::black_box;
use std::time::Instant;

use original::VoterReplacementPhase::CaughtUp;
use original::{
    decode_voter_slot_table, encode_voter_slot_table, with_supplied, LostVoterAttestationV1,
    VoterSlotTable,
};

use crate::bench::{commands, median};
use crate::bench_control::{held, kind, Library, Port, Support};
use crate::call::{self, Call};
use crate::raw;
use crate::record::{Begin, Body};
use crate::sample::{claims, cut, identity, idle, observation, open};
use crate::wire;

const SLOTS: [u16; 5] = [1, 3, 5, 7, 9];
const NAMES: [usize; 9] = [10, 20, 40, 80, 160, 320, 640, 1280, 2048];
/// The other one is kept at this.
const USUAL_SLOTS: u16 = 3;
const USUAL_NAME: usize = 40;

/// The commands and observations, of those that `oracle bench-control` times.
const RECORDS: [&str; 5] = [
    "Begin",
    "Advance fence",
    "Advance finalize",
    "observation joint",
    "observation idle",
];

/// Calls of one batch, and batches of one measurement. The median batch counts.
const CALLS: usize = 16;
const BATCHES: usize = 401;

/// One measured call on one table.
struct Task {
    varied: &'static str,
    call: &'static str,
    state: &'static str,
    name: usize,
    table: VoterSlotTable,
    work: Work,
}

enum Work {
    Read,
    Write,
    Validity,
    Record(Box<Body>),
    Retired(u64),
}

/// Calls of one subject, each on a place of its own.
trait Calls {
    /// Makes places for so many calls.
    fn prepare(&mut self, count: usize);

    /// A call on each place.
    fn run(&mut self);
}

struct On<T, F> {
    start: T,
    places: Vec<T>,
    call: F,
}

impl<T: Clone, F: FnMut(&mut T)> Calls for On<T, F> {
    fn prepare(&mut self, count: usize) {
        self.places.clear();
        self.places.resize(count, self.start.clone());
    }

    fn run(&mut self) {
        for place in &mut self.places {
            (self.call)(place);
        }
    }
}

fn on<'a, T: Clone + 'a>(start: T, call: impl FnMut(&mut T) + 'a) -> Box<dyn Calls + 'a> {
    Box::new(On {
        start,
        places: Vec::new(),
        call,
    })
}

/// What callgrind counts: everything between its entry and its return.
#[no_mangle]
#[inline(never)]
fn counted_call(calls: &mut dyn Calls) {
    calls.run();
}

type ReadTable = extern "C" fn(*const u8, usize, *mut u64) -> u64;
type WriteTable = extern "C" fn(*const u64, *mut u8, usize) -> u64;
type Validity = extern "C" fn(*const u64) -> u64;

/// The port's reading, writing and validity.
struct Bytes {
    read: ReadTable,
    write: WriteTable,
    validity: Validity,
}

impl Bytes {
    fn open(path: &str) -> Result<Self, String> {
        let library = Library::open(path)?;
        let missing = || format!("{path}: a function is missing");
        unsafe {
            Ok(Self {
                read: library.function("x_read").ok_or_else(missing)?,
                write: library.function("x_write").ok_or_else(missing)?,
                validity: library.function("x_validity").ok_or_else(missing)?,
            })
        }
    }
}

/// The port's libraries.
struct Libraries {
    support: Support,
    bytes: Bytes,
    ports: Vec<Port>,
}

impl Libraries {
    fn open(support: &str, bytes: &str, ports: &[&str]) -> Result<Self, String> {
        Ok(Self {
            support: Support::open(support)?,
            bytes: Bytes::open(bytes)?,
            ports: ports
                .iter()
                .map(|path| Port::open(path))
                .collect::<Result<_, _>>()?,
        })
    }
}

/// Hands over a line for each task and subject as soon as it is measured.
pub fn run(
    support: &str,
    bytes: &str,
    ports: &[&str],
    mut line: impl FnMut(&str) -> Result<(), String>,
) -> Result<(), String> {
    let libraries = Libraries::open(support, bytes, ports)?;
    for task in tasks() {
        // Made first: the original is asked on the way, with digests of its own.
        let mut subjects = subjects(&task, &libraries);
        supplied(&task, || {
            let mut times: Vec<Vec<u128>> = vec![Vec::new(); subjects.len()];
            for _ in 0..BATCHES {
                for ((_, calls), times) in subjects.iter_mut().zip(&mut times) {
                    calls.prepare(CALLS);
                    let start = Instant::now();
                    calls.run();
                    times.push(start.elapsed().as_nanos());
                }
            }
            for ((subject, _), times) in subjects.iter().zip(&mut times) {
                let time = median(times, CALLS).unwrap_or(0.0);
                line(&format!("{}\t{time:.1}", label(&task, subject)))?;
            }
            Ok(())
        })?;
    }
    Ok(())
}

/// One call of each task and subject inside `counted_call`, after one outside it, with a line for
/// each.
pub fn once(
    support: &str,
    bytes: &str,
    ports: &[&str],
    mut line: impl FnMut(&str) -> Result<(), String>,
) -> Result<(), String> {
    let libraries = Libraries::open(support, bytes, ports)?;
    for task in tasks() {
        let subjects = subjects(&task, &libraries);
        supplied(&task, || {
            for (subject, mut calls) in subjects {
                calls.prepare(1);
                calls.run();
                calls.prepare(1);
                counted_call(black_box(&mut *calls));
                line(&label(&task, &subject))?;
            }
            Ok(())
        })?;
    }
    Ok(())
}

fn label(task: &Task, subject: &str) -> String {
    let Task {
        varied,
        call,
        state,
        name,
        ..
    } = task;
    let slots = task.table.slots.len();
    format!("{varied}\t{call}\t{state}\t{slots}\t{name}\t{subject}")
}

/// Runs this with the digests supplied that the task's command brings, so that nothing is hashed.
fn supplied(task: &Task, work: impl FnOnce() -> Result<(), String>) -> Result<(), String> {
    match &task.work {
        Work::Record(body) => match held(body) {
            Call::Control { supplied, .. } => with_supplied(supplied.0, supplied.1, work),
            Call::Observation { .. } => work(),
        },
        _ => work(),
    }
}

fn tasks() -> Vec<Task> {
    let of_slots = SLOTS
        .iter()
        .flat_map(|slots| tasks_of("slots", *slots, USUAL_NAME));
    let of_names = NAMES
        .iter()
        .flat_map(|name| tasks_of("names", USUAL_SLOTS, *name))
        // No name stands in an idle table; a Begin brings its own.
        .filter(|task| task.state == "open" || task.call == "Begin");
    of_slots.chain(of_names).collect()
}

fn tasks_of(varied: &'static str, slots: u16, name: usize) -> Vec<Task> {
    let task = |call, state, table: &VoterSlotTable, work| Task {
        varied,
        call,
        state,
        name,
        table: table.clone(),
        work,
    };
    let mut tables = vec![("idle", idle(slots))];
    // A request is refused under three slots (16).
    if slots >= 3 {
        tables.push(("open", named(open(slots, CaughtUp), name)));
    }
    let node = identity(2, 1).node_id().get();
    let mut tasks: Vec<Task> = tables
        .iter()
        .flat_map(|(state, table)| {
            [
                task("read", state, table, Work::Read),
                task("write", state, table, Work::Write),
                task("validity", state, table, Work::Validity),
                task("retired test", state, table, Work::Retired(node)),
            ]
        })
        .collect();
    if slots < 3 {
        let ids: Vec<u64> = (1..=u64::from(slots)).collect();
        let body = observation(cut(2, 30), &[&ids], &ids);
        let (state, table) = &tables[0];
        let work = Work::Record(Box::new(body));
        tasks.push(task("observation idle", state, table, work));
        return tasks;
    }
    for (call, _, table, body) in commands(slots) {
        if RECORDS.contains(&call) {
            let state = if table.replacement.is_some() {
                "open"
            } else {
                "idle"
            };
            let body = body_named(&table, body, name);
            let work = Work::Record(Box::new(body));
            tasks.push(task(call, state, &named(table, name), work));
        }
    }
    tasks
}

/// The table with names of so many bytes in its open request.
fn named(mut table: VoterSlotTable, length: usize) -> VoterSlotTable {
    if let Some(operation) = &mut table.replacement {
        operation.attestation = attested(operation.attestation.clone(), length);
    }
    table
}

/// The record; a Begin of slot 2 with names of so many bytes.
fn body_named(table: &VoterSlotTable, body: Body, length: usize) -> Body {
    let Body::Begin(begin) = body else {
        return body;
    };
    let claims = attested(claims(table, 2, 1), length);
    Body::Begin(Begin {
        attestation: wire::attestation(&claims).bytes,
        ..begin
    })
}

fn attested(claims: LostVoterAttestationV1, length: usize) -> LostVoterAttestationV1 {
    let name = format!("{:x<length$}", "spiffe://");
    LostVoterAttestationV1 {
        candidate_spiffe_id: name.clone(),
        controller_spiffe_id: name,
        ..claims
    }
}

fn bytes_of(table: &VoterSlotTable) -> Vec<u8> {
    encode_voter_slot_table(table).expect("a valid table")
}

/// The original, and each of the port's libraries that has the call.
fn subjects<'a>(task: &'a Task, libraries: &'a Libraries) -> Vec<(String, Box<dyn Calls + 'a>)> {
    let mut subjects = vec![("original".to_owned(), original(task))];
    if let Some(calls) = bytes_calls(task, libraries) {
        subjects.push(("bytes".to_owned(), calls));
    }
    for port in &libraries.ports {
        if let Some(calls) = port_calls(task, &libraries.support, port) {
            subjects.push((port.name.clone(), calls));
        }
    }
    subjects
}

/// The original functions. What they return is dropped within the call, as a caller would drop it.
fn original(task: &Task) -> Box<dyn Calls + '_> {
    match &task.work {
        Work::Read => {
            let bytes = bytes_of(&task.table);
            on((), move |()| {
                black_box(decode_voter_slot_table(black_box(&bytes)).is_ok());
            })
        }
        Work::Write => on((), |()| {
            black_box(encode_voter_slot_table(black_box(&task.table)).is_ok());
        }),
        Work::Validity => on((), |()| {
            black_box(black_box(&task.table).check_validity().is_ok());
        }),
        Work::Retired(node) => {
            let node = call::held_node(*node).expect("an id that can be held");
            on((), move |()| {
                black_box(black_box(&task.table).is_retired(black_box(node)));
            })
        }
        Work::Record(body) => match held(body) {
            Call::Control { control, cut, .. } => on(task.table.clone(), move |table| {
                let answer = table.apply_control(black_box(&control), cut);
                answer.expect("an accepted command");
            }),
            Call::Observation { sets, nodes, cut } => on(task.table.clone(), move |table| {
                let answer = table.observe_membership(black_box(&sets), &nodes, cut);
                answer.expect("an accepted observation");
            }),
        },
    }
}

fn accepted(answer: u64) {
    assert_eq!(answer, 0, "the port refused what the original accepts");
}

/// Reading, writing and validity of the port. What it reads and writes is first held to the
/// original's.
fn bytes_calls<'a>(task: &'a Task, libraries: &'a Libraries) -> Option<Box<dyn Calls + 'a>> {
    let Libraries { support, bytes, .. } = libraries;
    let value = support.table(&task.table);
    let expected = bytes_of(&task.table);
    match &task.work {
        Work::Read => {
            let mut place = vec![0; value.len()];
            accepted((bytes.read)(
                expected.as_ptr(),
                expected.len(),
                place.as_mut_ptr(),
            ));
            assert_eq!(
                support.raw(&place),
                support.raw(&value),
                "another table read"
            );
            Some(on((), move |()| {
                let from = black_box(&expected);
                accepted((bytes.read)(from.as_ptr(), from.len(), place.as_mut_ptr()));
            }))
        }
        Work::Write => {
            let mut buffer = vec![0xEE; expected.len()];
            accepted((bytes.write)(
                value.as_ptr(),
                buffer.as_mut_ptr(),
                buffer.len(),
            ));
            assert_eq!(buffer, expected, "other bytes written");
            Some(on((), move |()| {
                let table = black_box(&value).as_ptr();
                accepted((bytes.write)(table, buffer.as_mut_ptr(), buffer.len()));
            }))
        }
        Work::Validity => Some(on((), move |()| {
            accepted((bytes.validity)(black_box(&value).as_ptr()));
        })),
        Work::Record(_) | Work::Retired(_) => None,
    }
}

/// A call on the port's table, in words of eight bytes.
type CallOn<'a> = Box<dyn FnMut(&mut Vec<u64>) + 'a>;

/// The calls on tables. The table after a command or observation is first held to the original's.
fn port_calls<'a>(
    task: &'a Task,
    support: &Support,
    port: &'a Port,
) -> Option<Box<dyn Calls + 'a>> {
    let start = support.table(&task.table);
    let mut call: CallOn<'a> = match &task.work {
        Work::Retired(node) => {
            let retired = port.retired?;
            return Some(on((), move |()| {
                black_box(retired(black_box(&start).as_ptr(), black_box(*node)));
            }));
        }
        Work::Record(body) => match (kind(body), held(body)) {
            (Some(kind), _) => {
                let apply = port.apply[kind]?;
                let command = support.command(body);
                let cut = body.cut();
                Box::new(move |place| {
                    let command = black_box(&command).as_ptr();
                    accepted(apply(place.as_mut_ptr(), command, cut.term, cut.index));
                })
            }
            (None, Call::Observation { sets, nodes, cut }) => {
                let observe = port.observe?;
                let ids: Vec<u64> = sets.iter().flatten().map(|id| id.get()).collect();
                let counts: Vec<u64> = sets.iter().map(|set| set.len() as u64).collect();
                let nodes: Vec<u64> = nodes.iter().map(|id| id.get()).collect();
                Box::new(move |place| {
                    accepted(observe(
                        place.as_mut_ptr(),
                        black_box(&ids).as_ptr(),
                        ids.len(),
                        counts.as_ptr(),
                        counts.len(),
                        nodes.as_ptr(),
                        nodes.len(),
                        cut.term,
                        cut.index,
                    ));
                })
            }
            (None, Call::Control { .. }) => return None,
        },
        Work::Read | Work::Write | Work::Validity => return None,
    };
    let mut place = start.clone();
    call(&mut place);
    assert_eq!(support.raw(&place), after(task), "another table");
    Some(on(start, call))
}

/// The raw form of the table after the task's record.
fn after(task: &Task) -> Vec<u8> {
    let mut table = task.table.clone();
    if let Work::Record(body) = &task.work {
        assert_eq!(call::run(&held(body), &mut table), 0, "an accepted call");
    }
    raw::of_table(&table).bytes
}
