//! `oracle bench-control SUPPORT LIBRARY...`: commands, observations and the retired test of the
//! original next to shared libraries of the port's code, one for each way to call it, in one run,
//! batch by batch in turn. `bench/control` has the libraries' sources, `scripts/unproved.py shape`
//! builds them; the first one makes the port's values.

use std::ffi::{c_char, c_int, c_void, CStr, CString};
use std::hint::black_box;
use std::time::Instant;

use original::{VoterReplacementPhase, VoterSlotTable};

use crate::bench::{commanded, commands};
use crate::call::{self, Call};
use crate::raw;
use crate::record::Body;
use crate::sample::{identity, idle, open};

/// Calls of one batch, and batches of one measurement. The median batch counts. Few calls, so that
/// their tables stay in the cache.
const CALLS: usize = 16;
const BATCHES: usize = 1201;

/// The sizes of the port's table and command, in words of eight bytes; the command's is an upper
/// bound.
const TABLE: usize = 8456 / 8;
const COMMAND: usize = 8192 / 8;

extern "C" {
    fn dlopen(name: *const c_char, flags: c_int) -> *mut c_void;
    fn dlsym(handle: *mut c_void, name: *const c_char) -> *mut c_void;
    fn dlerror() -> *const c_char;
}

type TableOf = extern "C" fn(*const u8, usize, *mut u64) -> u64;
type RawOf = extern "C" fn(*const u64, *mut u8, usize) -> u64;
type CommandOf = extern "C" fn(*const u8, usize, u64, *mut u64) -> u64;
pub type Apply = extern "C" fn(*mut u64, *const u64, u64, u64) -> u64;
pub type Observe = extern "C" fn(
    *mut u64,
    *const u64,
    usize,
    *const u64,
    usize,
    *const u64,
    usize,
    u64,
    u64,
) -> u64;
pub type Retired = extern "C" fn(*const u64, u64) -> u64;

/// A shared library, which stays open.
pub struct Library(*mut c_void);

impl Library {
    pub fn open(path: &str) -> Result<Self, String> {
        let name = CString::new(path).map_err(|_| "a path with a zero byte".to_owned())?;
        // RTLD_NOW.
        let handle = unsafe { dlopen(name.as_ptr(), 2) };
        if handle.is_null() {
            let why = unsafe { CStr::from_ptr(dlerror()) };
            return Err(format!("{path}: {}", why.to_string_lossy()));
        }
        Ok(Self(handle))
    }

    /// The function of this name, whose type is the caller's word.
    pub unsafe fn function<F: Copy>(&self, name: &str) -> Option<F> {
        let name = CString::new(name).ok()?;
        let found = dlsym(self.0, name.as_ptr());
        (!found.is_null()).then(|| std::mem::transmute_copy(&found))
    }
}

/// What makes the port's values from those of questions, and the raw form of its tables.
pub struct Support {
    table: TableOf,
    raw: RawOf,
    command: CommandOf,
}

impl Support {
    pub fn open(path: &str) -> Result<Self, String> {
        let library = Library::open(path)?;
        let missing = || format!("{path}: a function is missing");
        unsafe {
            Ok(Self {
                table: library.function("x_table").ok_or_else(missing)?,
                raw: library.function("x_raw").ok_or_else(missing)?,
                command: library.function("x_command").ok_or_else(missing)?,
            })
        }
    }

    pub fn table(&self, table: &VoterSlotTable) -> Vec<u64> {
        let raw = raw::of_table(table).bytes;
        let mut value = vec![0; TABLE];
        (self.table)(raw.as_ptr(), raw.len(), value.as_mut_ptr());
        value
    }

    pub fn raw(&self, value: &[u64]) -> Vec<u8> {
        let mut raw = vec![0; 8062];
        (self.raw)(value.as_ptr(), raw.as_mut_ptr(), raw.len());
        raw
    }

    /// The command of a record; zeros for an observation.
    pub fn command(&self, body: &Body) -> Vec<u64> {
        let bytes = body.bytes();
        let mut value = vec![0; COMMAND];
        if let Some(kind) = kind(body) {
            (self.command)(bytes.as_ptr(), bytes.len(), kind as u64, value.as_mut_ptr());
        }
        value
    }
}

/// Begin 0, Advance 1, Marker 2: the port's kinds.
pub fn kind(body: &Body) -> Option<usize> {
    match body {
        Body::Begin(_) => Some(0),
        Body::Advance(_) => Some(1),
        Body::Marker(_) => Some(2),
        Body::Observation(_) => None,
    }
}

/// One way to call the port. A call for each kind of command, or one for all of them.
pub struct Port {
    pub name: String,
    pub apply: [Option<Apply>; 3],
    pub observe: Option<Observe>,
    pub retired: Option<Retired>,
}

impl Port {
    pub fn open(path: &str) -> Result<Self, String> {
        let library = Library::open(path)?;
        let file = path.rsplit('/').next().unwrap_or(path);
        unsafe {
            let all = library.function("x_apply");
            let apply = ["x_begin", "x_advance", "x_marker"];
            Ok(Self {
                name: file.trim_end_matches(".so").to_owned(),
                apply: apply.map(|name| library.function(name).or(all)),
                observe: library.function("x_observe"),
                retired: library.function("x_retired"),
            })
        }
    }
}

/// One measured call on one table.
struct Task {
    name: &'static str,
    state: String,
    table: VoterSlotTable,
    work: Work,
}

enum Work {
    Record(Box<Body>),
    Retired(u64),
}

/// Hands over a line for each task as soon as it is measured.
pub fn run(
    support: &str,
    ports: &[&str],
    mut line: impl FnMut(&str) -> Result<(), String>,
) -> Result<(), String> {
    let support = Support::open(support)?;
    let ports = ports
        .iter()
        .map(|path| Port::open(path))
        .collect::<Result<Vec<_>, _>>()?;
    let names: String = ports
        .iter()
        .map(|port| format!("{:>18}", port.name))
        .collect();
    let (call, slots, state, first) = ("call", "slots", "state", "original");
    let unit = format!("(ns and ratio, median of {BATCHES} batches of {CALLS} calls)");
    line(&format!(
        "{call:<22}{slots:>6}  {state:<26}{first:>10}{names}  {unit}"
    ))?;
    for task in [3, 5, 9].into_iter().flat_map(tasks) {
        line(&measured(&support, &ports, &task))?;
    }
    Ok(())
}

/// One call of each task in a library, after one that is not counted, with a line for each: what
/// scripts/count.py runs under callgrind, which counts the instructions of every call.
pub fn once(
    support: &str,
    port: &str,
    mut line: impl FnMut(&str) -> Result<(), String>,
) -> Result<(), String> {
    let support = Support::open(support)?;
    let port = Port::open(port)?;
    for task in [3, 5, 9].into_iter().flat_map(tasks) {
        let start = support.table(&task.table);
        let mut called = true;
        for _ in 0..2 {
            let mut place = [start.clone()];
            called = port_batch(&support, &port, &task, &mut place).is_some();
        }
        if called {
            let slots = task.table.slots.len();
            line(&format!("{}\t{slots}\t{}", task.name, task.state))?;
        }
    }
    Ok(())
}

fn tasks(count: u16) -> Vec<Task> {
    let node = identity(2, 1).node_id().get();
    let learner = open(count, VoterReplacementPhase::LearnerAdded);
    let retired = [("idle", idle(count)), ("open, LearnerAdded", learner)];
    let retired = retired.map(|(state, table)| Task {
        name: "retired test",
        state: state.to_owned(),
        table,
        work: Work::Retired(node),
    });
    let records = commands(count)
        .into_iter()
        .map(|(name, state, table, body)| Task {
            name,
            state,
            table,
            work: Work::Record(Box::new(body)),
        });
    records.chain(retired).collect()
}

fn measured(support: &Support, ports: &[Port], task: &Task) -> String {
    let start = support.table(&task.table);
    let mut places = vec![start.clone(); CALLS];
    let mut original = Vec::new();
    let mut times: Vec<Vec<u128>> = vec![Vec::new(); ports.len()];
    for turn in 0..BATCHES {
        original.push(original_batch(task));
        for (port, times) in ports.iter().zip(&mut times) {
            for place in &mut places {
                place.copy_from_slice(&start);
            }
            let Some(time) = port_batch(support, port, task, &mut places) else {
                continue;
            };
            times.push(time);
            if turn == 0 {
                assert_eq!(support.raw(&places[3]), expected(task), "another table");
            }
        }
    }
    let first = median(&mut original);
    let mut line = format!(
        "{:<22}{:>6}  {:<26}",
        task.name,
        task.table.slots.len(),
        task.state
    );
    line += &format!("{first:>10.1}");
    for times in &mut times {
        if times.is_empty() {
            line += &format!("{:>18}", "-");
        } else {
            let time = median(times);
            line += &format!("{time:>10.1} ({:>5.2})", time / first);
        }
    }
    line
}

fn median(times: &mut [u128]) -> f64 {
    times.sort_unstable();
    times[times.len() / 2] as f64 / CALLS as f64
}

/// The raw form of the table that the original returns.
fn expected(task: &Task) -> Vec<u8> {
    let mut table = task.table.clone();
    if let Work::Record(body) = &task.work {
        assert_eq!(call::run(&held(body), &mut table), 0, "an accepted call");
    }
    raw::of_table(&table).bytes
}

pub fn held(body: &Body) -> Call {
    call::held(body).unwrap_or_else(|_| unreachable!("values that can be held"))
}

fn original_batch(task: &Task) -> u128 {
    match &task.work {
        Work::Record(body) => commanded(&held(body), vec![task.table.clone(); CALLS]),
        Work::Retired(node) => {
            let node = call::held_node(*node).expect("an id that can be held");
            let start = Instant::now();
            for _ in 0..CALLS {
                black_box(black_box(&task.table).is_retired(black_box(node)));
            }
            start.elapsed().as_nanos()
        }
    }
}

/// One batch, a call on each place. None where the port has no such call.
fn port_batch(
    support: &Support,
    port: &Port,
    task: &Task,
    places: &mut [Vec<u64>],
) -> Option<u128> {
    match &task.work {
        Work::Retired(node) => {
            let retired = port.retired?;
            Some(timed(places, |place| {
                black_box(retired(black_box(place).as_ptr(), black_box(*node)));
                0
            }))
        }
        Work::Record(body) => match (kind(body), held(body)) {
            (Some(kind), _) => {
                let apply = port.apply[kind]?;
                let command = support.command(body);
                let cut = body.cut();
                Some(timed(places, |place| {
                    let command = black_box(&command).as_ptr();
                    apply(place.as_mut_ptr(), command, cut.term, cut.index)
                }))
            }
            (None, call) => observed(port.observe?, &call, places),
        },
    }
}

fn observed(observe: Observe, call: &Call, places: &mut [Vec<u64>]) -> Option<u128> {
    let Call::Observation { sets, nodes, cut } = call else {
        return None;
    };
    let ids: Vec<u64> = sets.iter().flatten().map(|id| id.get()).collect();
    let counts: Vec<u64> = sets.iter().map(|set| set.len() as u64).collect();
    let nodes: Vec<u64> = nodes.iter().map(|id| id.get()).collect();
    Some(timed(places, |place| {
        observe(
            place.as_mut_ptr(),
            black_box(&ids).as_ptr(),
            ids.len(),
            counts.as_ptr(),
            counts.len(),
            nodes.as_ptr(),
            nodes.len(),
            cut.term,
            cut.index,
        )
    }))
}

/// The time of a call on each place; all are accepted.
fn timed(places: &mut [Vec<u64>], call: impl Fn(&mut Vec<u64>) -> u64) -> u128 {
    let mut answers = 0;
    let start = Instant::now();
    for place in places {
        answers |= call(place);
    }
    let time = start.elapsed().as_nanos();
    assert_eq!(answers, 0, "the port refused what the original accepts");
    time
}
