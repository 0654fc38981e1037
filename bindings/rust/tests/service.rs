//! The example `journal_service`, killed at many points: nothing that it confirmed is lost.

mod common;

use std::fs;
use std::io::{BufRead, BufReader};
use std::path::{Path, PathBuf};
use std::process::{Command as Program, Stdio};
use std::time::Duration;

use common::{idle, idle_bytes, marker, replacement, Call};
use voter_slots::{LogId, Record, Refusal, Table};

/// Kills of one test.
const KILLS: u32 = 150;

/// The example, which `cargo test` builds next to the tests.
fn service() -> PathBuf {
    let own = std::env::current_exe().expect("this test's path");
    let built = own.ancestors().nth(2).expect("the folder of the build");
    built.join("examples").join("journal_service")
}

/// A replacement, each call of it twice, and a marker that is refused before each.
fn log() -> Vec<u8> {
    let mut log = Vec::new();
    let mut put = |mark: [u8; 2], body: &[u8]| {
        log.extend(
            Record { mark, body }
                .encode()
                .expect("a body that has room"),
        );
    };
    put(*b"TB", &idle_bytes(5));
    for call in replacement(&idle(5), 1) {
        put(*b"MK", marker(9, LogId::new(1, 1)).body());
        for _ in 0..2 {
            match &call {
                Call::Command(command) => put(command.kind().mark(), command.body()),
                Call::Observation(observation) => put(*b"OB", observation.body()),
            }
        }
    }
    log
}

/// The lines of a run that nobody kills, and its last table.
fn expected(log: &[u8]) -> (Vec<String>, Table) {
    let (first, mut rest) = Record::split_first(log).expect("the first record");
    let mut table = Table::decode(first.body).expect("the first table");
    let mut lines = vec![format!("{} 0 1", log.len() - rest.len())];
    while let Some((record, after)) = Record::split_first(rest) {
        let answer = table.play(record).map_or_else(Refusal::number, |_| 0);
        rest = after;
        lines.push(format!(
            "{} {answer} {}",
            log.len() - rest.len(),
            table.revision()
        ));
    }
    (lines, table)
}

/// Runs the service until it has printed so many lines, waits a little and kills it. Gives the
/// lines that it had printed.
fn killed(state: &Path, log: &Path, lines: usize, wait: Duration) -> Vec<String> {
    let mut program = Program::new(service())
        .args([state, log])
        .stdout(Stdio::piped())
        .spawn()
        .expect("the service starts");
    let mut out = BufReader::new(program.stdout.take().expect("its output")).lines();
    let mut said: Vec<String> = out
        .by_ref()
        .take(lines)
        .map(|line| line.expect("a line"))
        .collect();
    std::thread::sleep(wait);
    // Where it has ended by itself there is nothing to kill.
    let _ = program.kill();
    program.wait().expect("the service has ended");
    said.extend(out.map_while(Result::ok));
    said
}

#[test]
fn what_was_confirmed_is_never_lost() {
    let folder = std::env::temp_dir().join(format!("voter-slots-{}", std::process::id()));
    fs::create_dir_all(&folder).expect("a folder of its own");
    let (state, path) = (folder.join("state"), folder.join("log"));
    let log = log();
    fs::write(&path, &log).expect("the log");
    let (lines, last) = expected(&log);

    let mut confirmed = 0;
    let mut finished = 0;
    for kill in 0..KILLS {
        let wait = Duration::from_micros(u64::from(kill) * 37 % 1500);
        let said = killed(&state, &path, kill as usize % 7, wait);
        // It goes on among the expected lines, and leaves out no record that was not confirmed.
        if let Some(first) = said.first() {
            let from = lines
                .iter()
                .position(|line| line == first)
                .expect("an expected line");
            assert!(from <= confirmed, "records were left out");
            assert_eq!(&lines[from..from + said.len()], &said[..]);
            confirmed = confirmed.max(from + said.len());
        }
        check_stored(&state, &lines[..confirmed]);
        if confirmed == lines.len() {
            finished += 1;
            fs::remove_file(&state).expect("a new start");
            confirmed = 0;
        }
    }
    let all = Program::new(service()).args([&state, &path]).output();
    assert!(all.expect("the service runs").status.success());
    assert_eq!(&fs::read(&state).expect("the state")[8..], last.as_bytes());
    println!("{KILLS} kills, {finished} runs to the end");
    fs::remove_dir_all(&folder).expect("the folder is removed");
}

/// The stored table has the revision that was confirmed last, or a later one.
fn check_stored(state: &Path, confirmed: &[String]) {
    let Some(line) = confirmed.last() else { return };
    let revision: u64 = line
        .rsplit(' ')
        .next()
        .expect("a revision")
        .parse()
        .expect("a number");
    let bytes = fs::read(state).expect("a state was confirmed, so it is stored");
    let table = Table::decode(&bytes[8..]).expect("what is stored is a table");
    assert!(revision <= table.revision(), "a confirmed change is lost");
}
