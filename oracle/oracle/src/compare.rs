//! `oracle compare`: the port's program and the original on the same input, line by line; at the
//! first difference the smallest question or log that still shows it, with both answers.

use std::io::Write;
use std::path::Path;
use std::process::{Command, Stdio};

use crate::format::{self, Item, Mark};
use crate::record::put_record;
use crate::{cases, generate, replay, show, shrink};

/// Records of one generated log.
const RECORDS_OF_A_LOG: usize = 120;

/// Mark and body.
type LogRecord = (Mark, Vec<u8>);

/// Whether all agreed, and what was found.
pub type Outcome = Result<(bool, String), String>;

/// The port's programs that answer questions: `cases` and `call_cases`.
pub type Programs<'a> = [&'a Path; 2];

/// Compares `count` generated questions.
pub fn questions(programs: Programs, seed: u64, count: usize, kind: &str) -> Outcome {
    if kind == "log" {
        return Err("logs are compared with --replay".to_owned());
    }
    let file =
        generate::generate(seed, count, kind).ok_or_else(|| format!("unknown kind: {kind}"))?;
    file_of_questions(programs, &file)
}

/// Compares the questions of a file, each with the program that answers it.
pub fn file_of_questions(programs: Programs, file: &[u8]) -> Outcome {
    let mut count = 0;
    for (program, part) in programs.into_iter().zip(format::for_each_program(file)) {
        if let Some(report) = difference_of_questions(program, &part)? {
            return Ok((false, report));
        }
        count += format::items(&part).len();
    }
    Ok((true, format!("{count} questions compared, no difference")))
}

/// The first difference on questions that the program answers. A program that is asked nothing need
/// not be there.
fn difference_of_questions(program: &Path, file: &[u8]) -> Result<Option<String>, String> {
    if file.is_empty() {
        return Ok(None);
    }
    let expected = cases::answers(file);
    let given = run(program, file)?;
    let Some(index) = first_difference(&expected, &given) else {
        return Ok(None);
    };
    let mut report = difference(&expected, &given, index);
    // Line 0 is the headline, so line N is the answer to question N.
    let asked = index
        .checked_sub(1)
        .and_then(|at| format::items(file).get(at).copied());
    if let Some(Item::Whole(mark, body)) = asked {
        report += &smallest_question(program, mark, body);
    }
    Ok(Some(report))
}

/// Compares generated logs until `count` records were played. The seeds of the logs follow one
/// another.
pub fn logs(program: &Path, seed: u64, count: usize) -> Outcome {
    let mut records = 0;
    let mut logs = 0;
    while records < count {
        let log = generate::generate(seed.wrapping_add(logs), RECORDS_OF_A_LOG, "log")
            .unwrap_or_default();
        let expected = replay::lines(&log);
        let given = run(program, &log)?;
        if let Some(index) = first_difference(&expected, &given) {
            let seed = seed.wrapping_add(logs);
            let report = difference(&expected, &given, index);
            return Ok((
                false,
                format!(
                    "log of seed {seed}: {report}{}",
                    smallest_log(program, &log)
                ),
            ));
        }
        records += expected.lines().count() - 1;
        logs += 1;
    }
    Ok((
        true,
        format!("{records} records in {logs} logs compared, no difference"),
    ))
}

/// The question alone, and as small as it can be made while the two programs still differ.
fn smallest_question(program: &Path, mark: Mark, body: &[u8]) -> String {
    let file_of = |body: &[u8]| {
        let mut file = Vec::new();
        format::put_question(&mut file, mark, body);
        file
    };
    let differs = |body: &[u8]| {
        let file = file_of(body);
        run(program, &file).is_ok_and(|given| given != cases::answers(&file))
    };
    if !differs(body) {
        return "asked alone, the question gets the same answer from both\n".to_owned();
    }
    let body = shrink::body(mark, body, &differs);
    let file = file_of(&body);
    let given = run(program, &file).unwrap_or_default();
    let question = show::question(mark, &body);
    format!(
        "smallest question: {question}\n{}",
        both(&cases::answers(&file), &given, 1)
    ) + &in_full(&file)
}

/// A table and one record where that shows the difference, else the log as small as leaving records
/// out makes it.
fn smallest_log(program: &Path, log: &[u8]) -> String {
    let records: Vec<LogRecord> = replay::items(log)
        .into_iter()
        .filter_map(|item| match item {
            replay::Item::Whole(mark, body) => Some((mark, body.to_vec())),
            replay::Item::Bad(_) => None,
        })
        .collect();
    let differs = |records: &[LogRecord]| {
        let log = log_of(records);
        run(program, &log).is_ok_and(|given| given != replay::lines(&log))
    };
    if !differs(&records) {
        return "the difference lies in the end of the log, which is no whole record\n".to_owned();
    }
    let short = table_and_record(program, &records).filter(|short| differs(short));
    let log = log_of(&short.unwrap_or_else(|| shrink::smallest(&records, &differs)));
    let (expected, given) = (replay::lines(&log), run(program, &log).unwrap_or_default());
    let index = first_difference(&expected, &given).unwrap_or_default();
    format!(
        "smallest log:\n{}{}",
        show::log(&log),
        both(&expected, &given, index)
    ) + &in_full(&log)
}

/// The table that stands before the first record that differs, and that record.
fn table_and_record(program: &Path, records: &[LogRecord]) -> Option<Vec<LogRecord>> {
    let log = log_of(records);
    let index = first_difference(&replay::lines(&log), &run(program, &log).ok()?)?;
    let (last, before) = records.get(..index)?.split_last()?;
    let mut run = replay::Run::default();
    for (mark, body) in before {
        run.step(*mark, body);
    }
    let table = original::encode_voter_slot_table(&run.table?).ok()?;
    Some(vec![(*b"TB", table), last.clone()])
}

fn log_of(records: &[LogRecord]) -> Vec<u8> {
    let mut log = Vec::new();
    for (mark, body) in records {
        put_record(&mut log, *mark, body);
    }
    log
}

fn first_difference(expected: &str, given: &str) -> Option<usize> {
    let (mut expected, mut given) = (expected.lines(), given.lines());
    let mut index = 0;
    loop {
        match (expected.next(), given.next()) {
            (None, None) => return None,
            (ours, theirs) if ours != theirs => return Some(index),
            _ => index += 1,
        }
    }
}

fn difference(expected: &str, given: &str, index: usize) -> String {
    format!(
        "first difference in line {}\n{}",
        index + 1,
        both(expected, given, index)
    )
}

fn both(expected: &str, given: &str, index: usize) -> String {
    let line = |text: &str| text.lines().nth(index).unwrap_or("(no line)").to_owned();
    format!(
        "  original: {}\n  port:     {}\n",
        line(expected),
        line(given)
    )
}

/// All bytes of the input, so that it can be made again.
fn in_full(file: &[u8]) -> String {
    let digits: String = file.iter().map(|byte| format!("{byte:02x}")).collect();
    format!("  bytes: {digits}\n")
}

/// The port's program on an input, and what it printed.
fn run(program: &Path, input: &[u8]) -> Result<String, String> {
    let failed = |error: std::io::Error| format!("{}: {error}", program.display());
    let mut child = Command::new(program)
        .stdin(Stdio::piped())
        .stdout(Stdio::piped())
        .spawn()
        .map_err(failed)?;
    let mut stdin = child.stdin.take().ok_or("no standard input")?;
    let input = input.to_vec();
    // A thread of its own: the program may print before it has read everything.
    let feeder = std::thread::spawn(move || stdin.write_all(&input));
    let output = child.wait_with_output().map_err(failed)?;
    // A program that ends early (33 and end) leaves input unread; that is no fault.
    let _ = feeder.join();
    if !output.status.success() {
        return Err(format!("{}: {}", program.display(), output.status));
    }
    String::from_utf8(output.stdout)
        .map_err(|_| format!("{}: output is not text", program.display()))
}
