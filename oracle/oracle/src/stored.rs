//! `oracle samples`: the stored samples, which the port's programs play with no Rust at hand.
//! The seeds stand here, so one command makes the same files again.

use std::path::Path;

use crate::{cases, edges, fixed, generate, named, replay};

/// Files of questions: name, seed, count, kind.
const QUESTIONS: [(&str, u64, usize, &str); 7] = [
    ("text", 1, 4000, "text"),
    ("validity", 5, 600, "validity"),
    ("bytes", 2, 1000, "bytes"),
    ("writing", 6, 600, "writing"),
    ("retired", 3, 300, "retired"),
    ("calls", 4, 700, "calls"),
    ("cuts", 7, 400, "cuts"),
];

/// Logs: seeds 1 to `LOGS`, of so many records each.
const LOGS: u64 = 40;
const RECORDS: usize = 60;

/// Writes every sample into the folder: questions and answers, logs and lines.
pub fn write(folder: &Path) -> Result<(), String> {
    std::fs::create_dir_all(folder).map_err(|error| format!("{}: {error}", folder.display()))?;
    write_questions(folder, "fixed", &fixed::questions())?;
    write_questions(folder, "edges", &edges::questions())?;
    for (name, seed, count, kind) in QUESTIONS {
        write_questions(
            folder,
            name,
            &generate::generate(seed, count, kind).unwrap_or_default(),
        )?;
    }
    for seed in 1..=LOGS {
        let log = generate::generate(seed, RECORDS, "log").unwrap_or_default();
        write_log(folder, &format!("log-{seed:02}"), &log)?;
    }
    for (name, log) in named::logs() {
        write_log(folder, name, &log)?;
    }
    Ok(())
}

fn write_log(folder: &Path, name: &str, log: &[u8]) -> Result<(), String> {
    write_file(folder, &format!("{name}.log"), log)?;
    write_file(
        folder,
        &format!("{name}.lines"),
        replay::lines(log).as_bytes(),
    )
}

fn write_questions(folder: &Path, name: &str, questions: &[u8]) -> Result<(), String> {
    write_file(folder, &format!("{name}.questions"), questions)?;
    write_file(
        folder,
        &format!("{name}.answers"),
        cases::answers(questions).as_bytes(),
    )
}

fn write_file(folder: &Path, name: &str, bytes: &[u8]) -> Result<(), String> {
    let file = folder.join(name);
    std::fs::write(&file, bytes).map_err(|error| format!("{}: {error}", file.display()))
}
