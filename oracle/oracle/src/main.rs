//! The program `oracle`: the original Rust as the judge of the port. See README.md.
//! This file reads the command line; every command has a module of its own.

mod answer;
mod bench;
mod bench_control;
mod bench_growth;
mod bench_logs;
#[cfg(feature = "service")]
mod bench_service;
mod call;
mod cases;
mod compare;
mod edges;
mod fixed;
mod flat;
mod format;
mod generate;
mod histogram;
mod layout;
mod named;
mod ordered;
mod raw;
#[cfg(test)]
mod readings;
mod record;
mod replay;
mod sample;
mod show;
mod shrink;
mod stored;
mod table_cases;
mod text;
mod wire;

use std::io::{Read, Write};
use std::path::Path;
use std::process::ExitCode;

const USAGE: &str = "usage:
  oracle replay < log > lines
  oracle phases < log
  oracle tables < log > tables
  oracle cases < questions > answers
  oracle fixed > questions
  oracle generate SEED COUNT KIND > questions-or-log
  oracle histogram < answers-or-lines
  oracle show < questions-or-log
  oracle compare --cases PROGRAM CALLS SEED COUNT KIND
  oracle compare --cases PROGRAM CALLS --fixed
  oracle compare --replay PROGRAM SEED COUNT
  oracle samples FOLDER
  oracle ordered > OrderBytes.antt
  oracle bench
  oracle bench-control SUPPORT LIBRARY...
  oracle once-control SUPPORT LIBRARY
  oracle bench-growth SUPPORT BYTES LIBRARY...
  oracle once-growth SUPPORT BYTES LIBRARY...
  oracle bench-log KIND COUNT > log
  oracle bench-service
kinds:";

fn main() -> ExitCode {
    let words: Vec<String> = std::env::args().skip(1).collect();
    let words: Vec<&str> = words.iter().map(String::as_str).collect();
    match run(&words) {
        Ok(code) => code,
        Err(message) => {
            eprintln!("{message}");
            ExitCode::from(2)
        }
    }
}

fn run(words: &[&str]) -> Result<ExitCode, String> {
    match words {
        ["cases"] => print(cases::answers(&input()?).as_bytes()),
        ["replay"] => print(replay::lines(&input()?).as_bytes()),
        ["phases"] => print(replay::phases(&input()?).as_bytes()),
        ["tables"] => print(replay::tables(&input()?).as_bytes()),
        ["fixed"] => print(&fixed::questions()),
        ["histogram"] => print(histogram::histogram(&text_input()?).as_bytes()),
        ["show"] => print(show::file(&input()?).as_bytes()),
        ["generate", seed, count, kind] => {
            let (seed, count) = (number(seed)?, number(count)? as usize);
            print(&generate::generate(seed, count, kind).ok_or_else(|| unknown_kind(kind))?)
        }
        ["compare", "--cases", program, calls, "--fixed"] => report(compare::file_of_questions(
            [program, calls].map(Path::new),
            &fixed::questions(),
        )?),
        ["compare", "--replay", program, seed, count] => report(compare::logs(
            Path::new(program),
            number(seed)?,
            number(count)? as usize,
        )?),
        ["compare", "--cases", program, calls, seed, count, kind] => {
            let (seed, count) = (number(seed)?, number(count)? as usize);
            let programs = [program, calls].map(Path::new);
            report(compare::questions(programs, seed, count, kind)?)
        }
        ["samples", folder] => stored::write(Path::new(folder)).map(|()| ExitCode::SUCCESS),
        ["ordered"] => print(ordered::text().as_bytes()),
        ["bench"] => bench::run(|line| print(format!("{line}\n").as_bytes()).map(drop))
            .map(|()| ExitCode::SUCCESS),
        ["bench-log", kind, count] => {
            let count = number(count)? as usize;
            bench_logs::write(kind, count, &mut |piece| print(piece).map(drop))
                .map(|()| ExitCode::SUCCESS)
        }
        ["bench-control", support, ports @ ..] => bench_control::run(support, ports, |line| {
            print(format!("{line}\n").as_bytes()).map(drop)
        })
        .map(|()| ExitCode::SUCCESS),
        ["once-control", support, port] => bench_control::once(support, port, |line| {
            print(format!("{line}\n").as_bytes()).map(drop)
        })
        .map(|()| ExitCode::SUCCESS),
        ["bench-growth", support, bytes, ports @ ..] => {
            bench_growth::run(support, bytes, ports, |line| {
                print(format!("{line}\n").as_bytes()).map(drop)
            })
            .map(|()| ExitCode::SUCCESS)
        }
        ["once-growth", support, bytes, ports @ ..] => {
            bench_growth::once(support, bytes, ports, |line| {
                print(format!("{line}\n").as_bytes()).map(drop)
            })
            .map(|()| ExitCode::SUCCESS)
        }
        #[cfg(feature = "service")]
        ["bench-service"] => {
            bench_service::run(|line| print(format!("{line}\n").as_bytes()).map(drop))
                .map(|()| ExitCode::SUCCESS)
        }
        _ => Err(format!("{USAGE}{}", kinds())),
    }
}

fn unknown_kind(kind: &str) -> String {
    format!("unknown kind: {kind}; the kinds are:{}", kinds())
}

fn kinds() -> String {
    generate::KINDS
        .iter()
        .map(|(kind, text)| format!("\n  {kind}: {text}"))
        .collect()
}

fn number(word: &str) -> Result<u64, String> {
    word.parse().map_err(|_| format!("not a number: {word}"))
}

fn input() -> Result<Vec<u8>, String> {
    let mut bytes = Vec::new();
    let read = std::io::stdin().lock().read_to_end(&mut bytes);
    read.map(|_| bytes)
        .map_err(|error| format!("standard input: {error}"))
}

fn text_input() -> Result<String, String> {
    String::from_utf8(input()?).map_err(|_| "standard input: not text".to_owned())
}

fn print(bytes: &[u8]) -> Result<ExitCode, String> {
    let written = std::io::stdout().lock().write_all(bytes);
    written
        .map(|()| ExitCode::SUCCESS)
        .map_err(|error| format!("standard output: {error}"))
}

fn report((agreed, text): (bool, String)) -> Result<ExitCode, String> {
    println!("{}", text.trim_end());
    Ok(if agreed {
        ExitCode::SUCCESS
    } else {
        ExitCode::FAILURE
    })
}
