//! A service around a table, to start from: it applies a log of records and keeps the table in a
//! file.
//!
//!     journal_service STATE LOG
//!
//! For each record of LOG it prints a line with the place after the record, the answer and the
//! revision: that line confirms the record. It may be killed at any moment. Started again, it goes
//! on from the last record that changed the table. That one was stored and may not have been
//! confirmed, so its line is printed again, and so are the lines of records after it, which changed
//! nothing. So every record is confirmed at least once, in order, no change that was confirmed is
//! lost, and none is made twice.
//!
//! What makes it so:
//! - STATE holds the table and the place in the log that it stands for, as one file. So the two
//!   never disagree.
//! - A change is stored before it is confirmed: a new file is written and synced, takes STATE's
//!   name by a rename, and the folder is synced. Whoever opens STATE finds the old file or the new
//!   one, whole.

use std::error::Error;
use std::fs::{self, File};
use std::io::{self, Write};
use std::path::{Path, PathBuf};

use voter_slots::{Change, Record, Refusal, Table};

/// The table, if there is one yet, and the place in the log that it stands for.
struct State {
    place: u64,
    table: Option<Table>,
}

impl State {
    /// The state in the file, or that of a new service.
    fn load(path: &Path) -> Result<Self, Box<dyn Error>> {
        let bytes = match fs::read(path) {
            Ok(bytes) => bytes,
            Err(error) if error.kind() == io::ErrorKind::NotFound => {
                return Ok(State {
                    place: 0,
                    table: None,
                })
            }
            Err(error) => return Err(error.into()),
        };
        let place = bytes.get(..8).ok_or("the state file is cut short")?;
        Ok(State {
            place: u64::from_be_bytes(place.try_into()?),
            table: Some(Table::decode(&bytes[8..])?),
        })
    }

    /// Stores the table. When this returns, it is on the disk.
    fn store(&self, path: &Path, table: &Table) -> io::Result<()> {
        let new = with_suffix(path, ".new");
        let mut file = File::create(&new)?;
        file.write_all(&self.place.to_be_bytes())?;
        file.write_all(table.as_bytes())?;
        file.sync_all()?;
        fs::rename(&new, path)?;
        File::open(folder(path))?.sync_all()
    }

    /// Applies a record: a TB where there is no table yet, else a command or an observation.
    fn play(&mut self, record: Record<'_>) -> Result<Change, Refusal> {
        match &mut self.table {
            Some(table) => table.play(record),
            None if record.mark == *b"TB" => {
                self.table = Some(Table::decode(record.body)?);
                Ok(Change::Changed)
            }
            None => Err(Refusal::BadRecord),
        }
    }
}

fn with_suffix(path: &Path, suffix: &str) -> PathBuf {
    let mut name = path.as_os_str().to_owned();
    name.push(suffix);
    name.into()
}

fn folder(path: &Path) -> &Path {
    match path.parent() {
        Some(folder) if folder != Path::new("") => folder,
        _ => Path::new("."),
    }
}

fn run(path: &Path, log: &[u8]) -> Result<(), Box<dyn Error>> {
    let mut state = State::load(path)?;
    let place = usize::try_from(state.place)?;
    if let Some(table) = &state.table {
        println!("{place} 0 {}", table.revision());
    }
    let mut rest = log.get(place..).ok_or("the log ends before the state")?;
    while let Some((record, after)) = Record::split_first(rest) {
        let done = state.play(record);
        rest = after;
        state.place = (log.len() - rest.len()) as u64;
        if let (Ok(Change::Changed), Some(table)) = (done, &state.table) {
            state.store(path, table)?;
        }
        let answer = done.map_or_else(Refusal::number, |_| 0);
        let revision = state.table.as_ref().map_or(0, Table::revision);
        println!("{} {answer} {revision}", state.place);
    }
    Ok(())
}

fn main() -> Result<(), Box<dyn Error>> {
    let words: Vec<_> = std::env::args_os().skip(1).collect();
    let [state, log] = &words[..] else {
        return Err("usage: journal_service STATE LOG".into());
    };
    run(Path::new(state), &fs::read(log)?)
}
