//! Logs of document 01's records through this crate: the lines of the stored ones, and every table
//! of those in the folder that `VOTER_SLOTS_LOGS` names, which `bin/bindings` has the original
//! make.

use std::fs;
use std::path::{Path, PathBuf};

use voter_slots::{LiveTable, Record, Refusal, Table};

/// The same table as bytes and as a value: both must answer the same and stay equal.
struct Both {
    table: Table,
    live: LiveTable,
}

impl Both {
    fn decode(bytes: &[u8]) -> Result<Self, Refusal> {
        let live = LiveTable::decode(bytes);
        let table = Table::decode(bytes);
        assert_eq!(table.as_ref().err(), live.as_ref().err());
        let both = Both {
            table: table?,
            live: live?,
        };
        both.check();
        Ok(both)
    }

    fn play(&mut self, record: Record<'_>) -> Result<(), Refusal> {
        let told = self.table.play(record);
        assert_eq!(self.live.play(record), told);
        self.check();
        told.map(drop)
    }

    fn check(&self) {
        assert!(
            self.live.encode() == self.table.as_bytes(),
            "the value's bytes differ"
        );
        assert_eq!(
            (
                self.live.revision(),
                self.live.epoch(),
                self.live.slots(),
                self.live.open_request()
            ),
            (
                self.table.revision(),
                self.table.epoch(),
                self.table.slots(),
                self.table.open_request()
            )
        );
        for node in [0, 1, 2, 3, 65_536, 65_537, 65_538, 131_074, u64::MAX] {
            assert_eq!(
                self.live.is_retired(node),
                self.table.is_retired(node),
                "node {node}"
            );
        }
    }
}

/// What a record did: the mark that is shown, its answer, and the table afterwards.
struct Turn {
    mark: [u8; 2],
    answer: u8,
    table: Option<Table>,
}

fn is_known(mark: [u8; 2]) -> bool {
    [*b"TB", *b"MK", *b"AD", *b"BG", *b"OB"].contains(&mark)
}

fn step(table: &mut Option<Both>, record: Record<'_>) -> Result<(), Refusal> {
    match table {
        Some(both) => both.play(record),
        None if record.mark == *b"TB" => Both::decode(record.body).map(|read| *table = Some(read)),
        None => Err(Refusal::BadRecord),
    }
}

fn play(mut log: &[u8]) -> Vec<Turn> {
    let mut table = None;
    let mut turns = Vec::new();
    while !log.is_empty() {
        let shown = log.get(..2).map_or(*b"??", |mark| [mark[0], mark[1]]);
        let whole = Record::split_first(log).filter(|(record, _)| is_known(record.mark));
        let answer = match whole {
            Some((record, _)) => step(&mut table, record).map_or_else(Refusal::number, |()| 0),
            None => 33,
        };
        turns.push(Turn {
            mark: if is_known(shown) { shown } else { *b"??" },
            answer,
            table: table.as_ref().map(|both: &Both| both.table.clone()),
        });
        log = whole.map_or(&[], |(_, rest)| rest);
    }
    turns
}

fn logs(folder: &Path) -> Vec<PathBuf> {
    let entries =
        fs::read_dir(folder).unwrap_or_else(|error| panic!("{}: {error}", folder.display()));
    let paths = entries.map(|entry| entry.expect("an entry of the folder").path());
    paths
        .filter(|path| path.extension().map_or(false, |end| end == "log"))
        .collect()
}

#[test]
fn the_stored_logs_give_the_stored_lines() {
    let folder = Path::new(env!("CARGO_MANIFEST_DIR")).join("../../samples");
    let found = logs(&folder);
    assert!(found.len() >= 40, "the stored logs are at hand");
    for path in found {
        let mut lines = "replay 1\n".to_owned();
        for (index, turn) in play(&fs::read(&path).expect("a log")).iter().enumerate() {
            let mark = String::from_utf8_lossy(&turn.mark);
            let revision = turn.table.as_ref().map_or(0, Table::revision);
            lines += &format!("{} {mark} {} {revision}\n", index + 1, turn.answer);
        }
        let stored = fs::read_to_string(path.with_extension("lines")).expect("its lines");
        assert!(lines == stored, "{} differs", path.display());
    }
}

#[test]
fn every_table_is_the_originals() {
    let Some(folder) = std::env::var_os("VOTER_SLOTS_LOGS") else {
        eprintln!("no tables of the original are at hand: VOTER_SLOTS_LOGS is not set");
        return;
    };
    let found = logs(Path::new(&folder));
    assert!(!found.is_empty(), "there are logs to compare");
    let mut compared = 0;
    for path in found {
        let told =
            fs::read_to_string(path.with_extension("tables")).expect("the original's tables");
        let turns = play(&fs::read(&path).expect("a log"));
        assert_eq!(told.lines().count(), turns.len(), "{}", path.display());
        let mut before = "-".to_owned();
        for (index, (turn, line)) in turns.iter().zip(told.lines()).enumerate() {
            let bytes = turn
                .table
                .as_ref()
                .map_or("-".to_owned(), |table| hex(table.as_bytes()));
            let shown = if bytes == before && bytes != "-" {
                "="
            } else {
                &bytes
            };
            let mark = String::from_utf8_lossy(&turn.mark);
            let own = format!("{} {mark} {} {shown}", index + 1, turn.answer);
            assert!(
                own == line,
                "{}, record {}:\n{own}\n{line}",
                path.display(),
                index + 1
            );
            before = bytes;
            compared += 1;
        }
    }
    println!("{compared} tables compared");
}

fn hex(bytes: &[u8]) -> String {
    bytes.iter().map(|byte| format!("{byte:02x}")).collect()
}
