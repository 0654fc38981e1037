//! Every refusal that can come out, and the lengths of buffers.

mod common;

use std::collections::BTreeSet;

use common::{
    advance, attestation, attested_incarnation, begin, idle, idle_bytes, marker, replacement,
    with_u64, Call, EPOCH, REVISION, SLOTS,
};
use voter_slots::{
    Begin, Change, Command, CommandKind, LogId, Observation, Refusal, Step, Table, MAX_TABLE_BYTES,
};

const CUT: LogId = LogId::new(2, 10);

fn read(bytes: &[u8]) -> Refusal {
    Table::decode(bytes).expect_err("a table that is refused")
}

fn apply(table: &Table, command: impl Into<Command>) -> Refusal {
    let mut tried = table.clone();
    let refusal = tried.apply(&command.into()).expect_err("refused");
    assert_eq!(&tried, table);
    refusal
}

fn observe(table: &Table, sets: &[&[u64]], nodes: &[u64]) -> Refusal {
    let mut tried = table.clone();
    let seen = Observation::new(CUT, sets, nodes);
    let refusal = tried.observe(&seen).expect_err("refused");
    assert_eq!(&tried, table);
    refusal
}

/// The table after so many calls of a replacement of slot 2.
fn after(calls: usize) -> Table {
    let mut table = idle(3);
    for call in &replacement(&idle(3), 1)[..calls] {
        let change = match call {
            Call::Command(command) => table.apply(command),
            Call::Observation(observation) => table.observe(observation),
        };
        assert_eq!(change, Ok(Change::Changed), "a step of a replacement");
    }
    table
}

#[test]
fn every_refusal_but_7_and_32_comes_out() {
    let table = idle(3);
    let bytes = idle_bytes(3);
    let mut version = bytes.clone();
    version[5] = 2;
    let mut slot = bytes.clone();
    slot[SLOTS..SLOTS + 2].copy_from_slice(&[0, 0]);
    let fits = |table: &Table| begin(table, 2, 1, CUT);
    let full_epoch = Table::decode(&with_u64(&bytes, EPOCH, u64::MAX)).expect("a full epoch");
    let full_revision =
        Table::decode(&with_u64(&bytes, REVISION, u64::MAX)).expect("a full revision");
    let open = after(1);
    let fenced = after(5);
    let long = Step::RecordSnapshot {
        cut: CUT,
        snapshot_id: "s".repeat(257),
        digest: [0; 32],
    };

    let seen = [
        (1, read(&slot)),
        (2, read(&with_u64(&bytes, SLOTS + 2, 0))),
        (
            3,
            read(&with_u64(open.as_bytes(), attested_incarnation(3), 1 << 47)),
        ),
        (4, read(&version)),
        (5, read(&[0; 65_537])),
        (6, read(&[])),
        (6, read(&bytes[..bytes.len() - 1])),
        (
            12,
            apply(
                &table,
                Begin {
                    supplied_request_digest: [0; 32],
                    ..fits(&table)
                },
            ),
        ),
        (
            13,
            apply(
                &table,
                Begin {
                    expected_revision: 2,
                    ..fits(&table)
                },
            ),
        ),
        (
            14,
            apply(
                &open,
                Begin {
                    attestation: other_digest(),
                    ..fits(&table)
                },
            ),
        ),
        (15, apply(&open, begin(&open, 3, 2, LogId::new(2, 11)))),
        (16, apply(&idle(1), begin(&idle(1), 1, 1, CUT))),
        (19, apply(&fenced, begin(&fenced, 2, 2, LogId::new(2, 99)))),
        (23, apply(&full_epoch, fits(&full_epoch))),
        (24, apply(&full_revision, fits(&full_revision))),
        (25, apply(&table, marker(1, CUT))),
        (30, apply(&open, advance(1, LogId::new(2, 11), long))),
        (30, observe(&table, &[&[1 << 63]], &[1])),
        (31, observe(&table, &[&[2, 1]], &[1, 2])),
        (
            33,
            apply(&table, Command::from_body(CommandKind::Begin, *b"short")),
        ),
        (33, observe(&table, &[&[1][..]; 256], &[1])),
    ];
    for (number, refusal) in seen {
        assert_eq!(refusal.number(), number, "{refusal}");
    }
    let mut numbers: BTreeSet<u8> = seen.iter().map(|(number, _)| *number).collect();
    numbers.extend([7, 32]);
    let all: BTreeSet<u8> = Refusal::ALL
        .iter()
        .map(|refusal| refusal.number())
        .collect();
    assert_eq!(numbers, all);
}

/// The attestation of request 1 with another digest.
fn other_digest() -> Vec<u8> {
    let mut other = attestation(2, 1);
    other.request_digest = [0xEE; 32];
    other.encode()
}

#[test]
fn bodies_of_every_length_are_refused_but_the_right_one() {
    let table = idle(3);
    let whole = Command::from(begin(&table, 2, 1, CUT));
    for length in 0..whole.body().len() {
        let short = Command::from_body(CommandKind::Begin, &whole.body()[..length]);
        assert_eq!(apply(&table, short), Refusal::BadRecord, "{length} bytes");
    }
    let long = [whole.body(), &[0]].concat();
    assert_eq!(
        apply(&table, Command::from_body(CommandKind::Begin, long)),
        Refusal::BadRecord
    );
    for kind in [CommandKind::Advance, CommandKind::Marker] {
        let other = Command::from_body(kind, whole.body());
        assert_eq!(apply(&table, other), Refusal::BadRecord);
    }
    // A snapshot id that a body of 65,535 bytes has room for is 30, and a longer one 33.
    let open = after(1);
    let named = |length: usize| {
        let step = Step::RecordSnapshot {
            cut: CUT,
            snapshot_id: "s".repeat(length),
            digest: [0; 32],
        };
        advance(1, LogId::new(2, 11), step)
    };
    let most = 65_535 - named(0).body().len();
    assert_eq!(apply(&open, named(most)), Refusal::Unrepresentable);
    assert_eq!(apply(&open, named(most + 1)), Refusal::BadRecord);
    assert_eq!(apply(&open, named(65_536)), Refusal::BadRecord);
}

#[test]
fn a_buffer_has_room_or_is_left_alone() {
    for table in [idle(1), idle(9), after(1), after(7)] {
        let length = table.as_bytes().len();
        assert!((180..=MAX_TABLE_BYTES).contains(&length));
        for room in [length, length + 1, MAX_TABLE_BYTES] {
            let mut out = vec![0xA5; room];
            assert_eq!(table.encode_into(&mut out), Ok(length));
            assert_eq!(&out[..length], table.as_bytes());
            assert!(out[length..].iter().all(|byte| *byte == 0xA5));
        }
        for room in [0, 1, length - 1] {
            let mut out = vec![0xA5; room];
            assert_eq!(table.encode_into(&mut out), Err(Refusal::BufferTooShort));
            assert!(out.iter().all(|byte| *byte == 0xA5));
        }
        assert_eq!(table.encode(), table.as_bytes());
    }
}

#[test]
fn numbers_that_are_no_node_are_not_retired() {
    let table = after(1);
    for node in [0, 65_536, 1 << 63, u64::MAX] {
        assert!(!table.is_retired(node));
    }
}

#[test]
fn a_refusal_is_an_error_with_a_text() {
    for refusal in Refusal::ALL {
        let number = u32::from(refusal.number());
        assert_eq!(Refusal::from_number(number), Some(*refusal));
        let error: &dyn std::error::Error = refusal;
        assert!(!error.to_string().is_empty());
    }
    assert_eq!(Refusal::from_number(0), None);
    assert_eq!(Refusal::from_number(22), None);
}
