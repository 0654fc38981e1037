//! The fixed list of questions on bytes: every field of a few tables and attestations at its
//! limits, one at a time. It stands among the stored samples, with those from a seed.

use crate::format::{put_question, Mark, MAX_BODY};
use crate::layout::{Field, Layout, Nature};
use crate::sample::{full, idle, largest};
use crate::wire;

/// The smallest table, one with every part present, its attestation; the largest table, and bytes
/// at the bounds of their number.
pub fn questions() -> Vec<u8> {
    let mut out = Vec::new();
    let small = full(3, 40, 20);
    put_each_field(&mut out, *b"TR", &wire::table(&idle(1)));
    put_each_field(&mut out, *b"TR", &wire::table(&small));
    put_question(&mut out, *b"TR", &past_uniform());
    let long = full(3, 2048, 1);
    put_lengths(&mut out, *b"TR", wire::table(&largest()).bytes, 65_536);
    for (index, table) in [small, long].into_iter().enumerate() {
        let operation = table.replacement.expect("a table with an open request");
        let layout = wire::attestation(&operation.attestation);
        if index == 0 {
            put_each_field(&mut out, *b"AR", &layout);
        }
        put_lengths(&mut out, *b"AR", layout.bytes, 8_192);
    }
    out
}

/// The bytes, then with each field at its limits.
fn put_each_field(out: &mut Vec<u8>, mark: Mark, layout: &Layout) {
    put_question(out, mark, &layout.bytes);
    for field in &layout.fields {
        for limit in limits(field, &layout.bytes[field.at..field.at + field.size]) {
            let mut bytes = layout.bytes.clone();
            bytes[field.at..field.at + field.size].copy_from_slice(&limit);
            put_question(out, mark, &bytes);
        }
        put_question(out, mark, &layout.bytes[..field.at]);
    }
}

/// A phase that does not exist, in a table that is right apart from it: its epoch is the
/// predecessor's, as in every phase but Uniform (6).
fn past_uniform() -> Vec<u8> {
    let mut table = full(3, 40, 20);
    if let Some(operation) = &table.replacement {
        table.configuration_epoch = operation.predecessor.epoch;
    }
    let mut layout = wire::table(&table);
    let phase = |field: &&Field| {
        let number = field.nature == Nature::Number && field.size == 1;
        number && layout.bytes[field.at] == 6
    };
    let at = layout.fields.iter().find(phase).map(|field| field.at);
    layout.bytes[at.expect("a phase")] = 7;
    layout.bytes
}

/// The bytes, one fewer, one more, and as many as may be read and one more.
fn put_lengths(out: &mut Vec<u8>, mark: Mark, bytes: Vec<u8>, bound: usize) {
    let size = bytes.len();
    for length in [size, size - 1, size + 1, bound, bound + 1] {
        let mut bytes = bytes.clone();
        bytes.resize(length.min(MAX_BODY), 0);
        put_question(out, mark, &bytes);
    }
}

/// What the field may hold instead, of the same size.
fn limits(field: &Field, now: &[u8]) -> Vec<Vec<u8>> {
    match field.nature {
        Nature::Number | Nature::Length => numbers(now),
        Nature::Count => [0, 1, 2, 3, 9, 10].map(|count| vec![count]).to_vec(),
        Nature::Flag => vec![vec![1 - now[0].min(1)], vec![2]],
        Nature::Digest => vec![with(now, 0, now[0] ^ 1), with(now, now.len() - 1, !now[0])],
        Nature::Text if now.is_empty() => Vec::new(),
        Nature::Text => [0xFF, 0x80, b' ', 0x7F]
            .map(|byte| with(now, now.len() - 1, byte))
            .to_vec(),
    }
}

/// Zero, the largest, the neighbours, and the limits of an incarnation.
fn numbers(now: &[u8]) -> Vec<Vec<u8>> {
    let value = now
        .iter()
        .fold(0, |value, byte| value << 8 | u64::from(*byte));
    [
        0,
        1,
        u64::MAX,
        value.wrapping_add(1),
        value.wrapping_sub(1),
        1 << 47,
        (1 << 47) + 1,
    ]
    .map(|number: u64| number.to_be_bytes()[8 - now.len()..].to_vec())
    .to_vec()
}

fn with(now: &[u8], at: usize, byte: u8) -> Vec<u8> {
    let mut bytes = now.to_vec();
    bytes[at] = byte;
    bytes
}
