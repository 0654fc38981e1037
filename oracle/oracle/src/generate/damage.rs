//! Damage to bytes whose fields are known: every field at its limits and their neighbours, bits
//! turned, cuts, bytes added, bad UTF-8 of every class, bad counts and flags.

use super::random::Random;
use super::{limits, text};
use crate::layout::{Field, Layout, Nature};

/// Table or attestation bytes with one or two faults of any kind.
pub fn damaged(random: &mut Random, layout: &Layout) -> Vec<u8> {
    let mut bytes = layout.bytes.clone();
    match random.below(20) {
        0 => bytes.truncate(random.below(bytes.len())),
        1 => cut_behind_a_field(random, layout, &mut bytes),
        2 => bytes.extend((0..1 + random.below(3)).map(|_| random.byte())),
        3 => {
            let at = random.below(bytes.len());
            bytes[at] ^= 1 << random.below(8);
        }
        4 => drop(bytes.remove(random.below(bytes.len()))),
        _ => {
            for _ in 0..random.pick(&[1, 1, 1, 2]) {
                let field = random.pick(&layout.fields);
                spoil(random, layout, &mut bytes, field);
            }
        }
    }
    bytes
}

/// The bytes end right after a spoilt field.
fn cut_behind_a_field(random: &mut Random, layout: &Layout, bytes: &mut Vec<u8>) {
    let field = random.pick(&layout.fields);
    if field.nature != Nature::Text {
        spoil(random, layout, bytes, field);
    }
    bytes.truncate(field.at + field.size);
}

/// A raw value with one or two fields spoilt, mostly ones that are in use. The size stays.
pub fn spoilt_value(random: &mut Random, layout: &Layout) -> Vec<u8> {
    let mut bytes = layout.bytes.clone();
    let used: Vec<Field> = layout
        .fields
        .iter()
        .copied()
        .filter(|field| field.used)
        .collect();
    for _ in 0..random.pick(&[1, 1, 1, 2]) {
        let field = if random.chance(88) {
            random.pick(&used)
        } else {
            random.pick(&layout.fields)
        };
        spoil_in_place(random, layout, &mut bytes, field);
    }
    bytes
}

/// Spoils a field of bytes; text may grow or shrink there, with or without its length.
fn spoil(random: &mut Random, layout: &Layout, bytes: &mut Vec<u8>, field: Field) {
    if field.nature != Nature::Text || random.chance(30) {
        spoil_in_place(random, layout, bytes, field);
        return;
    }
    let (Some(text_before), true) = (bytes.get(field.at..field.at + field.size), field.at >= 2)
    else {
        return;
    };
    let mut longer = text_before.to_vec();
    let at = random.below(longer.len() + 1);
    let piece = match random.below(4) {
        0 => text::piece(random),
        1 => vec![b'x'; 2048],
        2 => vec![b'x'; 257usize.saturating_sub(field.size)],
        _ => text::invalid_sequence(random),
    };
    longer.splice(at..at, piece);
    let length = longer.len() as u16;
    bytes.splice(field.at..field.at + field.size, longer);
    bytes[field.at - 2..field.at].copy_from_slice(&length.to_be_bytes());
}

/// Spoils a field without moving any other.
fn spoil_in_place(random: &mut Random, layout: &Layout, bytes: &mut [u8], field: Field) {
    let Some(place) = bytes.get(field.at..field.at + field.size) else {
        return;
    };
    if place.is_empty() {
        return;
    }
    let spoilt = match field.nature {
        Nature::Number | Nature::Length if random.chance(20) => {
            copied(random, layout, bytes, field)
        }
        Nature::Digest if random.chance(50) => copied(random, layout, bytes, field),
        Nature::Number | Nature::Length => number(random, place),
        Nature::Count => vec![random.pick(&[0, 1, 2, 3, 4, 5, 7, 8, 9, 10, 11, 255])],
        Nature::Flag if random.chance(90) => vec![1 - place[0].min(1)],
        Nature::Flag => vec![random.pick(&[2, 255])],
        Nature::Digest => bit_turned(random, place),
        Nature::Text => text_in_place(random, place),
    };
    bytes[field.at..field.at + field.size].copy_from_slice(&spoilt);
}

/// What another field of the same size holds.
fn copied(random: &mut Random, layout: &Layout, bytes: &[u8], field: Field) -> Vec<u8> {
    let same = |other: &&Field| other.size == field.size && other.at + other.size <= bytes.len();
    let others: Vec<Field> = layout.fields.iter().filter(same).copied().collect();
    let other = if others.is_empty() {
        field
    } else {
        random.pick(&others)
    };
    bytes[other.at..other.at + other.size].to_vec()
}

fn number(random: &mut Random, place: &[u8]) -> Vec<u8> {
    match *place {
        [now] if random.chance(40) => vec![now.wrapping_add(random.pick(&[1, 255]))],
        [_] => vec![limits::u8_near_limits(random)],
        [_, _] if random.chance(35) => vec![0, 0],
        [a, b] if random.chance(50) => {
            let now = u16::from_be_bytes([a, b]);
            now.wrapping_add(random.pick(&[1, u16::MAX]))
                .to_be_bytes()
                .to_vec()
        }
        [_, _] => limits::u16_near_limits(random).to_be_bytes().to_vec(),
        [a, b, c, d, e, f, g, h] => {
            let now = u64::from_be_bytes([a, b, c, d, e, f, g, h]);
            limits::near(random, now).to_be_bytes().to_vec()
        }
        _ => place.to_vec(),
    }
}

fn bit_turned(random: &mut Random, place: &[u8]) -> Vec<u8> {
    let mut bytes = place.to_vec();
    bytes[random.below(place.len())] ^= 1 << random.below(8);
    bytes
}

/// A character or an invalid sequence laid over the text, mostly near its start or its end.
fn text_in_place(random: &mut Random, place: &[u8]) -> Vec<u8> {
    let mut bytes = place.to_vec();
    let piece = if random.chance(50) {
        text::piece(random)
    } else {
        text::invalid_sequence(random)
    };
    let at = match random.below(3) {
        0 => random.below(place.len().min(12)),
        1 => place.len().saturating_sub(piece.len()),
        _ => random.below(place.len()),
    };
    for (byte, new) in bytes[at..].iter_mut().zip(piece) {
        *byte = new;
    }
    bytes
}
