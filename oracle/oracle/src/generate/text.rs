//! Layer-one questions: text of every class, characters and identifiers at their limits.
//! Names and ids are mostly right, so that a fault in them stands alone.

use super::limits;
use super::random::Random;
use crate::fixed::{encoded, filled};
use crate::format::{put_question, Mark, TEXT_MARKS};
use crate::text::{MAX_DOMAIN, SCHEME};

/// Puts one layer-one question after the others.
pub fn put_text_question(random: &mut Random, out: &mut Vec<u8>) {
    let mark = random.pick(&TEXT_MARKS);
    let body = body_of(random, mark);
    put_question(out, mark, &body);
}

fn body_of(random: &mut Random, mark: Mark) -> Vec<u8> {
    let body = match &mark {
        b"U8" => any_text(random),
        b"NM" => name(random),
        b"SI" => snapshot_id(random),
        b"SN" => strict_name(random),
        b"CC" | b"WS" => number_of_a_character(random).to_be_bytes().to_vec(),
        b"SL" => limits::u16_near_limits(random).to_be_bytes().to_vec(),
        b"ND" => {
            let slot = limits::u16_near_limits(random).to_be_bytes();
            [&slot[..], &limits::u64_near_limits(random).to_be_bytes()].concat()
        }
        b"ID" => node_id(random).to_be_bytes().to_vec(),
        _ => limits::u64_near_limits(random).to_be_bytes().to_vec(),
    };
    if random.chance(2) {
        return damaged(random, body);
    }
    body
}

/// Text made of some pieces, each of some class; now and then damaged.
fn any_text(random: &mut Random) -> Vec<u8> {
    let pieces = random.below(6);
    let mut text: Vec<u8> = (0..pieces).flat_map(|_| piece(random)).collect();
    if random.chance(15) {
        text = damaged(random, text);
    }
    if random.chance(10) {
        text = padded(random, text, &[255, 256, 2048, 65_536]);
    }
    text
}

fn name(random: &mut Random) -> Vec<u8> {
    let mut text = scheme(random);
    if random.chance(40) {
        text = padded(random, text, &[9, 10, 255, 256, 2048]);
    }
    for _ in 0..random.below(4) {
        text.extend(piece_for_a_name(random));
    }
    if random.chance(10) {
        text = damaged(random, text);
    }
    text
}

fn snapshot_id(random: &mut Random) -> Vec<u8> {
    let mut text = Vec::new();
    if random.chance(50) {
        text = padded(random, text, &[1, 128, 252, 256]);
    }
    for _ in 0..random.below(4) {
        text.extend(piece_for_a_name(random));
    }
    if random.chance(10) {
        text = damaged(random, text);
    }
    text
}

fn strict_name(random: &mut Random) -> Vec<u8> {
    let mut text = scheme(random);
    let length = if random.chance(30) {
        MAX_DOMAIN - 2 + random.below(5)
    } else {
        random.below(12)
    };
    text.extend((0..length).map(|_| strict_byte(random, b"abcxyz0189.-_")));
    for _ in 0..random.below(5) {
        text.push(b'/');
        let length = random.below(8);
        text.extend((0..length).map(|_| strict_byte(random, b"abcxyzABXYZ0189.-_")));
    }
    if random.chance(15) {
        text = padded(random, text, &[2048]);
    }
    text
}

/// Mostly an allowed byte; now and then any byte at all.
fn strict_byte(random: &mut Random, allowed: &[u8]) -> u8 {
    if random.chance(3) {
        return random.byte();
    }
    random.pick(allowed)
}

/// Mostly the right scheme.
fn scheme(random: &mut Random) -> Vec<u8> {
    let mut scheme = SCHEME.as_bytes().to_vec();
    if random.chance(8) {
        let at = random.below(scheme.len());
        match random.below(3) {
            0 => scheme[at] ^= 1 << random.below(8),
            1 => drop(scheme.remove(at)),
            _ => scheme.insert(at, random.byte()),
        }
    }
    scheme
}

/// Filled with a letter up to about one of the lengths: two fewer to two more.
fn padded(random: &mut Random, mut text: Vec<u8>, lengths: &[usize]) -> Vec<u8> {
    let length = (random.pick(lengths) + random.below(5)).saturating_sub(2);
    if let Some(missing) = length.checked_sub(text.len()) {
        let padding = filled("", "p", missing);
        if random.chance(50) {
            text.extend(padding);
        } else {
            let at = text.len().min(SCHEME.len());
            text.splice(at..at, padding);
        }
    }
    text
}

/// A piece that is mostly allowed in a name.
fn piece_for_a_name(random: &mut Random) -> Vec<u8> {
    if random.chance(75) {
        return filled("", "name/", random.below(7));
    }
    piece(random)
}

/// One character or one invalid sequence, of any class.
pub fn piece(random: &mut Random) -> Vec<u8> {
    match random.below(8) {
        0 | 1 => vec![0x20 + random.below(0x5F) as u8],
        2 | 3 => encoded(number_of_a_character(random)).unwrap_or_default(),
        4 => invalid_sequence(random),
        5 => (0..1 + random.below(4)).map(|_| random.byte()).collect(),
        6 => vec![
            random.pick(&LEAD_BYTES),
            random.pick(&LATER_BYTES),
            random.pick(&LATER_BYTES),
        ],
        _ => vec![
            random.pick(&LEAD_BYTES),
            random.pick(&LATER_BYTES),
            random.pick(&LATER_BYTES),
            random.pick(&LATER_BYTES),
        ],
    }
}

const LEAD_BYTES: [u8; 16] = [
    0x7F, 0x80, 0xC1, 0xC2, 0xDF, 0xE0, 0xE1, 0xEC, 0xED, 0xEE, 0xEF, 0xF0, 0xF1, 0xF3, 0xF4, 0xF5,
];

const LATER_BYTES: [u8; 10] = [0x7F, 0x80, 0x81, 0x8F, 0x90, 0x9F, 0xA0, 0xBE, 0xBF, 0xC0];

/// One invalid sequence of each class of RFC 3629.
pub fn invalid_sequence(random: &mut Random) -> Vec<u8> {
    let tail = |random: &mut Random| 0x80 | random.byte() & 0x3F;
    match random.below(11) {
        // A continuation alone.
        0 => vec![tail(random)],
        // Overlong in two, three and four bytes.
        1 => vec![0xC0 | random.byte() & 1, tail(random)],
        2 => vec![0xE0, 0x80 | random.byte() & 0x1F, tail(random)],
        3 => vec![
            0xF0,
            0x80 | random.byte() & 0x0F,
            tail(random),
            tail(random),
        ],
        // A surrogate.
        4 => vec![0xED, 0xA0 | random.byte() & 0x1F, tail(random)],
        // Past 10FFFF.
        5 => vec![
            0xF4,
            0x90 | random.byte() & 0x2F,
            tail(random),
            tail(random),
        ],
        6 => vec![
            0xF5 + random.below(11) as u8,
            tail(random),
            tail(random),
            tail(random),
        ],
        // Cut short by the next character or the end.
        7 => vec![0xC2 + random.below(30) as u8],
        8 => vec![0xE1 + random.below(12) as u8, tail(random)],
        9 => vec![0xF1 + random.below(3) as u8, tail(random), tail(random)],
        // An invalid continuation byte.
        _ => vec![
            0xE1 + random.below(12) as u8,
            tail(random),
            random.byte() & 0x7F,
        ],
    }
}

/// Code points near the ends of what the rules name, and numbers that are none.
fn number_of_a_character(random: &mut Random) -> u32 {
    const NEAR: [u32; 24] = [
        0x00, 0x09, 0x0D, 0x20, 0x7F, 0x85, 0x9F, 0xA0, 0x7FF, 0x800, 0x1680, 0x2000, 0x200A,
        0x2028, 0x2029, 0x202F, 0x205F, 0x3000, 0xD800, 0xDFFF, 0xFFFF, 0x1_0000, 0x10_FFFF,
        0x11_0000,
    ];
    match random.below(10) {
        0 => random.next() as u32,
        1 => random.below(0x11_0000) as u32,
        2 | 3 => random.below(0x300) as u32,
        4 => 0x2000 + random.below(0x70) as u32,
        _ => (random.pick(&NEAR) + random.below(5) as u32).saturating_sub(2),
    }
}

fn node_id(random: &mut Random) -> u64 {
    let slot = u64::from(limits::u16_near_limits(random));
    match random.below(3) {
        0 => random.next(),
        1 => limits::u64_near_limits(random),
        _ => limits::u64_near_limits(random)
            .wrapping_mul(65_536)
            .wrapping_add(slot),
    }
}

/// One bit turned, a part cut away, or bytes added.
pub fn damaged(random: &mut Random, mut bytes: Vec<u8>) -> Vec<u8> {
    if bytes.is_empty() {
        return vec![random.byte()];
    }
    let at = random.below(bytes.len());
    match random.below(4) {
        0 => bytes[at] ^= 1 << random.below(8),
        1 => bytes.truncate(at),
        2 => drop(bytes.remove(at)),
        _ => bytes.insert(at, random.byte()),
    }
    bytes
}
