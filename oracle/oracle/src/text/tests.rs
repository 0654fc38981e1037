//! Does Rust's own text agree with RFC 3629 and Unicode? All code points and all byte sequences of
//! up to four bytes, by class of byte, are tried against a check written from the documents.

use super::*;

/// The 25 White_Space code points as document 01 lists them.
const WHITE_SPACE: [u32; 25] = [
    0x0009, 0x000A, 0x000B, 0x000C, 0x000D, 0x0020, 0x0085, 0x00A0, 0x1680, 0x2000, 0x2001, 0x2002,
    0x2003, 0x2004, 0x2005, 0x2006, 0x2007, 0x2008, 0x2009, 0x200A, 0x2028, 0x2029, 0x202F, 0x205F,
    0x3000,
];

/// RFC 3629, section 4: the length of the first character, if the bytes begin with one.
fn first_character(bytes: &[u8]) -> Option<usize> {
    let tail = |at: usize| matches!(bytes.get(at), Some(0x80..=0xBF));
    let within =
        |at: usize, low: u8, high: u8| bytes.get(at).is_some_and(|b| (low..=high).contains(b));
    match *bytes.first()? {
        0x00..=0x7F => Some(1),
        0xC2..=0xDF => tail(1).then_some(2),
        0xE0 => (within(1, 0xA0, 0xBF) && tail(2)).then_some(3),
        0xE1..=0xEC | 0xEE..=0xEF => (tail(1) && tail(2)).then_some(3),
        0xED => (within(1, 0x80, 0x9F) && tail(2)).then_some(3),
        0xF0 => (within(1, 0x90, 0xBF) && tail(2) && tail(3)).then_some(4),
        0xF1..=0xF3 => (tail(1) && tail(2) && tail(3)).then_some(4),
        0xF4 => (within(1, 0x80, 0x8F) && tail(2) && tail(3)).then_some(4),
        _ => None,
    }
}

fn is_utf8_by_grammar(mut bytes: &[u8]) -> bool {
    while !bytes.is_empty() {
        let Some(length) = first_character(bytes) else {
            return false;
        };
        bytes = &bytes[length..];
    }
    true
}

/// The ends of every range that the grammar names, and their neighbours: within a class of bytes
/// that the grammar does not tell apart, two members stand for all.
const CLASS_ENDS: [u8; 38] = [
    0x00, 0x01, 0x7E, 0x7F, 0x80, 0x81, 0x8E, 0x8F, 0x90, 0x91, 0x9E, 0x9F, 0xA0, 0xA1, 0xBE, 0xBF,
    0xC0, 0xC1, 0xC2, 0xC3, 0xDE, 0xDF, 0xE0, 0xE1, 0xEB, 0xEC, 0xED, 0xEE, 0xEF, 0xF0, 0xF1, 0xF2,
    0xF3, 0xF4, 0xF5, 0xF6, 0xFE, 0xFF,
];

#[test]
fn utf8_of_every_sequence_of_up_to_two_bytes() {
    for first in 0..=255 {
        assert_eq!(is_utf8(&[first]), is_utf8_by_grammar(&[first]));
        for second in 0..=255 {
            let bytes = [first, second];
            assert_eq!(is_utf8(&bytes), is_utf8_by_grammar(&bytes), "{bytes:02X?}");
        }
    }
    assert!(is_utf8(&[]) && is_utf8_by_grammar(&[]));
}

/// Every pair of bytes in front of every pair of class ends, and the other way round.
#[test]
fn utf8_of_every_sequence_of_three_and_four_bytes_by_class() {
    let agree =
        |bytes: &[u8]| assert_eq!(is_utf8(bytes), is_utf8_by_grammar(bytes), "{bytes:02X?}");
    for a in 0..=255 {
        for b in 0..=255 {
            for c in CLASS_ENDS {
                agree(&[a, b, c]);
                agree(&[c, a, b]);
                for d in CLASS_ENDS {
                    agree(&[a, b, c, d]);
                    agree(&[c, d, a, b]);
                }
            }
        }
    }
}

#[test]
fn every_code_point_and_number_beyond() {
    for code_point in 0..=0x11_0100 {
        let control = code_point <= 0x1F || (0x7F..=0x9F).contains(&code_point);
        assert_eq!(is_control(code_point), control, "{code_point:X}");
        let white_space = WHITE_SPACE.contains(&code_point);
        assert_eq!(is_white_space(code_point), white_space, "{code_point:X}");
    }
}

/// Every character inside a name and inside a snapshot id.
#[test]
fn every_character_in_a_name_and_in_a_snapshot_id() {
    for character in (0..=0x10_FFFF).filter_map(char::from_u32) {
        let forbidden = character.is_control() || WHITE_SPACE.contains(&(character as u32));
        assert_eq!(
            is_name(format!("spiffe://{character}").as_bytes()),
            !forbidden
        );
        let id = character.to_string();
        assert_eq!(is_snapshot_id(id.as_bytes()), !character.is_control());
    }
}

#[test]
fn the_cases_of_document_01() {
    assert!(!is_name(b"spiffe://"));
    assert!(is_name(b"spiffe://a"));
    assert!(is_name("spiffe://a\u{200B}".as_bytes()));
    assert!(!is_name("spiffe://a\u{A0}".as_bytes()));
    assert!(is_snapshot_id(b"a b"));
    assert!(is_strict_name(b"spiffe://a/."));
    assert!(!is_strict_name(b"spiffe://a/"));
    assert!(!is_strict_name(b"spiffe://A"));
}
