//! `oracle fixed`: the fixed list of layer-one questions, the same in every version.
//! Each function below is one group; the groups stand in the order of `questions`.

use crate::format::{put_question, Mark};
use crate::text::{MAX_DOMAIN, MAX_NAME, MAX_SNAPSHOT_ID, SCHEME};

/// The whole list.
pub fn questions() -> Vec<u8> {
    let mut list = List(Vec::new());
    list.examples_of_the_rfc();
    list.invalid_sequences();
    list.ends_of_the_grammar();
    list.ends_of_the_code_points();
    list.control_and_white_space();
    list.lengths();
    list.schemes();
    list.strict_names();
    list.every_byte_in_a_strict_name();
    list.identifiers();
    list.node_ids();
    list.bodies_of_a_wrong_size();
    list.0
}

struct List(Vec<u8>);

impl List {
    fn ask(&mut self, mark: Mark, body: impl AsRef<[u8]>) {
        put_question(&mut self.0, mark, body.as_ref());
    }

    /// The bytes alone, after a good beginning, and before a good end: as UTF-8, in a name, in a
    /// snapshot id.
    fn ask_in_text(&mut self, bytes: &[u8]) {
        self.ask(*b"U8", bytes);
        self.ask(*b"U8", [b"a", bytes, b"z"].concat());
        self.ask(*b"NM", [SCHEME.as_bytes(), bytes].concat());
        self.ask(*b"NM", [SCHEME.as_bytes(), b"a", bytes, b"z"].concat());
        self.ask(*b"SI", bytes);
        self.ask(*b"SI", [b"a", bytes, b"z"].concat());
    }

    /// RFC 3629, section 7: its four examples.
    fn examples_of_the_rfc(&mut self) {
        // A, not identical to, Alpha, full stop.
        self.ask_in_text(&[0x41, 0xE2, 0x89, 0xA2, 0xCE, 0x91, 0x2E]);
        // The Hangul for "the Korean language".
        self.ask_in_text(&[0xED, 0x95, 0x9C, 0xEA, 0xB5, 0xAD, 0xEC, 0x96, 0xB4]);
        // The Han characters for "the Japanese language".
        self.ask_in_text(&[0xE6, 0x97, 0xA5, 0xE6, 0x9C, 0xAC, 0xE8, 0xAA, 0x9E]);
        // A byte order mark before a Han character of plane 2.
        self.ask_in_text(&[0xEF, 0xBB, 0xBF, 0xF0, 0xA3, 0x8E, 0xB4]);
    }

    /// Sequences that RFC 3629 names as invalid (sections 3, 4 and 10), and their relatives.
    fn invalid_sequences(&mut self) {
        let sequences: [&[u8]; 26] = [
            &[0xC0, 0x80],                         // overlong U+0000, sections 3 and 10
            &[0x2F, 0xC0, 0xAE, 0x2E, 0x2F],       // overlong dot, section 10
            &[0xC1, 0xBF],                         // overlong U+007F
            &[0xE0, 0x80, 0x80],                   // overlong in three bytes
            &[0xE0, 0x9F, 0xBF],                   // overlong U+07FF
            &[0xF0, 0x80, 0x80, 0x80],             // overlong in four bytes
            &[0xF0, 0x8F, 0xBF, 0xBF],             // overlong U+FFFF
            &[0xED, 0xA0, 0x80],                   // first surrogate
            &[0xED, 0xAF, 0xBF],                   // last high surrogate
            &[0xED, 0xB0, 0x80],                   // first low surrogate
            &[0xED, 0xBF, 0xBF],                   // last surrogate
            &[0xED, 0xA1, 0x8C, 0xED, 0xBE, 0xB4], // a surrogate pair, section 3
            &[0xF4, 0x90, 0x80, 0x80],             // U+110000
            &[0xF5, 0x80, 0x80, 0x80],             // a first byte past F4
            &[0xF7, 0xBF, 0xBF, 0xBF],
            &[0xF8, 0x88, 0x80, 0x80, 0x80], // five bytes, as older versions had
            &[0xFC, 0x84, 0x80, 0x80, 0x80, 0x80], // six bytes, as older versions had
            &[0xFE],
            &[0xFF],
            &[0x80], // a continuation alone
            &[0xBF],
            &[0xC2],             // cut after the first byte
            &[0xE2, 0x89],       // cut after the second
            &[0xF0, 0xA3, 0x8E], // cut after the third
            &[0xC2, 0x41],       // a letter where a continuation should be
            &[0xE2, 0x28, 0xA1],
        ];
        for sequence in sequences {
            self.ask_in_text(sequence);
        }
    }

    /// RFC 3629, section 4: for each line of the grammar the first and last bytes of every range
    /// and their neighbours, in all combinations.
    fn ends_of_the_grammar(&mut self) {
        const TAIL: (u8, u8) = (0x80, 0xBF);
        let lines: [&[(u8, u8)]; 9] = [
            &[(0x00, 0x7F)],
            &[(0xC2, 0xDF), TAIL],
            &[(0xE0, 0xE0), (0xA0, 0xBF), TAIL],
            &[(0xE1, 0xEC), TAIL, TAIL],
            &[(0xED, 0xED), (0x80, 0x9F), TAIL],
            &[(0xEE, 0xEF), TAIL, TAIL],
            &[(0xF0, 0xF0), (0x90, 0xBF), TAIL, TAIL],
            &[(0xF1, 0xF3), TAIL, TAIL, TAIL],
            &[(0xF4, 0xF4), (0x80, 0x8F), TAIL, TAIL],
        ];
        for line in lines {
            for bytes in combinations(line) {
                self.ask(*b"U8", bytes);
            }
        }
    }

    /// The first and last code point of every range of the grammar and their neighbours, encoded
    /// by the pattern alone, so that surrogates and numbers past 10FFFF come up too.
    fn ends_of_the_code_points(&mut self) {
        let ends = [
            0x0000, 0x007F, 0x0080, 0x07FF, 0x0800, 0x0FFF, 0x1000, 0xCFFF, 0xD000, 0xD7FF, 0xD800,
            0xDBFF, 0xDC00, 0xDFFF, 0xE000, 0xFFFF, 0x1_0000, 0x3_FFFF, 0x4_0000, 0xF_FFFF,
            0x10_0000, 0x10_FFFF, 0x11_0000, 0x1F_FFFF,
        ];
        for code_point in ends.into_iter().flat_map(with_neighbours) {
            self.ask(*b"CC", code_point.to_be_bytes());
            self.ask(*b"WS", code_point.to_be_bytes());
            if let Some(bytes) = encoded(code_point) {
                self.ask_in_text(&bytes);
            }
        }
        for number in [0x20_0000, 0x7FFF_FFFF, 0x8000_0000, u32::MAX - 1, u32::MAX] {
            self.ask(*b"CC", u32::to_be_bytes(number));
            self.ask(*b"WS", u32::to_be_bytes(number));
        }
    }

    /// Every control character and every White_Space code point with its neighbours, asked for
    /// itself and, encoded, in a name and in a snapshot id; U+200B and other likely mistakes too.
    fn control_and_white_space(&mut self) {
        let ranges = [
            0x0000..=0x0021,
            0x007E..=0x00A1, // the second controls, and no-break space
            0x00AD..=0x00AD, // soft hyphen
            0x167F..=0x1681,
            0x180D..=0x180F, // Mongolian vowel separator, white space in old versions only
            0x1FFF..=0x2012, // spaces; U+200B is none
            0x2027..=0x2030,
            0x205E..=0x2064,
            0x2FFF..=0x3001,
            0xFEFE..=0xFF00, // byte order mark
            0xE001F..=0xE0021,
        ];
        for code_point in ranges.into_iter().flatten() {
            self.ask(*b"CC", u32::to_be_bytes(code_point));
            self.ask(*b"WS", u32::to_be_bytes(code_point));
            if let Some(bytes) = encoded(code_point) {
                self.ask_in_text(&bytes);
            }
        }
    }

    /// Names and snapshot ids at their limits, in one-byte and in longer characters.
    fn lengths(&mut self) {
        for length in [
            0, 1, 8, 9, 10, 11, 255, 256, 257, 1024, 2047, MAX_NAME, 2049, 4096,
        ] {
            self.ask(*b"NM", filled(SCHEME, "a", length));
            self.ask(*b"NM", filled(SCHEME, "\u{E9}", length));
            self.ask(*b"NM", filled("", "s", length));
            self.ask(*b"SN", filled(SCHEME, "a", length));
            self.ask(*b"SN", filled("spiffe://a/", "b", length));
        }
        for length in [0, 1, 2, 3, 4, 255, MAX_SNAPSHOT_ID, 257, 258, 512, 2048] {
            self.ask(*b"SI", filled("", "a", length));
            self.ask(*b"SI", filled("", "\u{E9}", length));
            self.ask(*b"SI", filled("", "\u{20AC}", length));
            self.ask(*b"SI", filled("", "\u{1F600}", length));
            self.ask(*b"SI", filled("", " ", length));
        }
        // A control character, or a character cut in two, right at the end.
        for length in [255, MAX_SNAPSHOT_ID, 257] {
            self.ask(*b"SI", [filled("", "a", length - 1), vec![0x7F]].concat());
            self.ask(*b"SI", [filled("", "a", length - 1), vec![0xC3]].concat());
        }
        for length in [MAX_NAME - 1, MAX_NAME, MAX_NAME + 1] {
            self.ask(
                *b"NM",
                [filled(SCHEME, "a", length - 1), vec![b' ']].concat(),
            );
            self.ask(
                *b"NM",
                [filled(SCHEME, "a", length - 1), vec![0xC3]].concat(),
            );
            self.ask(
                *b"NM",
                [filled(SCHEME, "a", length - 2), vec![0xC2, 0xA0]].concat(),
            );
        }
        self.ask(*b"U8", filled("", "\u{20AC}", 69_999));
        self.ask(*b"U8", [filled("", "a", 65_536), vec![0x80]].concat());
    }

    /// Wrong and almost right schemes, as names and as strict names.
    fn schemes(&mut self) {
        let names = [
            "",
            "s",
            "spiffe",
            "spiffe:",
            "spiffe:/",
            "spiffe://",
            "spiffe://a",
            "Spiffe://a",
            "SPIFFE://a",
            "spiffe:/a",
            "spiffe:/a/b/c/d",
            "spiffe//a",
            "spiffe///a",
            "spiffe:///a",
            "spiffe:a//b",
            "spiffe;//a",
            "spiffe:\\\\a",
            " spiffe://a",
            "spiffe ://a",
            "spiffe: //a",
            "spiffe:// ",
            "spiffe://a b",
            "spiffe://\u{200B}",
            "spiffe://a\u{200B}b",
            "spiffe://\u{A0}",
            "spiffe://a\u{A0}b",
            "xpiffe://a",
            "spifff://a",
            "spiffe:/\u{2F}a",
            "https://a",
            "spiffe://a?b",
            "spiffe://a#b",
            "spiffe://a:1",
            "spiffe://a@b",
            "spiffe://%41",
            "\u{FEFF}spiffe://a",
            "spiffe\u{0}//a",
        ];
        for name in names {
            self.ask(*b"NM", name);
            self.ask(*b"SN", name);
        }
        // Each byte of the scheme one lower, one higher, and with one bit turned.
        for at in 0..SCHEME.len() {
            for change in [
                |b: u8| b - 1,
                |b: u8| b + 1,
                |b: u8| b ^ 0x20,
                |b: u8| b ^ 0x80,
            ] {
                let mut name = b"spiffe://a".to_vec();
                name[at] = change(name[at]);
                self.ask(*b"NM", &name);
                self.ask(*b"SN", &name);
            }
        }
    }

    /// Strict names: limits of domain and whole, empty and missing segments, dots.
    fn strict_names(&mut self) {
        for domain in [0, 1, 2, 254, MAX_DOMAIN, 256, 257, 2039, 2040] {
            let name = filled(SCHEME, "d", SCHEME.len() + domain);
            self.ask(*b"SN", &name);
            self.ask(*b"SN", [&name[..], b"/"].concat());
            self.ask(*b"SN", [&name[..], b"/s"].concat());
        }
        for length in [2047, MAX_NAME, 2049, 2050] {
            self.ask(*b"SN", filled("spiffe://a/", "s", length));
            self.ask(*b"SN", filled("spiffe://a", "/s", length));
            self.ask(*b"SN", filled("spiffe://a/", "s/", length));
            self.ask(
                *b"SN",
                [filled("spiffe://a/", "s", length - 1), vec![b'/']].concat(),
            );
        }
        let names = [
            "spiffe://a/",
            "spiffe://a//",
            "spiffe://a//b",
            "spiffe://a/b",
            "spiffe://a/b/",
            "spiffe://a/b//c",
            "spiffe://a/b/c",
            "spiffe://a/.",
            "spiffe://a/..",
            "spiffe://a/...",
            "spiffe://a/./b",
            "spiffe://a/../b",
            "spiffe://.",
            "spiffe://..",
            "spiffe://-",
            "spiffe://_",
            "spiffe://a.b-c_d",
            "spiffe:///",
            "spiffe:///b",
            "spiffe:////",
            "spiffe://A",
            "spiffe://aB",
            "spiffe://a/B",
            "spiffe://a/bC9._-",
            "spiffe://0",
            "spiffe://site/./store",
            "spiffe://a/\u{E9}",
            "spiffe://\u{E9}",
        ];
        for name in names {
            self.ask(*b"SN", name);
            self.ask(*b"NM", name);
        }
    }

    /// Every byte, in the domain and in a segment: first, in the middle, last.
    fn every_byte_in_a_strict_name(&mut self) {
        for byte in 0..=255 {
            for (before, after) in [("", ""), ("a", "b"), ("a", ""), ("", "b")] {
                self.ask(
                    *b"SN",
                    [SCHEME, before]
                        .concat()
                        .bytes()
                        .chain([byte])
                        .chain(after.bytes())
                        .collect::<Vec<_>>(),
                );
            }
            for (before, after) in [("a/", ""), ("a/s", "t"), ("a/s", "/t"), ("a/", "/t")] {
                self.ask(
                    *b"SN",
                    [SCHEME, before]
                        .concat()
                        .bytes()
                        .chain([byte])
                        .chain(after.bytes())
                        .collect::<Vec<_>>(),
                );
            }
        }
    }

    /// Slots, incarnations, next incarnations and epochs at their limits.
    fn identifiers(&mut self) {
        for slot in SLOTS {
            self.ask(*b"SL", slot.to_be_bytes());
        }
        for number in numbers() {
            self.ask(*b"IN", number.to_be_bytes());
            self.ask(*b"NX", number.to_be_bytes());
            self.ask(*b"EP", number.to_be_bytes());
        }
        for slot in SLOTS {
            for number in numbers() {
                self.ask(
                    *b"ND",
                    [&slot.to_be_bytes()[..], &number.to_be_bytes()].concat(),
                );
            }
        }
    }

    /// Reading node ids at every limit.
    fn node_ids(&mut self) {
        for number in numbers() {
            self.ask(*b"ID", number.to_be_bytes());
        }
        for incarnation in [
            1u64,
            2,
            3,
            1 << 16,
            (1 << 47) - 1,
            1 << 47,
            (1 << 47) + 1,
            1 << 48,
        ] {
            for slot in SLOTS {
                let node = (incarnation - 1).wrapping_mul(65_536) + u64::from(slot);
                self.ask(*b"ID", node.to_be_bytes());
            }
        }
    }

    /// Bodies one byte too short and too long, and empty ones.
    fn bodies_of_a_wrong_size(&mut self) {
        for (mark, size) in [
            (*b"CC", 4),
            (*b"WS", 4),
            (*b"SL", 2),
            (*b"IN", 8),
            (*b"NX", 8),
            (*b"EP", 8),
            (*b"ND", 10),
            (*b"ID", 8),
        ] {
            for wrong in [0, size - 1, size + 1, 2 * size] {
                self.ask(mark, vec![1; wrong]);
            }
        }
        self.ask(*b"zz", b"unknown mark");
        self.ask(*b"\xFF\0", b"");
    }
}

const SLOTS: [u16; 8] = [0, 1, 2, 255, 256, 32_768, 65_534, 65_535];

/// The limits that document 01 names and the powers of two around them, with their neighbours.
fn numbers() -> Vec<u64> {
    let mut numbers = vec![0, 1, 2, 3];
    for power in [8, 15, 16, 17, 31, 32, 46, 47, 48, 62, 63] {
        let limit = 1u64 << power;
        numbers.extend([limit - 2, limit - 1, limit, limit + 1, limit + 2]);
    }
    numbers.extend([u64::MAX - 65_536, u64::MAX - 65_535, u64::MAX - 1, u64::MAX]);
    numbers
}

fn with_neighbours(code_point: u32) -> impl Iterator<Item = u32> {
    code_point.saturating_sub(1)..=code_point + 1
}

/// Each range's two ends and their neighbours, in all combinations.
fn combinations(ranges: &[(u8, u8)]) -> Vec<Vec<u8>> {
    let mut all = vec![Vec::new()];
    for &(first, last) in ranges {
        let mut ends = vec![
            first.wrapping_sub(1),
            first,
            first.wrapping_add(1),
            last.wrapping_sub(1),
            last,
            last.wrapping_add(1),
        ];
        ends.sort_unstable();
        ends.dedup();
        all = all
            .iter()
            .flat_map(|bytes| ends.iter().map(move |end| [&bytes[..], &[*end]].concat()))
            .collect();
    }
    all
}

/// The byte pattern of RFC 3629, section 3, for every number that it can carry, surrogates and
/// numbers past 10FFFF included.
pub fn encoded(code_point: u32) -> Option<Vec<u8>> {
    let tail = |shift: u32| 0x80 | (code_point >> shift & 0x3F) as u8;
    match code_point {
        0..=0x7F => Some(vec![code_point as u8]),
        0x80..=0x7FF => Some(vec![0xC0 | (code_point >> 6) as u8, tail(0)]),
        0x800..=0xFFFF => Some(vec![0xE0 | (code_point >> 12) as u8, tail(6), tail(0)]),
        0x1_0000..=0x1F_FFFF => Some(vec![
            0xF0 | (code_point >> 18) as u8,
            tail(12),
            tail(6),
            tail(0),
        ]),
        _ => None,
    }
}

/// `start`, then `part` again and again, cut to `length` bytes.
pub fn filled(start: &str, part: &str, length: usize) -> Vec<u8> {
    start
        .bytes()
        .chain(part.bytes().cycle())
        .take(length)
        .collect()
}

#[cfg(test)]
mod tests {
    use super::*;

    #[test]
    fn encoding_agrees_with_rust_on_every_character() {
        for character in (0..=0x10_FFFF).filter_map(char::from_u32) {
            let bytes = character.to_string().into_bytes();
            assert_eq!(encoded(character as u32), Some(bytes));
        }
    }
}
