//! The file of questions (see FORMAT.md): marks, heads, bodies, and the fields of a body.
//! Integers are big-endian throughout.

/// The two bytes that name a question's kind.
pub type Mark = [u8; 2];

/// Layer one: text and identifiers.
pub const TEXT_MARKS: [Mark; 12] = [
    *b"U8", *b"NM", *b"SI", *b"SN", *b"CC", *b"WS", *b"SL", *b"IN", *b"NX", *b"EP", *b"ND", *b"ID",
];

/// The layers above: reading bytes, and calls on table values.
pub const HIGHER_MARKS: [Mark; 8] = [
    *b"TR", *b"AR", *b"VT", *b"WR", *b"SC", *b"RT", *b"CM", *b"OV",
];

/// The questions that the port's program `call_cases` answers; `cases` answers all others.
const CALL_MARKS: [Mark; 3] = [*b"RT", *b"CM", *b"OV"];

/// The bytes of a mark and a size.
const HEAD: usize = 6;

/// A larger body is treated as cut short.
pub const MAX_BODY: usize = 70_000;

pub fn is_known(mark: Mark) -> bool {
    TEXT_MARKS.contains(&mark) || HIGHER_MARKS.contains(&mark)
}

/// The mark as printed: `??` where it is not one of the known ones.
pub fn mark_text(mark: Mark) -> &'static str {
    let known = TEXT_MARKS
        .iter()
        .chain(&HIGHER_MARKS)
        .find(|known| **known == mark);
    known.map_or("??", |known| std::str::from_utf8(known).unwrap_or("??"))
}

/// What stands at one place of a file of questions.
#[derive(Debug, Clone, Copy, PartialEq, Eq)]
pub enum Item<'a> {
    /// A mark, known or not, and its whole body.
    Whole(Mark, &'a [u8]),
    /// A head or body cut short, with the mark as far as it was read. Nothing comes after it.
    CutShort(Option<Mark>),
}

/// The items of a file, in order.
pub fn items(mut bytes: &[u8]) -> Vec<Item<'_>> {
    let mut items = Vec::new();
    while !bytes.is_empty() {
        let Some((item, rest)) = whole_item(bytes) else {
            items.push(Item::CutShort(bytes.first_chunk().copied()));
            break;
        };
        items.push(item);
        bytes = rest;
    }
    items
}

fn whole_item(bytes: &[u8]) -> Option<(Item<'_>, &[u8])> {
    let (mark, rest) = bytes.split_first_chunk::<2>()?;
    let (size, rest) = rest.split_first_chunk::<4>()?;
    let size = u32::from_be_bytes(*size) as usize;
    if size > MAX_BODY {
        return None;
    }
    let (body, rest) = rest.split_at_checked(size)?;
    Some((Item::Whole(*mark, body), rest))
}

/// The file in two, each in its order: the questions for the port's program `cases`, and those for
/// `call_cases`. What is cut short stays at the end of its part.
pub fn for_each_program(file: &[u8]) -> [Vec<u8>; 2] {
    let mut parts = [Vec::new(), Vec::new()];
    let mut at = 0;
    for item in items(file) {
        let (mark, end) = match item {
            Item::Whole(mark, body) => (Some(mark), at + HEAD + body.len()),
            Item::CutShort(mark) => (mark, file.len()),
        };
        let is_call = mark.is_some_and(|mark| CALL_MARKS.contains(&mark));
        parts[usize::from(is_call)].extend_from_slice(&file[at..end]);
        at = end;
    }
    parts
}

/// Puts one question after the others.
pub fn put_question(out: &mut Vec<u8>, mark: Mark, body: &[u8]) {
    out.extend_from_slice(&mark);
    out.extend_from_slice(&(body.len() as u32).to_be_bytes());
    out.extend_from_slice(body);
}

/// The fields of a body, read from the front. `None` means that the body is not of its form.
pub struct Fields<'a>(pub &'a [u8]);

impl<'a> Fields<'a> {
    pub fn take(&mut self, count: usize) -> Option<&'a [u8]> {
        let (field, rest) = self.0.split_at_checked(count)?;
        self.0 = rest;
        Some(field)
    }

    pub fn array<const N: usize>(&mut self) -> Option<[u8; N]> {
        let (field, rest) = self.0.split_first_chunk::<N>()?;
        self.0 = rest;
        Some(*field)
    }

    pub fn u8(&mut self) -> Option<u8> {
        self.array::<1>().map(|[byte]| byte)
    }

    pub fn u16(&mut self) -> Option<u16> {
        self.array().map(u16::from_be_bytes)
    }

    pub fn u32(&mut self) -> Option<u32> {
        self.array().map(u32::from_be_bytes)
    }

    pub fn u64(&mut self) -> Option<u64> {
        self.array().map(u64::from_be_bytes)
    }

    /// A field with its 16-bit size before it.
    pub fn sized(&mut self) -> Option<&'a [u8]> {
        let size = self.u16()?;
        self.take(usize::from(size))
    }

    /// Nothing may be left after the last field.
    pub fn end(&self) -> Option<()> {
        self.0.is_empty().then_some(())
    }
}

/// CRC-32 (IEEE, as zlib has it): it stands for bytes in an answer.
pub fn crc32(bytes: &[u8]) -> u32 {
    let mut crc = u32::MAX;
    for &byte in bytes {
        crc = (crc >> 8) ^ CRC_OF_BYTE[usize::from(crc as u8 ^ byte)];
    }
    !crc
}

const CRC_OF_BYTE: [u32; 256] = crc_table();

const fn crc_table() -> [u32; 256] {
    let mut table = [0; 256];
    let mut index = 0;
    while index < 256 {
        let mut value = index as u32;
        let mut bit = 0;
        while bit < 8 {
            let carry = value & 1 == 1;
            value >>= 1;
            if carry {
                value ^= 0xEDB8_8320;
            }
            bit += 1;
        }
        table[index] = value;
        index += 1;
    }
    table
}

#[cfg(test)]
mod tests {
    use super::*;

    #[test]
    fn crc_of_the_check_text() {
        assert_eq!(crc32(b"123456789"), 0xCBF4_3926);
        assert_eq!(crc32(b""), 0);
    }

    #[test]
    fn heads_and_bodies_cut_short() {
        let mut file = Vec::new();
        put_question(&mut file, *b"U8", b"a");
        put_question(&mut file, *b"XX", b"b");
        let whole = [Item::Whole(*b"U8", b"a"), Item::Whole(*b"XX", b"b")];
        assert_eq!(items(&file), whole);
        assert_eq!(items(&file[..8]), [whole[0], Item::CutShort(None)]);
        assert_eq!(items(&file[..9]), [whole[0], Item::CutShort(Some(*b"XX"))]);
        assert_eq!(items(&file[..13]), [whole[0], Item::CutShort(Some(*b"XX"))]);
        assert_eq!(items(b""), []);
    }

    #[test]
    fn each_program_gets_its_questions() {
        let mut file = Vec::new();
        for (mark, body) in [(*b"OV", "a"), (*b"U8", "b"), (*b"XX", ""), (*b"RT", "c")] {
            put_question(&mut file, mark, body.as_bytes());
        }
        let [cases, calls] = for_each_program(&file);
        assert_eq!(
            (&cases[..], &calls[..]),
            (&file[7..20], &[&file[..7], &file[20..]].concat()[..])
        );
        let [cases, calls] = for_each_program(&file[..24]);
        assert_eq!(
            (&cases[..], &calls[..]),
            (&file[7..20], &[&file[..7], &file[20..24]].concat()[..])
        );
        assert_eq!(for_each_program(&file[..8]), [&file[7..8], &file[..7]]);
    }

    #[test]
    fn a_body_past_the_bound_is_cut_short() {
        let mut file = Vec::new();
        put_question(&mut file, *b"U8", &vec![b'a'; MAX_BODY]);
        assert_eq!(items(&file).len(), 1);
        put_question(&mut file, *b"U8", &vec![b'a'; MAX_BODY + 1]);
        put_question(&mut file, *b"U8", b"");
        assert_eq!(items(&file)[1..], [Item::CutShort(Some(*b"U8"))]);
    }
}
