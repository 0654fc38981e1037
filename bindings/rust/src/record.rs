/// Bytes of a mark and a size.
const HEAD: usize = 4;

/// A record of document 01's log: a mark of two bytes, a 16-bit size, the body.
#[derive(Clone, Copy, Debug, PartialEq, Eq, Hash)]
pub struct Record<'a> {
    /// TB a table, BG, AD, MK a command, OB an observation.
    pub mark: [u8; 2],
    /// What stands after the size.
    pub body: &'a [u8],
}

impl<'a> Record<'a> {
    /// The record at the front of some bytes, and the bytes after it; none where it is cut short.
    ///
    /// ```
    /// use voter_slots::Record;
    ///
    /// let (record, rest) = Record::split_first(b"OB\x00\x02..OB").expect("a record of two bytes");
    /// assert_eq!((&record.mark, record.body), (b"OB", &b".."[..]));
    /// assert_eq!(Record::split_first(rest), None);
    /// ```
    #[must_use]
    pub fn split_first(bytes: &'a [u8]) -> Option<(Self, &'a [u8])> {
        let (head, rest) = (bytes.get(..HEAD)?, &bytes[HEAD..]);
        let size = usize::from(u16::from_be_bytes([head[2], head[3]]));
        let record = Record {
            mark: [head[0], head[1]],
            body: rest.get(..size)?,
        };
        Some((record, &rest[size..]))
    }

    /// Its bytes, where the body has at most 65,535.
    #[must_use]
    pub fn encode(&self) -> Option<Vec<u8>> {
        let size = u16::try_from(self.body.len()).ok()?;
        Some([&self.mark[..], &size.to_be_bytes(), self.body].concat())
    }
}
