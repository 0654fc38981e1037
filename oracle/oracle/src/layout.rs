//! Bytes together with the fields that they are made of: who writes a table keeps the place and
//! nature of every field, so that the generator can damage each of them.

/// What a field holds, as far as damaging it goes.
#[derive(Debug, Clone, Copy, PartialEq, Eq)]
pub enum Nature {
    /// A number of 8, 16 or 64 bits: slot, incarnation, revision, term, index, phase, kind.
    Number,
    /// How many slots or members are in use.
    Count,
    /// How many bytes of text follow.
    Length,
    /// Is the part after it present?
    Flag,
    /// An id, digest or signature.
    Digest,
    /// The bytes of a name or snapshot id.
    Text,
}

#[derive(Debug, Clone, Copy, PartialEq, Eq)]
pub struct Field {
    pub at: usize,
    pub size: usize,
    pub nature: Nature,
    /// False in an absent part and after a count.
    pub used: bool,
}

#[derive(Debug, Clone, Default)]
pub struct Layout {
    pub bytes: Vec<u8>,
    pub fields: Vec<Field>,
    /// True while an absent part is written.
    absent: bool,
}

impl Layout {
    pub fn put(&mut self, nature: Nature, bytes: &[u8]) {
        let at = self.bytes.len();
        self.fields.push(Field {
            at,
            size: bytes.len(),
            nature,
            used: !self.absent,
        });
        self.bytes.extend_from_slice(bytes);
    }

    pub fn number8(&mut self, value: u8) {
        self.put(Nature::Number, &[value]);
    }

    pub fn number16(&mut self, value: u16) {
        self.put(Nature::Number, &value.to_be_bytes());
    }

    pub fn number64(&mut self, value: u64) {
        self.put(Nature::Number, &value.to_be_bytes());
    }

    pub fn digest(&mut self, bytes: &[u8]) {
        self.put(Nature::Digest, bytes);
    }

    pub fn flag(&mut self, present: bool) {
        self.put(Nature::Flag, &[u8::from(present)]);
    }

    pub fn count(&mut self, count: usize) {
        self.put(Nature::Count, &[count as u8]);
    }

    pub fn length16(&mut self, length: usize) {
        self.put(Nature::Length, &(length as u16).to_be_bytes());
    }

    /// Text with its 16-bit length before it.
    pub fn text(&mut self, text: &str) {
        self.length16(text.len());
        self.put(Nature::Text, text.as_bytes());
    }

    /// Writes a part that is absent unless `present` says otherwise.
    pub fn part(&mut self, present: bool, write: impl FnOnce(&mut Self)) {
        let outer = self.absent;
        self.absent |= !present;
        write(self);
        self.absent = outer;
    }

    /// Puts another layout after this one.
    pub fn append(&mut self, other: Layout) {
        let start = self.bytes.len();
        self.bytes.extend(other.bytes);
        self.fields
            .extend(other.fields.into_iter().map(|field| Field {
                at: field.at + start,
                ..field
            }));
    }
}
