//! The fields of a body, big-endian.

use crate::LogId;

/// The version of a table and of an attestation.
pub(crate) const VERSION: u16 = 1;

/// Bytes so far. What has no place in its size makes the whole nothing: an empty body is of no
/// form, so that the call refuses it.
#[derive(Default)]
pub(crate) struct Writer {
    bytes: Vec<u8>,
    fails: bool,
}

impl Writer {
    pub fn u8(&mut self, number: u8) {
        self.bytes.push(number);
    }

    pub fn u16(&mut self, number: u16) {
        self.bytes(&number.to_be_bytes());
    }

    pub fn u64(&mut self, number: u64) {
        self.bytes(&number.to_be_bytes());
    }

    pub fn bytes(&mut self, bytes: &[u8]) {
        self.bytes.extend_from_slice(bytes);
    }

    pub fn cut(&mut self, cut: LogId) {
        self.u64(cut.term);
        self.u64(cut.index);
    }

    /// A count of 8 bits.
    pub fn count8(&mut self, count: usize) {
        match u8::try_from(count) {
            Ok(count) => self.u8(count),
            Err(_) => self.fails = true,
        }
    }

    /// A count of 16 bits.
    pub fn count16(&mut self, count: usize) {
        match u16::try_from(count) {
            Ok(count) => self.u16(count),
            Err(_) => self.fails = true,
        }
    }

    /// A size of 16 bits, and the bytes.
    pub fn sized(&mut self, bytes: &[u8]) {
        self.count16(bytes.len());
        self.bytes(bytes);
    }

    pub fn end(self) -> Vec<u8> {
        if self.fails {
            return Vec::new();
        }
        self.bytes
    }
}
