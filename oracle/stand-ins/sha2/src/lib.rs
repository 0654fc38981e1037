//! Stand-in for `sha2`: SHA-256 as FIPS 180-4 defines it, with the functions the original uses.
//! A digest under a given domain can be set to a supplied value, as document 01 has the caller do.

use std::cell::RefCell;

/// First bytes of the message, and the digest that every such message gets.
type Supplied = (&'static [u8], [u8; 32]);

thread_local! {
    static SUPPLIED: RefCell<Vec<Supplied>> = const { RefCell::new(Vec::new()) };
}

/// While `work` runs on this thread, each message whose first part begins with one of the domains
/// gets the digest that comes with it and is not hashed. Every other message is hashed.
pub fn with_supplied<T>(values: &[Supplied], work: impl FnOnce() -> T) -> T {
    SUPPLIED.with(|supplied| *supplied.borrow_mut() = values.to_vec());
    let result = work();
    SUPPLIED.with(|supplied| supplied.borrow_mut().clear());
    result
}

fn supplied_for(first_part: &[u8]) -> Option<[u8; 32]> {
    SUPPLIED.with(|supplied| {
        let supplied = supplied.borrow();
        let found = supplied
            .iter()
            .find(|(domain, _)| first_part.starts_with(domain));
        found.map(|(_, digest)| *digest)
    })
}

/// The functions of the trait `Digest` that the original calls.
pub trait Digest: Sized {
    fn new() -> Self;
    fn update(&mut self, data: impl AsRef<[u8]>);
    fn finalize(self) -> [u8; 32];

    fn digest(data: impl AsRef<[u8]>) -> [u8; 32] {
        let mut hash = Self::new();
        hash.update(data);
        hash.finalize()
    }
}

/// One message on its way through SHA-256.
pub struct Sha256 {
    state: [u32; 8],
    block: [u8; 64],
    filled: usize,
    length: u64,
    supplied: Option<[u8; 32]>,
}

impl Digest for Sha256 {
    fn new() -> Self {
        Self {
            state: INITIAL,
            block: [0; 64],
            filled: 0,
            length: 0,
            supplied: None,
        }
    }

    fn update(&mut self, data: impl AsRef<[u8]>) {
        let data = data.as_ref();
        if self.length == 0 {
            // The original hands the whole domain over in the first part.
            self.supplied = supplied_for(data);
        }
        self.length += data.len() as u64;
        if self.supplied.is_none() {
            self.absorb(data);
        }
    }

    fn finalize(mut self) -> [u8; 32] {
        if let Some(digest) = self.supplied {
            return digest;
        }
        let bits = self.length * 8;
        self.absorb(&[0x80]);
        while self.filled != 56 {
            self.absorb(&[0]);
        }
        self.absorb(&bits.to_be_bytes());
        let mut digest = [0; 32];
        for (bytes, word) in digest.chunks_exact_mut(4).zip(self.state) {
            bytes.copy_from_slice(&word.to_be_bytes());
        }
        digest
    }
}

impl Sha256 {
    fn absorb(&mut self, mut data: &[u8]) {
        while !data.is_empty() {
            let count = data.len().min(64 - self.filled);
            self.block[self.filled..self.filled + count].copy_from_slice(&data[..count]);
            self.filled += count;
            data = &data[count..];
            if self.filled == 64 {
                self.filled = 0;
                compress(&mut self.state, &self.block);
            }
        }
    }
}

/// FIPS 180-4, section 6.2.2, for one block.
fn compress(state: &mut [u32; 8], block: &[u8; 64]) {
    let mut w = [0u32; 64];
    for (word, bytes) in w.iter_mut().zip(block.chunks_exact(4)) {
        *word = u32::from_be_bytes([bytes[0], bytes[1], bytes[2], bytes[3]]);
    }
    for t in 16..64 {
        let s0 = w[t - 15].rotate_right(7) ^ w[t - 15].rotate_right(18) ^ (w[t - 15] >> 3);
        let s1 = w[t - 2].rotate_right(17) ^ w[t - 2].rotate_right(19) ^ (w[t - 2] >> 10);
        w[t] = s1
            .wrapping_add(w[t - 7])
            .wrapping_add(s0)
            .wrapping_add(w[t - 16]);
    }
    let [mut a, mut b, mut c, mut d, mut e, mut f, mut g, mut h] = *state;
    for t in 0..64 {
        let s1 = e.rotate_right(6) ^ e.rotate_right(11) ^ e.rotate_right(25);
        let choice = (e & f) ^ (!e & g);
        let t1 = h
            .wrapping_add(s1)
            .wrapping_add(choice)
            .wrapping_add(ROUND[t])
            .wrapping_add(w[t]);
        let s0 = a.rotate_right(2) ^ a.rotate_right(13) ^ a.rotate_right(22);
        let majority = (a & b) ^ (a & c) ^ (b & c);
        let t2 = s0.wrapping_add(majority);
        (h, g, f, e, d, c, b, a) = (g, f, e, d.wrapping_add(t1), c, b, a, t1.wrapping_add(t2));
    }
    for (word, add) in state.iter_mut().zip([a, b, c, d, e, f, g, h]) {
        *word = word.wrapping_add(add);
    }
}

/// FIPS 180-4, section 5.3.3.
const INITIAL: [u32; 8] = [
    0x6a09e667, 0xbb67ae85, 0x3c6ef372, 0xa54ff53a, 0x510e527f, 0x9b05688c, 0x1f83d9ab, 0x5be0cd19,
];

/// FIPS 180-4, section 4.2.2.
const ROUND: [u32; 64] = [
    0x428a2f98, 0x71374491, 0xb5c0fbcf, 0xe9b5dba5, 0x3956c25b, 0x59f111f1, 0x923f82a4, 0xab1c5ed5,
    0xd807aa98, 0x12835b01, 0x243185be, 0x550c7dc3, 0x72be5d74, 0x80deb1fe, 0x9bdc06a7, 0xc19bf174,
    0xe49b69c1, 0xefbe4786, 0x0fc19dc6, 0x240ca1cc, 0x2de92c6f, 0x4a7484aa, 0x5cb0a9dc, 0x76f988da,
    0x983e5152, 0xa831c66d, 0xb00327c8, 0xbf597fc7, 0xc6e00bf3, 0xd5a79147, 0x06ca6351, 0x14292967,
    0x27b70a85, 0x2e1b2138, 0x4d2c6dfc, 0x53380d13, 0x650a7354, 0x766a0abb, 0x81c2c92e, 0x92722c85,
    0xa2bfe8a1, 0xa81a664b, 0xc24b8b70, 0xc76c51a3, 0xd192e819, 0xd6990624, 0xf40e3585, 0x106aa070,
    0x19a4c116, 0x1e376c08, 0x2748774c, 0x34b0bcb5, 0x391c0cb3, 0x4ed8aa4a, 0x5b9cca4f, 0x682e6ff3,
    0x748f82ee, 0x78a5636f, 0x84c87814, 0x8cc70208, 0x90befffa, 0xa4506ceb, 0xbef9a3f7, 0xc67178f2,
];

#[cfg(test)]
mod tests {
    use super::*;

    fn hex(message: &[u8]) -> String {
        Sha256::digest(message)
            .iter()
            .map(|byte| format!("{byte:02x}"))
            .collect()
    }

    /// The published vectors of FIPS 180-4.
    #[test]
    fn published_vectors() {
        assert_eq!(
            hex(b"abc"),
            "ba7816bf8f01cfea414140de5dae2223b00361a396177a9cb410ff61f20015ad"
        );
        assert_eq!(
            hex(b""),
            "e3b0c44298fc1c149afbf4c8996fb92427ae41e4649b934ca495991b7852b855"
        );
        assert_eq!(
            hex(b"abcdbcdecdefdefgefghfghighijhijkijkljklmklmnlmnomnopnopq"),
            "248d6a61d20638b8e5c026930c3e6039a33ce45964ff2167f6ecedd419db06c1"
        );
        assert_eq!(
            hex(b"abcdefghbcdefghicdefghijdefghijkefghijklfghijklmghijklmnhijklmnoijklmnopjklmnopqklmnopqrlmnopqrsmnopqrstnopqrstu"),
            "cf5b16a778af8380036ce59e7b0492370b249b11e8f07a51afac45037afee9d1"
        );
        assert_eq!(
            hex(&vec![b'a'; 1_000_000]),
            "cdc76e5c9914fb9281a1c7e284d73e67f1809a48a497200e046d39ccc7112cd0"
        );
    }

    #[test]
    fn parts_give_the_digest_of_the_whole() {
        let message: Vec<u8> = (0..=255).collect();
        for cut in 0..=message.len() {
            let mut hash = Sha256::new();
            hash.update(&message[..cut]);
            hash.update(&message[cut..]);
            assert_eq!(hash.finalize(), Sha256::digest(&message));
        }
    }

    #[test]
    fn a_supplied_digest_is_given_under_its_domain_only() {
        let given = with_supplied(&[(b"ab\0", [7; 32])], || Sha256::digest(b"ab\0rest"));
        assert_eq!(given, [7; 32]);
        let other = with_supplied(&[(b"ab\0", [7; 32])], || Sha256::digest(b"abc"));
        assert_eq!(other, Sha256::digest(b"abc"));
        assert_ne!(Sha256::digest(b"ab\0rest"), [7; 32]);
    }
}
