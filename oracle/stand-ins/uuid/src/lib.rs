//! Stand-in for `uuid`: the original names it to make new request ids at random.
//! The oracle gets every request id from its input, so nothing random is ever made.

pub struct Uuid([u8; 16]);

impl Uuid {
    pub fn new_v4() -> Self {
        panic!("the oracle makes no request ids of its own")
    }

    pub fn as_bytes(&self) -> &[u8; 16] {
        &self.0
    }
}
