//! The original `identity.rs` and `voter_slots` as one crate, unchanged, for the oracle to call.
//! Around them stand only the few names of the original crate's root that those files mention.

include!(concat!(env!("OUT_DIR"), "/original.rs"));

pub use identity::*;
pub use voter_slots::*;

/// The two domains whose digests document 01 has the caller supply (codec.rs and records.rs).
pub const REQUEST_DOMAIN: &[u8] = b"openpacketcore/consensus/replace-lost-voter-request/v1\0";
pub const CONFIGURATION_DOMAIN: &[u8] = b"openpacketcore/consensus/voter-configuration/v1\0";

/// Runs `work` with the request digest and the configuration id set to the supplied values.
pub fn with_supplied<T>(
    request_digest: [u8; 32],
    configuration_id: [u8; 32],
    work: impl FnOnce() -> T,
) -> T {
    let values = [
        (REQUEST_DOMAIN, request_digest),
        (CONFIGURATION_DOMAIN, configuration_id),
    ];
    sha2::with_supplied(&values, work)
}

/// The engine's log id, which records.rs converts from. The conversion is left out of the port.
pub mod engine {
    pub trait NodeId {}

    pub struct LeaderId<N> {
        pub term: u64,
        pub node_id: N,
    }

    pub struct LogId<N> {
        pub leader_id: LeaderId<N>,
        pub index: u64,
    }
}

/// The bounded encoder and decoder of the serde forms, which are left out of the port.
pub fn encode_bounded<T: serde::Serialize>(_value: &T) -> Result<Vec<u8>, &'static str> {
    Err("serde forms are left out")
}

pub fn decode_bounded<T: serde::Deserialize<'static>>(_bytes: &[u8]) -> Result<T, &'static str> {
    Err("serde forms are left out")
}
