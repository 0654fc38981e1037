//! Layer one's judges: text rules and single characters.
//! Where the original has a rule it is asked; the strict name is document 01's own.

use original::{
    ConsensusClusterId, ConsensusRequestId, LostVoterAttestationV1, SlotId, VoterIncarnation,
    VoterLossReason,
};

/// The first bytes of every name.
pub const SCHEME: &str = "spiffe://";
pub const MAX_NAME: usize = 2048;
pub const MAX_SNAPSHOT_ID: usize = 256;
/// The longest trust domain of a strict name.
pub const MAX_DOMAIN: usize = 255;

pub fn is_utf8(bytes: &[u8]) -> bool {
    std::str::from_utf8(bytes).is_ok()
}

/// The name rule, asked of the original: an attestation with this name, otherwise in order, is
/// valid exactly where the name is.
pub fn is_name(bytes: &[u8]) -> bool {
    let Ok(name) = std::str::from_utf8(bytes) else {
        return false;
    };
    attestation_of(name.to_owned()).check_validity().is_ok()
}

/// The snapshot id's rule, in the words of the original's validation.rs.
pub fn is_snapshot_id(bytes: &[u8]) -> bool {
    let Ok(id) = std::str::from_utf8(bytes) else {
        return false;
    };
    !id.is_empty() && id.len() <= MAX_SNAPSHOT_ID && !id.chars().any(char::is_control)
}

/// The strict name of document 01, which the original does not have.
pub fn is_strict_name(bytes: &[u8]) -> bool {
    let Some(rest) = bytes.strip_prefix(SCHEME.as_bytes()) else {
        return false;
    };
    let mut parts = rest.split(|&byte| byte == b'/');
    let domain = parts.next().unwrap_or_default();
    bytes.len() <= MAX_NAME
        && (1..=MAX_DOMAIN).contains(&domain.len())
        && domain.iter().all(|&byte| is_domain_byte(byte))
        && parts
            .all(|segment| !segment.is_empty() && segment.iter().all(|&byte| is_segment_byte(byte)))
}

fn is_domain_byte(byte: u8) -> bool {
    matches!(byte, b'a'..=b'z' | b'0'..=b'9' | b'.' | b'-' | b'_')
}

fn is_segment_byte(byte: u8) -> bool {
    is_domain_byte(byte) || byte.is_ascii_uppercase()
}

pub fn is_control(code_point: u32) -> bool {
    char::from_u32(code_point).is_some_and(char::is_control)
}

pub fn is_white_space(code_point: u32) -> bool {
    char::from_u32(code_point).is_some_and(char::is_whitespace)
}

/// A valid attestation, but for the candidate's name.
pub fn attestation_of(candidate_spiffe_id: String) -> LostVoterAttestationV1 {
    LostVoterAttestationV1 {
        request_id: ConsensusRequestId::from_bytes([1; 16]),
        request_digest: [2; 32],
        cluster_instance: ConsensusClusterId::from_bytes([3; 32]),
        slot: SlotId::new(1).expect("slot 1"),
        expected_incarnation: VoterIncarnation::new(1).expect("incarnation 1"),
        old_descriptor_digest: [4; 32],
        candidate_key_digest: [5; 32],
        admission_generation: 2,
        candidate_spiffe_id,
        controller_spiffe_id: "spiffe://controller".to_owned(),
        signing_key_digest: [6; 32],
        reason: VoterLossReason::StorageLost,
        policy_digest: [7; 32],
        observation_start_ms: 1,
        decision_ms: 2,
        issued_ms: 3,
        expires_ms: 4,
        signature: [8; 64],
    }
}

#[cfg(test)]
mod tests;
