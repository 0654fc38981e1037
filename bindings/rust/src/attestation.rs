use crate::bytes::{Writer, VERSION};

/// How the loss was established.
#[derive(Clone, Copy, Debug, PartialEq, Eq, Hash)]
#[repr(u8)]
pub enum LossReason {
    /// The controller verified loss of the prior durable state.
    StorageLost = 1,
    /// The controller applied its authorized time-bound loss policy.
    TimeBoundLoss = 2,
}

/// A controller's statement that a voter is lost, as the fields that a [`Begin`](crate::Begin)
/// carries in bytes. A service that receives those bytes needs none of this; it is for those who
/// make them.
#[derive(Clone, Debug, PartialEq, Eq, Hash)]
pub struct LostVoterAttestation {
    /// Caller-stable idempotency identity.
    pub request_id: [u8; 16],
    /// Canonical request-body digest, excluding its own field and proofs.
    pub request_digest: [u8; 32],
    /// Fresh-installation cluster identity.
    pub cluster_instance: [u8; 32],
    /// Target logical slot.
    pub slot: u16,
    /// Exact incarnation whose loss the controller declares.
    pub expected_incarnation: u64,
    /// Prior incarnation's selected descriptor digest.
    pub old_descriptor_digest: [u8; 32],
    /// Selected candidate's independent public-key digest.
    pub candidate_key_digest: [u8; 32],
    /// Monotonic platform selection generation.
    pub admission_generation: u64,
    /// Candidate workload identity.
    pub candidate_spiffe_id: String,
    /// Controller identity authorized by the current platform policy.
    pub controller_spiffe_id: String,
    /// Controller signing credential's SPKI digest.
    pub signing_key_digest: [u8; 32],
    /// Explicit controller loss-policy decision.
    pub reason: LossReason,
    /// Policy digest interpreted by the trusted admission adapter.
    pub policy_digest: [u8; 32],
    /// Unix milliseconds at the beginning of the loss observation.
    pub observation_start_ms: u64,
    /// Unix milliseconds at the loss decision.
    pub decision_ms: u64,
    /// Unix milliseconds at issuance.
    pub issued_ms: u64,
    /// Exclusive validity deadline in Unix milliseconds.
    pub expires_ms: u64,
    /// Raw P-256 `r || s`.
    pub signature: [u8; 64],
}

impl LostVoterAttestation {
    /// Its bytes. Nothing is judged here; names of more than 65,535 bytes give no bytes at all.
    #[must_use]
    pub fn encode(&self) -> Vec<u8> {
        let mut out = Writer::default();
        out.u16(VERSION);
        out.bytes(&self.request_id);
        out.bytes(&self.request_digest);
        out.bytes(&self.cluster_instance);
        out.u16(self.slot);
        out.u64(self.expected_incarnation);
        out.bytes(&self.old_descriptor_digest);
        out.bytes(&self.candidate_key_digest);
        out.u64(self.admission_generation);
        out.sized(self.candidate_spiffe_id.as_bytes());
        out.sized(self.controller_spiffe_id.as_bytes());
        out.bytes(&self.signing_key_digest);
        out.u8(self.reason as u8);
        out.bytes(&self.policy_digest);
        out.u64(self.observation_start_ms);
        out.u64(self.decision_ms);
        out.u64(self.issued_ms);
        out.u64(self.expires_ms);
        out.bytes(&self.signature);
        out.end()
    }
}
