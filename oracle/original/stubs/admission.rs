// Stub: the names that mod.rs takes from admission.rs, which the port leaves out.
// None of them is used by the files that are compared.
pub struct RaftVoterResponseFence;
pub struct VoterAdmission;
pub struct VoterIntentOrigin;
pub struct VoterPeerRequest;
pub struct VoterResponseFenceEngine;
pub struct VoterSlotStateReader;
