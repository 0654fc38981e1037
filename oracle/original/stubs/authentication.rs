// Stub: the names that mod.rs takes from authentication.rs, which the port leaves out.
// The original file needs elliptic curves, a clock and random numbers; nothing compared uses it.
pub fn voter_candidate_possession_signing_input() {}
pub fn voter_enrollment_possession_signing_input() {}
pub fn voter_rpc_possession_signing_input() {}
pub struct AuthenticatedVoterEvidence;
pub struct TrustedVoterTime;
pub struct VerifiedVoterCandidate;
pub struct VerifiedVoterEnrollment;
pub struct VerifiedVoterReplacement;
pub struct VerifiedVoterRpc;
pub struct VoterCandidateBinding;
pub struct VoterCandidateChallenge;
pub struct VoterChallengeIssuer;
pub struct VoterEnrollmentBinding;
pub struct VoterEnrollmentChallenge;
pub struct VoterReplacementAuthorization;
pub struct VoterReplacementVerifier;
pub struct VoterRpcBinding;
pub struct VoterRpcChallenge;
pub struct VoterRpcProofKind;
