// Stub: the names that mod.rs takes from voter_slots/transport.rs, which the port leaves out.
// None of them is used by the files that are compared.
pub fn voter_rpc_request_digest() {}
pub fn voter_rpc_response_digest() {}
pub struct VoterAuthenticatedResponse;
pub struct VoterPeerResolver;
pub struct VoterPeerRoute;
pub struct VoterTransport;
