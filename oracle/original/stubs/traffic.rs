// Stub: the names that mod.rs takes from traffic.rs, which the port leaves out.
// None of them is used by the files that are compared.
pub struct VoterTrafficWindow;
pub const VOTER_RECENT_TRAFFIC_WINDOW: () = ();
