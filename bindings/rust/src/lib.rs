//! The table of voter slots says which incarnation of each voter of a Raft group counts. Its code
//! is proved: every answer of this crate is the one that `docs/01-scope.md` of its repository
//! defines, and a retired voter never counts again.
//!
//! A service keeps one [`Table`] for each group, applies committed [`Command`]s and
//! [`Observation`]s of the engine's membership to it in the order of the log, and stores its bytes
//! with each change. A [`LiveTable`] answers the same and spares the reading and writing of the
//! bytes in each call.
//!
//! ```
//! use voter_slots::{first_table, Change, FirstVoter, LogId, Marker, Observation, Refusal, Table};
//!
//! // A new installation of three voters.
//! let voters = [1, 2, 3].map(|slot| FirstVoter {
//!     slot,
//!     key_digest: [slot as u8; 32],
//!     descriptor_digest: [slot as u8; 32],
//!     admission_generation: 1,
//! });
//! let mut table = Table::decode(&first_table(&[3; 32], &[9; 32], &voters))?;
//! assert_eq!((table.revision(), table.epoch(), table.slots()), (1, 1, 3));
//! assert_eq!(table.open_request(), None);
//!
//! // The engine has the voters that the table has: nothing changes.
//! let seen = Observation::new(LogId::new(1, 1), &[[1, 2, 3]], &[1, 2, 3]);
//! assert_eq!(table.observe(&seen), Ok(Change::Unchanged));
//!
//! // No request is open that a marker could name.
//! let marker = Marker { cut: LogId::new(1, 2), request_id: [1; 16], request_digest: [1; 32] };
//! assert_eq!(table.apply(&marker.into()), Err(Refusal::InvalidTransition));
//! # Ok::<(), Refusal>(())
//! ```
//!
//! A lost voter is replaced by a [`Begin`] with a controller's attestation (`examples/begin.rs`):
//!
//! ```
#![doc = include_str!("../examples/begin.rs")]
//! ```

#![warn(missing_debug_implementations)]
#![deny(unsafe_op_in_unsafe_fn)]

mod attestation;
mod bytes;
mod command;
mod ffi;
mod live;
mod observation;
mod record;
mod refusal;
mod table;

pub use attestation::{LossReason, LostVoterAttestation};
pub use command::{Advance, Begin, Candidate, Command, CommandKind, LogId, Marker, Step};
pub use live::LiveTable;
pub use observation::Observation;
pub use record::Record;
pub use refusal::Refusal;
pub use table::{first_table, Change, FirstVoter, OpenRequest, Phase, Table, MAX_TABLE_BYTES};
