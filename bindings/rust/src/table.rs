use std::fmt;
use std::num::NonZeroU16;

use crate::bytes::{Writer, VERSION};
use crate::ffi::{self, Outcome};
use crate::{Command, CommandKind, Observation, Record, Refusal};

/// Most bytes of a table.
pub const MAX_TABLE_BYTES: usize = 8072;

/// How far an open request has come.
#[derive(Clone, Copy, Debug, PartialEq, Eq, Hash, PartialOrd, Ord)]
#[repr(u8)]
pub enum Phase {
    /// Prepare committed; prior incarnation retired.
    Prepared = 0,
    /// Verified out-of-band snapshot installed before learner addition.
    SnapshotInstalled = 1,
    /// Exact learner membership committed.
    LearnerAdded = 2,
    /// Candidate durably applied the current-term catch-up marker.
    CaughtUp = 3,
    /// Authority fence applied with effect; only forward completion is allowed.
    Fenced = 4,
    /// Exact joint membership committed.
    Joint = 5,
    /// Successor uniform membership committed; a finalize may end the request.
    Uniform = 6,
}

impl Phase {
    const fn from_number(number: u32) -> Option<Self> {
        match number {
            0 => Some(Phase::Prepared),
            1 => Some(Phase::SnapshotInstalled),
            2 => Some(Phase::LearnerAdded),
            3 => Some(Phase::CaughtUp),
            4 => Some(Phase::Fenced),
            5 => Some(Phase::Joint),
            6 => Some(Phase::Uniform),
            _ => None,
        }
    }
}

/// The request that is open in a table.
#[derive(Clone, Copy, Debug, PartialEq, Eq, Hash)]
pub struct OpenRequest {
    /// The slot whose voter is replaced.
    pub slot: NonZeroU16,
    /// How far it has come.
    pub phase: Phase,
}

impl OpenRequest {
    pub(crate) fn said(said: Outcome) -> Option<Self> {
        let slot = u16::try_from(said.open_slot).ok()?;
        Some(OpenRequest {
            slot: NonZeroU16::new(slot)?,
            phase: Phase::from_number(said.open_phase)?,
        })
    }
}

/// What a call that was accepted did.
#[derive(Clone, Copy, Debug, PartialEq, Eq, Hash)]
#[must_use]
pub enum Change {
    /// The table is as it was: the call repeats what was done before, or asks for no change.
    Unchanged,
    /// The table was changed, and its revision is one higher. A service stores it before it
    /// confirms.
    Changed,
}

/// The table of voter slots.
///
/// It is made by reading bytes and in no other way, so it is always valid. Two tables are equal
/// exactly where their bytes are.
#[derive(Clone)]
pub struct Table {
    bytes: Vec<u8>,
    said: Outcome,
}

impl Table {
    /// Reads a table.
    ///
    /// # Errors
    /// The reader's: [`InvalidSlot`](Refusal::InvalidSlot),
    /// [`InvalidIncarnation`](Refusal::InvalidIncarnation),
    /// [`IncarnationExhausted`](Refusal::IncarnationExhausted),
    /// [`FreshInstallationRequired`](Refusal::FreshInstallationRequired),
    /// [`TooLarge`](Refusal::TooLarge), [`InvalidRecord`](Refusal::InvalidRecord).
    pub fn decode(bytes: &[u8]) -> Result<Self, Refusal> {
        let said = accepted(ffi::read(bytes))?;
        let bytes = bytes.to_vec();
        Ok(Table { bytes, said })
    }

    /// Its bytes. [`Table::decode`] of them gives the same table.
    #[must_use]
    pub fn as_bytes(&self) -> &[u8] {
        &self.bytes
    }

    /// Its bytes, to keep.
    #[must_use]
    pub fn encode(&self) -> Vec<u8> {
        self.bytes.clone()
    }

    /// Writes its bytes to the start of a buffer, and gives their count.
    ///
    /// # Errors
    /// [`BufferTooShort`](Refusal::BufferTooShort): nothing is written then.
    pub fn encode_into(&self, out: &mut [u8]) -> Result<usize, Refusal> {
        accepted(ffi::write(&self.bytes, out)).map(count)
    }

    /// Applies a command.
    ///
    /// # Errors
    /// The first refusal in document 01's order. The table is as it was.
    pub fn apply(&mut self, command: &Command) -> Result<Change, Refusal> {
        self.apply_body(command.kind(), command.body())
    }

    fn apply_body(&mut self, kind: CommandKind, body: &[u8]) -> Result<Change, Refusal> {
        self.call(|table, out| ffi::apply(table, kind.number(), body, out))
    }

    /// Applies an observation of the engine's membership.
    ///
    /// # Errors
    /// The first refusal in document 01's order. The table is as it was.
    pub fn observe(&mut self, observation: &Observation) -> Result<Change, Refusal> {
        self.observe_body(observation.body())
    }

    fn observe_body(&mut self, body: &[u8]) -> Result<Change, Refusal> {
        self.call(|table, out| ffi::observe(table, body, out))
    }

    /// Applies a record of a log: a command or an observation.
    ///
    /// # Errors
    /// [`BadRecord`](Refusal::BadRecord) for any other mark, a TB too; else as [`Table::apply`] and
    /// [`Table::observe`]. The table is as it was.
    pub fn play(&mut self, record: Record<'_>) -> Result<Change, Refusal> {
        match CommandKind::from_mark(record.mark) {
            Some(kind) => self.apply_body(kind, record.body),
            None if record.mark == *b"OB" => self.observe_body(record.body),
            None => Err(Refusal::BadRecord),
        }
    }

    fn call(&mut self, made: impl FnOnce(&[u8], &mut [u8]) -> Outcome) -> Result<Change, Refusal> {
        let mut out = [0; MAX_TABLE_BYTES];
        let said = accepted(made(&self.bytes, &mut out))?;
        if said.revision == self.said.revision {
            return Ok(Change::Unchanged);
        }
        self.bytes.clear();
        self.bytes.extend_from_slice(&out[..count(said)]);
        self.said = said;
        Ok(Change::Changed)
    }

    /// Whether a node must not count any more. A number that is no node's id is not retired.
    #[must_use]
    pub fn is_retired(&self, node: u64) -> bool {
        is_retired(ffi::retired(&self.bytes, node))
    }

    /// Raised by one with each change, and by nothing else.
    #[must_use]
    pub fn revision(&self) -> u64 {
        self.said.revision
    }

    /// The configuration's epoch.
    #[must_use]
    pub fn epoch(&self) -> u64 {
        self.said.epoch
    }

    /// How many slots there are: 1, 3, 5, 7 or 9.
    #[must_use]
    pub fn slots(&self) -> usize {
        self.said.slots as usize
    }

    /// The open request, if there is one.
    #[must_use]
    pub fn open_request(&self) -> Option<OpenRequest> {
        OpenRequest::said(self.said)
    }
}

pub(crate) fn accepted(said: Outcome) -> Result<Outcome, Refusal> {
    match Refusal::from_number(said.answer) {
        Some(refusal) => Err(refusal),
        None => Ok(said),
    }
}

pub(crate) fn count(said: Outcome) -> usize {
    usize::try_from(said.count).expect("a table has at most MAX_TABLE_BYTES")
}

pub(crate) fn is_retired(answer: u32) -> bool {
    match answer {
        ffi::RETIRED => true,
        ffi::NOT_RETIRED => false,
        number => unreachable!("the retired test of a valid table answered {number}"),
    }
}

impl PartialEq for Table {
    fn eq(&self, other: &Self) -> bool {
        self.bytes == other.bytes
    }
}

impl Eq for Table {}

impl AsRef<[u8]> for Table {
    fn as_ref(&self) -> &[u8] {
        &self.bytes
    }
}

impl TryFrom<&[u8]> for Table {
    type Error = Refusal;

    fn try_from(bytes: &[u8]) -> Result<Self, Refusal> {
        Table::decode(bytes)
    }
}

impl fmt::Debug for Table {
    fn fmt(&self, f: &mut fmt::Formatter<'_>) -> fmt::Result {
        f.debug_struct("Table")
            .field("revision", &self.revision())
            .field("epoch", &self.epoch())
            .field("slots", &self.slots())
            .field("open_request", &self.open_request())
            .finish_non_exhaustive()
    }
}

/// The first revision, epoch and incarnation.
const FIRST: u64 = 1;

/// The phase of a slot that votes.
const VOTING: u8 = 2;

/// The flag of a part that is absent.
const ABSENT: u8 = 0;

/// A voter of a first installation, in incarnation 1.
#[derive(Clone, Debug, PartialEq, Eq, Hash)]
pub struct FirstVoter {
    /// Stable ordinal of the immutable installation manifest, 1 to 65,535.
    pub slot: u16,
    /// Digest of its public key.
    pub key_digest: [u8; 32],
    /// Digest of its immutable selected descriptor.
    pub descriptor_digest: [u8; 32],
    /// Platform selection generation, above 0.
    pub admission_generation: u64,
}

/// The bytes of a first installation's table: revision 1, epoch 1, every slot in its first
/// incarnation and voting, no request open. Nothing is judged here; [`Table::decode`] does that.
#[must_use]
pub fn first_table(
    cluster_instance: &[u8; 32],
    manifest_digest: &[u8; 32],
    voters: &[FirstVoter],
) -> Vec<u8> {
    let mut out = Writer::default();
    out.bytes(b"OPVI");
    out.u16(VERSION);
    out.bytes(cluster_instance);
    out.bytes(manifest_digest);
    out.u64(FIRST); // revision
    out.u64(FIRST); // epoch
    out.count8(voters.len());
    for voter in voters {
        out.u16(voter.slot);
        out.u64(FIRST); // incarnation
        out.u64(FIRST - 1); // retired through
        out.bytes(&voter.key_digest);
        out.bytes(&voter.descriptor_digest);
        out.u64(voter.admission_generation);
        out.u8(VOTING);
        out.u8(ABSENT); // no receipt
    }
    out.u8(ABSENT); // no open request
    out.end()
}
