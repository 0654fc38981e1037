//! Commands, as the bodies of document 01's replay records.

use crate::bytes::Writer;

/// A log position, a "cut".
#[derive(Clone, Copy, Debug, Default, PartialEq, Eq, Hash, PartialOrd, Ord)]
pub struct LogId {
    /// Engine leader term.
    pub term: u64,
    /// Engine log index.
    pub index: u64,
}

impl LogId {
    #[must_use]
    pub const fn new(term: u64, index: u64) -> Self {
        LogId { term, index }
    }
}

/// What a command does.
#[derive(Clone, Copy, Debug, PartialEq, Eq, Hash)]
pub enum CommandKind {
    /// Opens a request that replaces a lost voter.
    Begin,
    /// Takes the open request one step on.
    Advance,
    /// Names a request at a cut. It changes nothing.
    Marker,
}

impl CommandKind {
    /// The mark of its record.
    #[must_use]
    pub const fn mark(self) -> [u8; 2] {
        match self {
            CommandKind::Begin => *b"BG",
            CommandKind::Advance => *b"AD",
            CommandKind::Marker => *b"MK",
        }
    }

    /// Its mark as the functions of the archive take it.
    pub(crate) fn number(self) -> u32 {
        u32::from(u16::from_be_bytes(self.mark()))
    }

    /// The kind that has this mark.
    #[must_use]
    pub const fn from_mark(mark: [u8; 2]) -> Option<Self> {
        match &mark {
            b"BG" => Some(CommandKind::Begin),
            b"AD" => Some(CommandKind::Advance),
            b"MK" => Some(CommandKind::Marker),
            _ => None,
        }
    }
}

/// A command for [`Table::apply`](crate::Table::apply): made from a [`Begin`], an [`Advance`] or a
/// [`Marker`], or of the bytes of a record.
#[derive(Clone, Debug, PartialEq, Eq, Hash)]
pub struct Command {
    kind: CommandKind,
    body: Vec<u8>,
}

impl Command {
    /// A command of any bytes. Whether they are of the form is judged where it is applied.
    #[must_use]
    pub fn from_body(kind: CommandKind, body: impl Into<Vec<u8>>) -> Self {
        let body = body.into();
        Command { kind, body }
    }

    #[must_use]
    pub fn kind(&self) -> CommandKind {
        self.kind
    }

    /// The body of its record.
    #[must_use]
    pub fn body(&self) -> &[u8] {
        &self.body
    }
}

/// Names a request at a cut.
#[derive(Clone, Debug, PartialEq, Eq, Hash)]
pub struct Marker {
    /// Engine cut of the command.
    pub cut: LogId,
    /// The open request.
    pub request_id: [u8; 16],
    /// Its canonical digest.
    pub request_digest: [u8; 32],
}

impl From<Marker> for Command {
    fn from(marker: Marker) -> Self {
        let mut out = Writer::default();
        out.cut(marker.cut);
        out.bytes(&marker.request_id);
        out.bytes(&marker.request_digest);
        Command::from_body(CommandKind::Marker, out.end())
    }
}

/// One step of the open request.
#[derive(Clone, Debug, PartialEq, Eq, Hash)]
pub enum Step {
    /// Retains the exact verified initial snapshot, before its learner is added.
    RecordSnapshot {
        /// Full committed cut included by the artifact.
        cut: LogId,
        /// 1 to 256 bytes without control characters.
        snapshot_id: String,
        /// Digest of the verified artifact.
        digest: [u8; 32],
    },
    /// Retains a separately verified, durably applied current-term marker.
    RecordCaughtUp(LogId),
    /// Retains this command's exact committed capability-continuation cut.
    RecordContinuation,
    /// Published only when the store's authority switch applies with effect atomically.
    Fence,
    /// Retains completion after the engine's uniform entry applied.
    Finalize,
}

/// Takes the open request one step on.
#[derive(Clone, Debug, PartialEq, Eq, Hash)]
pub struct Advance {
    /// Engine cut of the command.
    pub cut: LogId,
    /// The open request.
    pub request_id: [u8; 16],
    /// Its canonical digest.
    pub request_digest: [u8; 32],
    /// The required next step.
    pub step: Step,
}

impl From<Advance> for Command {
    fn from(advance: Advance) -> Self {
        let mut out = Writer::default();
        out.cut(advance.cut);
        out.bytes(&advance.request_id);
        out.bytes(&advance.request_digest);
        match advance.step {
            Step::RecordSnapshot {
                cut,
                snapshot_id,
                digest,
            } => {
                out.u8(0);
                out.cut(cut);
                out.sized(snapshot_id.as_bytes());
                out.bytes(&digest);
            }
            Step::RecordCaughtUp(cut) => {
                out.u8(1);
                out.cut(cut);
            }
            Step::RecordContinuation => out.u8(2),
            Step::Fence => out.u8(3),
            Step::Finalize => out.u8(4),
        }
        Command::from_body(CommandKind::Advance, out.end())
    }
}

/// The voter that takes the lost one's place.
#[derive(Clone, Debug, PartialEq, Eq, Hash)]
pub struct Candidate {
    /// The slot that the lost voter had.
    pub slot: u16,
    /// One more than the attested incarnation.
    pub incarnation: u64,
    /// Digest of its public key.
    pub key_digest: [u8; 32],
    /// Digest of its immutable selected descriptor.
    pub descriptor_digest: [u8; 32],
    /// Strictly increasing platform selection generation for this slot.
    pub admission_generation: u64,
}

/// Opens a request that replaces a lost voter.
///
/// The service recomputes the request digest and knows the id of the current configuration: it
/// supplies both, and they are compared with what the request and its attestation say.
#[derive(Clone, Debug, PartialEq, Eq, Hash)]
pub struct Begin {
    /// Engine cut of the command.
    pub cut: LogId,
    /// Exact compare-and-set table revision.
    pub expected_revision: u64,
    /// The cluster's identity digest.
    pub expected_cluster_id: [u8; 32],
    /// Digest of the exact current uniform configuration.
    pub expected_configuration_id: [u8; 32],
    /// Epoch of that configuration.
    pub expected_configuration_epoch: u64,
    /// Selected successor of the lost voter.
    pub candidate: Candidate,
    /// The bytes of the attestation;
    /// [`LostVoterAttestation::encode`](crate::LostVoterAttestation::encode) makes such bytes. The
    /// service has checked the signature.
    pub attestation: Vec<u8>,
    /// The request digest, as the service recomputed it.
    pub supplied_request_digest: [u8; 32],
    /// The id of the table's current configuration, as the service computed it.
    pub supplied_configuration_id: [u8; 32],
}

impl From<Begin> for Command {
    fn from(begin: Begin) -> Self {
        let mut out = Writer::default();
        out.cut(begin.cut);
        out.u64(begin.expected_revision);
        out.bytes(&begin.expected_cluster_id);
        out.bytes(&begin.expected_configuration_id);
        out.u64(begin.expected_configuration_epoch);
        out.u16(begin.candidate.slot);
        out.u64(begin.candidate.incarnation);
        out.bytes(&begin.candidate.key_digest);
        out.bytes(&begin.candidate.descriptor_digest);
        out.u64(begin.candidate.admission_generation);
        out.sized(&begin.attestation);
        out.bytes(&begin.supplied_request_digest);
        out.bytes(&begin.supplied_configuration_id);
        Command::from_body(CommandKind::Begin, out.end())
    }
}
