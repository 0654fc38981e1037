use std::fmt;

use crate::ffi::{self, Outcome, Value};
use crate::table::{accepted, count, is_retired};
use crate::MAX_TABLE_BYTES;
use crate::{Change, Command, CommandKind, Observation, OpenRequest, Record, Refusal, Table};

/// A table that is kept as a value: a call changes it in place, and reads and writes no bytes of a
/// table.
///
/// A [`Table`] keeps its bytes, and each call reads and writes them. Both answer the same: take a
/// `LiveTable` where calls come often, and [`encode`](LiveTable::encode) it where it is stored. It
/// is made by reading bytes and in no other way, so it is always valid.
///
/// ```
/// use voter_slots::{first_table, Change, FirstVoter, LiveTable, LogId, Observation, Refusal, Table};
///
/// let voters = [1, 2, 3].map(|slot| FirstVoter {
///     slot,
///     key_digest: [slot as u8; 32],
///     descriptor_digest: [slot as u8; 32],
///     admission_generation: 1,
/// });
/// let bytes = first_table(&[3; 32], &[9; 32], &voters);
/// let mut table = LiveTable::decode(&bytes)?;
/// let seen = Observation::new(LogId::new(1, 1), &[[1, 2, 3]], &[1, 2, 3]);
/// assert_eq!(table.observe(&seen), Ok(Change::Unchanged));
/// assert_eq!(table.encode(), bytes);
/// # Ok::<(), Refusal>(())
/// ```
#[derive(Clone)]
pub struct LiveTable {
    value: Box<Value>,
    said: Outcome,
}

impl LiveTable {
    /// Reads a table.
    ///
    /// # Errors
    /// As [`Table::decode`].
    pub fn decode(bytes: &[u8]) -> Result<Self, Refusal> {
        let mut value = Value::blank();
        let said = accepted(ffi::table_read(&mut value, bytes))?;
        Ok(LiveTable { value, said })
    }

    /// Its bytes. [`LiveTable::decode`] of them gives the same table.
    #[must_use]
    pub fn encode(&self) -> Vec<u8> {
        let mut out = [0; MAX_TABLE_BYTES];
        let len = self
            .encode_into(&mut out)
            .expect("a table is valid, and has room");
        out[..len].to_vec()
    }

    /// Writes its bytes to the start of a buffer, and gives their count.
    ///
    /// # Errors
    /// [`BufferTooShort`](Refusal::BufferTooShort): nothing is written then.
    pub fn encode_into(&self, out: &mut [u8]) -> Result<usize, Refusal> {
        accepted(ffi::table_write(&self.value, out)).map(count)
    }

    /// Applies a command.
    ///
    /// # Errors
    /// The first refusal in document 01's order. The table is as it was.
    pub fn apply(&mut self, command: &Command) -> Result<Change, Refusal> {
        self.apply_body(command.kind(), command.body())
    }

    fn apply_body(&mut self, kind: CommandKind, body: &[u8]) -> Result<Change, Refusal> {
        let said = ffi::table_apply(&mut self.value, kind.number(), body);
        self.take_outcome(said)
    }

    /// Applies an observation of the engine's membership.
    ///
    /// # Errors
    /// The first refusal in document 01's order. The table is as it was.
    pub fn observe(&mut self, observation: &Observation) -> Result<Change, Refusal> {
        self.observe_body(observation.body())
    }

    fn observe_body(&mut self, body: &[u8]) -> Result<Change, Refusal> {
        let said = ffi::table_observe(&mut self.value, body);
        self.take_outcome(said)
    }

    /// Applies a record of a log: a command or an observation.
    ///
    /// # Errors
    /// As [`Table::play`].
    pub fn play(&mut self, record: Record<'_>) -> Result<Change, Refusal> {
        match CommandKind::from_mark(record.mark) {
            Some(kind) => self.apply_body(kind, record.body),
            None if record.mark == *b"OB" => self.observe_body(record.body),
            None => Err(Refusal::BadRecord),
        }
    }

    fn take_outcome(&mut self, said: Outcome) -> Result<Change, Refusal> {
        let said = accepted(said)?;
        let change = if said.revision == self.said.revision {
            Change::Unchanged
        } else {
            Change::Changed
        };
        self.said = said;
        Ok(change)
    }

    /// Whether a node must not count any more. A number that is no node's id is not retired.
    #[must_use]
    pub fn is_retired(&self, node: u64) -> bool {
        is_retired(ffi::table_retired(&self.value, node))
    }

    /// Raised by one with each change, and by nothing else.
    #[must_use]
    pub fn revision(&self) -> u64 {
        self.said.revision
    }

    /// The configuration's epoch.
    #[must_use]
    pub fn epoch(&self) -> u64 {
        self.said.epoch
    }

    /// How many slots there are: 1, 3, 5, 7 or 9.
    #[must_use]
    pub fn slots(&self) -> usize {
        self.said.slots as usize
    }

    /// The open request, if there is one.
    #[must_use]
    pub fn open_request(&self) -> Option<OpenRequest> {
        OpenRequest::said(self.said)
    }
}

impl From<&Table> for LiveTable {
    fn from(table: &Table) -> Self {
        LiveTable::decode(table.as_bytes()).expect("a table is valid")
    }
}

impl From<&LiveTable> for Table {
    fn from(table: &LiveTable) -> Self {
        Table::decode(&table.encode()).expect("a table is valid")
    }
}

impl TryFrom<&[u8]> for LiveTable {
    type Error = Refusal;

    fn try_from(bytes: &[u8]) -> Result<Self, Refusal> {
        LiveTable::decode(bytes)
    }
}

impl fmt::Debug for LiveTable {
    fn fmt(&self, f: &mut fmt::Formatter<'_>) -> fmt::Result {
        f.debug_struct("LiveTable")
            .field("revision", &self.revision())
            .field("epoch", &self.epoch())
            .field("slots", &self.slots())
            .field("open_request", &self.open_request())
            .finish_non_exhaustive()
    }
}
