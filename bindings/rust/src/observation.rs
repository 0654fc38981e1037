use crate::bytes::Writer;
use crate::LogId;

/// What the engine says of its membership, for [`Table::observe`](crate::Table::observe): the voter
/// sets (one, or two in a joint configuration) and all nodes, each strictly rising.
#[derive(Clone, Debug, PartialEq, Eq, Hash)]
pub struct Observation {
    body: Vec<u8>,
}

impl Observation {
    /// More than 255 sets, or 65,535 ids in one, make an observation that is refused with
    /// [`BadRecord`](crate::Refusal::BadRecord).
    #[must_use]
    pub fn new<S: AsRef<[u64]>>(cut: LogId, sets: &[S], nodes: &[u64]) -> Self {
        let mut out = Writer::default();
        out.cut(cut);
        out.count8(sets.len());
        for set in sets.iter().map(AsRef::as_ref).chain([nodes]) {
            out.count16(set.len());
            for id in set {
                out.u64(*id);
            }
        }
        Observation { body: out.end() }
    }

    /// An observation of any bytes. Whether they are of the form is judged where it is applied.
    #[must_use]
    pub fn from_body(body: impl Into<Vec<u8>>) -> Self {
        let body = body.into();
        Observation { body }
    }

    /// The body of its record, an OB.
    #[must_use]
    pub fn body(&self) -> &[u8] {
        &self.body
    }
}
