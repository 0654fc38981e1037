// Stub: the names that mod.rs takes from durable.rs, which the port leaves out.
// As a sibling of validation.rs it may also open the two validity checks that are private there.
use super::{LostVoterAttestationV1, VoterSlotError, VoterSlotTable};

pub struct VoterSlotDurableState;
pub struct VoterSlotIntent;

impl VoterSlotTable {
    /// `validate` of validation.rs, which is `pub(super)` there.
    pub fn check_validity(&self) -> Result<(), VoterSlotError> {
        self.validate()
    }
}

impl LostVoterAttestationV1 {
    /// `validate` of validation.rs, which is `pub(super)` there.
    pub fn check_validity(&self) -> Result<(), VoterSlotError> {
        self.validate()
    }
}
