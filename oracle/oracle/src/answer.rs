//! The answer numbers of document 01, and the number of each of the original's errors.
//! 30 to 33 are document 01's own; every other number is the original's.

use original::{VoterReplacementError, VoterSlotError};

pub const ACCEPTED: u8 = 0;
pub const INVALID_SLOT: u8 = 1;
pub const INVALID_INCARNATION: u8 = 2;
/// A value that the original's types cannot hold, or filler that is not zero.
pub const NOT_HELD: u8 = 30;
/// A set that does not strictly rise.
pub const NOT_RISING: u8 = 31;
/// A lent buffer that is too short.
pub const BUFFER_TOO_SHORT: u8 = 32;
/// A record or question that is not of its form.
pub const BAD_FORM: u8 = 33;

/// Document 01: 1 to 7 number `VoterSlotError` in its order.
pub fn of_slot_error(error: VoterSlotError) -> u8 {
    match error {
        VoterSlotError::InvalidSlot => INVALID_SLOT,
        VoterSlotError::InvalidIncarnation => INVALID_INCARNATION,
        VoterSlotError::IncarnationExhausted => 3,
        VoterSlotError::FreshInstallationRequired => 4,
        VoterSlotError::TooLarge => 5,
        VoterSlotError::InvalidRecord => 6,
        VoterSlotError::Regression => 7,
        _ => unreachable!("an error that the original does not have"),
    }
}

/// Document 01: 11 to 28 number `VoterReplacementError` in its order.
pub fn of_replacement_error(error: VoterReplacementError) -> u8 {
    11 + error as u8
}

pub fn of_slot_result(result: Result<(), VoterSlotError>) -> u8 {
    result.map_or_else(of_slot_error, |()| ACCEPTED)
}

pub fn of_replacement_result(result: Result<(), VoterReplacementError>) -> u8 {
    result.map_or_else(of_replacement_error, |()| ACCEPTED)
}

#[cfg(test)]
mod tests {
    use super::*;

    #[test]
    fn replacement_errors_are_numbered_from_11_to_28() {
        use VoterReplacementError::*;
        assert_eq!(of_replacement_error(UnauthorizedReplacement), 11);
        assert_eq!(of_replacement_error(InvalidLossEvidence), 12);
        assert_eq!(of_replacement_error(StaleIncarnation), 13);
        assert_eq!(of_replacement_error(IdempotencyConflict), 14);
        assert_eq!(of_replacement_error(ReplacementInProgress), 15);
        assert_eq!(of_replacement_error(NoSurvivingQuorum), 16);
        assert_eq!(of_replacement_error(ReplacementPastFence), 19);
        assert_eq!(of_replacement_error(IncarnationExhausted), 22);
        assert_eq!(of_replacement_error(ConfigurationEpochExhausted), 23);
        assert_eq!(of_replacement_error(RevisionExhausted), 24);
        assert_eq!(of_replacement_error(InvalidTransition), 25);
        assert_eq!(of_replacement_error(Unavailable), 28);
    }
}
