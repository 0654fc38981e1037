use std::error::Error;
use std::fmt;

macro_rules! refusals {
    ($($name:ident = $number:literal, $text:literal;)*) => {
        /// Why a call was refused: nothing was changed. Each case has the number of document 01
        /// and, where the original Rust has one, its name.
        #[derive(Clone, Copy, Debug, PartialEq, Eq, Hash, PartialOrd, Ord)]
        #[non_exhaustive]
        #[repr(u8)]
        pub enum Refusal {
            $(#[doc = $text] $name = $number,)*
        }

        impl Refusal {
            /// Every refusal, by rising numbers.
            pub const ALL: &'static [Refusal] = &[$(Refusal::$name,)*];

            /// The refusal that has this number.
            #[must_use]
            pub const fn from_number(number: u32) -> Option<Self> {
                match number {
                    $($number => Some(Refusal::$name),)*
                    _ => None,
                }
            }
        }

        impl fmt::Display for Refusal {
            fn fmt(&self, f: &mut fmt::Formatter<'_>) -> fmt::Result {
                f.write_str(match self {
                    $(Refusal::$name => $text,)*
                })
            }
        }
    };
}

refusals! {
    InvalidSlot = 1, "a slot is 0";
    InvalidIncarnation = 2, "an incarnation is 0 or above its limit";
    IncarnationExhausted = 3, "the attested incarnation is the last one";
    FreshInstallationRequired = 4, "the table is of another version";
    TooLarge = 5, "the bytes, a name or a snapshot id are too long";
    InvalidRecord = 6, "the table or the attestation is not valid";
    Regression = 7, "the table would go back";
    InvalidLossEvidence = 12, "the evidence of the loss is not valid, or stale";
    StaleIncarnation = 13, "the request is for another state of the table";
    IdempotencyConflict = 14, "the request id stands for another request";
    ReplacementInProgress = 15, "another slot is being replaced";
    NoSurvivingQuorum = 16, "fewer than three slots";
    ReplacementPastFence = 19, "the open request is past its fence";
    ConfigurationEpochExhausted = 23, "the configuration epoch is the last one";
    RevisionExhausted = 24, "the revision is the last one";
    InvalidTransition = 25, "the table does not allow this step now";
    Unrepresentable = 30, "a value is out of its bounds";
    NotRising = 31, "a set of node ids does not strictly rise";
    BufferTooShort = 32, "the buffer is shorter than the table";
    BadRecord = 33, "the body is not of its form";
}

impl Refusal {
    /// Document 01's number.
    #[must_use]
    pub const fn number(self) -> u8 {
        self as u8
    }
}

impl Error for Refusal {}
