//! The oracle's generator of records, as far as the mutator uses it.
#![allow(dead_code)]

#[path = "../../oracle/oracle/src/generate/damage.rs"]
pub mod damage;
#[path = "../../oracle/oracle/src/generate/departures.rs"]
pub mod departures;
#[path = "../../oracle/oracle/src/generate/limits.rs"]
pub mod limits;
#[path = "../../oracle/oracle/src/generate/observations.rs"]
pub mod observations;
#[path = "../../oracle/oracle/src/generate/random.rs"]
pub mod random;
#[path = "../../oracle/oracle/src/generate/records.rs"]
pub mod records;
#[path = "../../oracle/oracle/src/generate/tables.rs"]
pub mod tables;
#[path = "../../oracle/oracle/src/generate/text.rs"]
pub mod text;
