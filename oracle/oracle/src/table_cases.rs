//! The questions above layer one: reading bytes, and calls on raw table values.
//! `None` means that the body is not of its mark's form.

use original::{
    decode_lost_voter_attestation, decode_voter_slot_table, encode_voter_slot_table, VoterSlotTable,
};

use crate::answer::{self, ACCEPTED, BUFFER_TOO_SHORT, NOT_HELD};
use crate::call::{self, Refusal};
use crate::cases::yes_or_no;
use crate::format::{crc32, Fields, MAX_BODY};
use crate::raw;
use crate::record::Body;

/// TR: reading table bytes, and writing the table again.
pub fn read_table(bytes: &[u8]) -> String {
    let table = match decode_voter_slot_table(bytes) {
        Ok(table) => table,
        Err(error) => return answer::of_slot_error(error).to_string(),
    };
    let written = encode_voter_slot_table(&table).expect("a table that was read is valid");
    let (count, checksum) = (written.len(), crc32(&written));
    let raw_checksum = crc32(&raw::of_table(&table).bytes);
    format!(
        "{ACCEPTED} {} {count} {checksum} {raw_checksum}",
        table.revision
    )
}

/// AR: reading attestation bytes.
pub fn read_attestation(bytes: &[u8]) -> String {
    match decode_lost_voter_attestation(bytes) {
        Ok(claims) => format!("{ACCEPTED} {}", crc32(&raw::of_attestation(&claims).bytes)),
        Err(error) => answer::of_slot_error(error).to_string(),
    }
}

/// VT: validity of a raw table.
pub fn validity(fields: &mut Fields) -> Option<String> {
    let raw = last_table(fields)?;
    let answer = match raw::held(&raw) {
        Some(table) => answer::of_slot_result(table.check_validity()),
        None => NOT_HELD,
    };
    Some(answer.to_string())
}

/// WR: writing a raw table into a buffer of the given length. Order: 30, validity, 32.
pub fn write_table(fields: &mut Fields) -> Option<String> {
    let length = fields.u32()? as usize;
    let raw = last_table(fields)?;
    if length > MAX_BODY {
        return None;
    }
    let written = match raw::held(&raw) {
        Some(table) => encode_voter_slot_table(&table).map_err(answer::of_slot_error),
        None => Err(NOT_HELD),
    };
    Some(match written {
        Ok(bytes) if bytes.len() > length => format!("{BUFFER_TOO_SHORT} 0 0"),
        Ok(bytes) => format!("{ACCEPTED} {} {}", bytes.len(), crc32(&bytes)),
        Err(number) => format!("{number} 0 0"),
    })
}

/// SC: the successor check, new table against old.
pub fn successor(fields: &mut Fields) -> Option<String> {
    let new = raw::from_sparse(fields)?;
    let old = last_table(fields)?;
    let answer = match (raw::held(&new), raw::held(&old)) {
        (Some(new), Some(old)) => answer::of_slot_result(new.validate_successor_of(&old)),
        _ => NOT_HELD,
    };
    Some(answer.to_string())
}

/// RT: the retired test. An id that the original's type cannot hold cannot be read: no.
pub fn retired(fields: &mut Fields) -> Option<String> {
    let node = fields.u64()?;
    let raw = last_table(fields)?;
    let Some(table) = raw::held(&raw) else {
        return Some(NOT_HELD.to_string());
    };
    Some(yes_or_no(
        call::held_node(node).is_some_and(|node| table.is_retired(node)),
    ))
}

/// CM and OV: a call on a raw table, and the table returned.
pub fn called(fields: &mut Fields, observation: bool) -> Option<String> {
    let mark = fields.array()?;
    let body = Body::read(mark, fields.sized()?)?;
    if matches!(body, Body::Observation(_)) != observation {
        return None;
    }
    let raw = last_table(fields)?;
    let (answer, table) = call_on(raw::held(&raw), &body);
    let after = table.map_or(raw, |table| raw::of_table(&table).bytes);
    Some(format!(
        "{answer} {} {}",
        raw::revision(&after),
        crc32(&after)
    ))
}

/// The answer, and the table returned where the given one could be held.
fn call_on(table: Option<VoterSlotTable>, body: &Body) -> (u8, Option<VoterSlotTable>) {
    match (call::held(body), table) {
        (Err(Refusal::Reader(number)), table) => (number, table),
        (_, None) => (NOT_HELD, None),
        (Err(refusal), table) => (refusal.number(), table),
        (Ok(call), Some(mut table)) => (call::run(&call, &mut table), Some(table)),
    }
}

/// The raw table at the end of a body.
fn last_table(fields: &mut Fields) -> Option<Vec<u8>> {
    let raw = raw::from_sparse(fields)?;
    fields.end().map(|()| raw)
}
