//! `oracle cases`: one line for each question of a file, decided by the original functions wherever
//! its types can hold the values and by document 01 elsewhere.

use original::{ConsensusConfigurationEpoch, SlotId, VoterIncarnation, VoterSlotIdentity};

use crate::answer::{self, BAD_FORM, INVALID_INCARNATION, INVALID_SLOT};
use crate::call::held_node;
use crate::format::{self, Fields, Item, Mark};
use crate::{table_cases, text};

/// The first line of every file of answers.
pub const HEADLINE: &str = "cases 1\n";

/// All answers to a file of questions.
pub fn answers(file: &[u8]) -> String {
    let mut lines = HEADLINE.to_owned();
    for (index, item) in format::items(file).into_iter().enumerate() {
        let (mark, answer) = match item {
            Item::Whole(mark, body) => (mark, answer(mark, body)),
            Item::CutShort(mark) => (mark.unwrap_or_default(), BAD_FORM.to_string()),
        };
        lines += &format!("{} {} {answer}\n", index + 1, format::mark_text(mark));
    }
    lines
}

/// The answer to one question; 33 where the body is not of its mark's form.
pub fn answer(mark: Mark, body: &[u8]) -> String {
    let mut fields = Fields(body);
    asked(mark, &mut fields).unwrap_or_else(|| BAD_FORM.to_string())
}

fn asked(mark: Mark, fields: &mut Fields) -> Option<String> {
    match &mark {
        b"U8" => Some(yes_or_no(text::is_utf8(fields.0))),
        b"NM" => Some(yes_or_no(text::is_name(fields.0))),
        b"SI" => Some(yes_or_no(text::is_snapshot_id(fields.0))),
        b"SN" => Some(yes_or_no(text::is_strict_name(fields.0))),
        b"CC" => last_u32(fields).map(|number| yes_or_no(text::is_control(number))),
        b"WS" => last_u32(fields).map(|number| yes_or_no(text::is_white_space(number))),
        b"SL" => slot(fields),
        b"IN" => last_u64(fields).map(|number| incarnation(number).to_string()),
        b"NX" => last_u64(fields).map(next_incarnation),
        b"EP" => last_u64(fields).map(|number| yes_or_no(is_epoch(number))),
        b"ND" => node_of(fields),
        b"ID" => last_u64(fields).map(identity_of),
        b"TR" => Some(table_cases::read_table(fields.0)),
        b"AR" => Some(table_cases::read_attestation(fields.0)),
        b"VT" => table_cases::validity(fields),
        b"WR" => table_cases::write_table(fields),
        b"SC" => table_cases::successor(fields),
        b"RT" => table_cases::retired(fields),
        b"CM" => table_cases::called(fields, false),
        b"OV" => table_cases::called(fields, true),
        _ => None,
    }
}

pub fn yes_or_no(yes: bool) -> String {
    if yes { "yes" } else { "no" }.to_owned()
}

fn last_u32(fields: &mut Fields) -> Option<u32> {
    let number = fields.u32()?;
    fields.end().map(|()| number)
}

fn last_u64(fields: &mut Fields) -> Option<u64> {
    let number = fields.u64()?;
    fields.end().map(|()| number)
}

fn slot(fields: &mut Fields) -> Option<String> {
    let number = fields.u16()?;
    fields.end()?;
    Some(answer::of_slot_result(SlotId::new(number).map(drop)).to_string())
}

fn incarnation(number: u64) -> u8 {
    answer::of_slot_result(VoterIncarnation::new(number).map(drop))
}

fn next_incarnation(number: u64) -> String {
    match VoterIncarnation::new(number).and_then(VoterIncarnation::next) {
        Ok(next) => format!("0 {}", next.get()),
        Err(error) => format!("{} 0", answer::of_slot_error(error)),
    }
}

fn is_epoch(number: u64) -> bool {
    ConsensusConfigurationEpoch::new(number).is_ok()
}

fn node_of(fields: &mut Fields) -> Option<String> {
    let (slot, incarnation) = (fields.u16()?, fields.u64()?);
    fields.end()?;
    let identity = SlotId::new(slot).and_then(|slot| {
        Ok(VoterSlotIdentity::new(
            slot,
            VoterIncarnation::new(incarnation)?,
        ))
    });
    Some(match identity {
        Ok(identity) => format!("0 {}", identity.node_id().get()),
        Err(error) => format!("{} 0", answer::of_slot_error(error)),
    })
}

/// Reading a node id. The original's type holds ids below 2^63; above it document 01 decides:
/// the slot first, then the incarnation, which is past 2^47 there.
fn identity_of(number: u64) -> String {
    let Some(node) = held_node(number) else {
        let refusal = if number & 0xFFFF == 0 {
            INVALID_SLOT
        } else {
            INVALID_INCARNATION
        };
        return format!("{refusal} 0 0");
    };
    match VoterSlotIdentity::from_node_id(node) {
        Ok(identity) => format!(
            "0 {} {}",
            identity.slot().get(),
            identity.incarnation().get()
        ),
        Err(error) => format!("{} 0 0", answer::of_slot_error(error)),
    }
}
