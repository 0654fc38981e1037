//! The port's value in Rust, looked at by reference: the representability check (30), and validity
//! after it. What the port can gain at the most is timed next to it. This may do all that the port
//! may not: no record is copied, whatever is to be zero is looked at as one run of bytes, sixteen
//! at a time from aligned places, and a name that is printable ASCII is looked at once for both
//! tests.

use std::alloc::{alloc_zeroed, handle_alloc_error, Layout};
use std::arch::x86_64::*;

use crate::format::Fields;
use crate::raw::PLACES;
use crate::text;

const MAX_INCARNATION: u64 = 1 << 47;

#[repr(C)]
#[derive(Clone, Copy, PartialEq)]
struct Cut {
    term: u64,
    index: u64,
}

#[repr(C)]
struct OptionalCut {
    is_some: bool,
    cut: Cut,
}

#[repr(C)]
struct Member {
    slot: u16,
    incarnation: u64,
    key_digest: [u8; 32],
    descriptor_digest: [u8; 32],
    admission_generation: u64,
}

#[repr(C)]
struct Receipt {
    request_id: [u8; 16],
    request_digest: [u8; 32],
    incarnation: u64,
    revision: u64,
    epoch: u64,
    kind: u8,
    terminal: Cut,
}

#[repr(C)]
struct Slot {
    member: Member,
    retired_through: u64,
    phase: u8,
    has_last_result: bool,
    last_result: Receipt,
}

#[repr(C)]
struct Text<const SIZE: usize> {
    len: usize,
    bytes: [u8; SIZE],
}

#[repr(C)]
struct Snapshot {
    cut: Cut,
    id: Text<256>,
    digest: [u8; 32],
}

#[repr(C)]
struct Configuration {
    epoch: u64,
    members: [Member; PLACES],
    count: usize,
}

#[repr(C)]
struct Attestation {
    request_id: [u8; 16],
    request_digest: [u8; 32],
    cluster: [u8; 32],
    slot: u16,
    incarnation: u64,
    old_descriptor: [u8; 32],
    candidate_key: [u8; 32],
    generation: u64,
    candidate: Text<2048>,
    controller: Text<2048>,
    signing_key: [u8; 32],
    reason: u8,
    policy: [u8; 32],
    times: [u64; 4],
    signature: [u8; 64],
}

#[repr(C)]
struct Evidence {
    prepare: Cut,
    has_snapshot: bool,
    snapshot: Snapshot,
    learner: OptionalCut,
    caught_up: OptionalCut,
    continuation: OptionalCut,
    fence: OptionalCut,
    joint: OptionalCut,
    uniform: OptionalCut,
}

#[repr(C)]
struct Replacement {
    expected_revision: u64,
    attestation: Attestation,
    predecessor: Configuration,
    successor: Configuration,
    phase: u8,
    evidence: Evidence,
}

#[repr(C)]
pub struct Table {
    cluster: [u8; 32],
    manifest: [u8; 32],
    revision: u64,
    epoch: u64,
    slots: [Slot; PLACES],
    count: usize,
    has_replacement: bool,
    replacement: Replacement,
}

// ---- From the raw form.

/// The value of a raw table; what lies between the fields is zero.
pub fn of_raw(raw: &[u8]) -> Option<Box<Table>> {
    let layout = Layout::new::<Table>();
    // SAFETY: the place is of the table's layout, and zero bytes are a table: numbers, arrays of
    // them and flags. It is filled in where it lies, so that nothing between the fields is written.
    let mut table = unsafe {
        let place = alloc_zeroed(layout);
        if place.is_null() {
            handle_alloc_error(layout);
        }
        Box::from_raw(place.cast::<Table>())
    };
    let from = &mut Fields(raw);
    table.cluster = from.array()?;
    table.manifest = from.array()?;
    table.revision = from.u64()?;
    table.epoch = from.u64()?;
    for slot in &mut table.slots {
        set_member(&mut slot.member, from)?;
        slot.retired_through = from.u64()?;
        slot.phase = from.u8()?;
        slot.has_last_result = from.u8()? == 1;
        set_receipt(&mut slot.last_result, from)?;
    }
    table.count = usize::from(from.u8()?);
    table.has_replacement = from.u8()? == 1;
    let replacement = &mut table.replacement;
    replacement.expected_revision = from.u64()?;
    set_attestation(&mut replacement.attestation, from)?;
    set_configuration(&mut replacement.predecessor, from)?;
    set_configuration(&mut replacement.successor, from)?;
    replacement.phase = from.u8()?;
    set_evidence(&mut replacement.evidence, from)?;
    from.end().map(|()| table)
}

fn set_member(member: &mut Member, from: &mut Fields) -> Option<()> {
    member.slot = from.u16()?;
    member.incarnation = from.u64()?;
    member.key_digest = from.array()?;
    member.descriptor_digest = from.array()?;
    member.admission_generation = from.u64()?;
    Some(())
}

fn set_receipt(receipt: &mut Receipt, from: &mut Fields) -> Option<()> {
    receipt.request_id = from.array()?;
    receipt.request_digest = from.array()?;
    receipt.incarnation = from.u64()?;
    receipt.revision = from.u64()?;
    receipt.epoch = from.u64()?;
    receipt.kind = from.u8()?;
    set_cut(&mut receipt.terminal, from)
}

fn set_cut(cut: &mut Cut, from: &mut Fields) -> Option<()> {
    cut.term = from.u64()?;
    cut.index = from.u64()?;
    Some(())
}

fn set_text<const SIZE: usize>(text: &mut Text<SIZE>, from: &mut Fields) -> Option<()> {
    text.len = usize::from(from.u16()?);
    text.bytes = from.array()?;
    Some(())
}

fn set_attestation(claims: &mut Attestation, from: &mut Fields) -> Option<()> {
    claims.request_id = from.array()?;
    claims.request_digest = from.array()?;
    claims.cluster = from.array()?;
    claims.slot = from.u16()?;
    claims.incarnation = from.u64()?;
    claims.old_descriptor = from.array()?;
    claims.candidate_key = from.array()?;
    claims.generation = from.u64()?;
    set_text(&mut claims.candidate, from)?;
    set_text(&mut claims.controller, from)?;
    claims.signing_key = from.array()?;
    claims.reason = from.u8()?;
    claims.policy = from.array()?;
    for time in &mut claims.times {
        *time = from.u64()?;
    }
    claims.signature = from.array()?;
    Some(())
}

fn set_configuration(configuration: &mut Configuration, from: &mut Fields) -> Option<()> {
    configuration.epoch = from.u64()?;
    for member in &mut configuration.members {
        set_member(member, from)?;
    }
    configuration.count = usize::from(from.u8()?);
    Some(())
}

fn set_evidence(evidence: &mut Evidence, from: &mut Fields) -> Option<()> {
    set_cut(&mut evidence.prepare, from)?;
    evidence.has_snapshot = from.u8()? == 1;
    set_cut(&mut evidence.snapshot.cut, from)?;
    set_text(&mut evidence.snapshot.id, from)?;
    evidence.snapshot.digest = from.array()?;
    for optional in [
        &mut evidence.learner,
        &mut evidence.caught_up,
        &mut evidence.continuation,
        &mut evidence.fence,
        &mut evidence.joint,
        &mut evidence.uniform,
    ] {
        optional.is_some = from.u8()? == 1;
        set_cut(&mut optional.cut, from)?;
    }
    Some(())
}

// ---- Runs of bytes.

/// The bytes of a value, with what lies between its fields, which `of_raw` left zero.
#[inline(always)]
fn bytes_of<T>(values: &[T]) -> &[u8] {
    // SAFETY: every byte was set by `alloc_zeroed`, those between the fields too.
    unsafe { std::slice::from_raw_parts(values.as_ptr().cast(), std::mem::size_of_val(values)) }
}

#[inline(always)]
fn are_zero(bytes: &[u8]) -> bool {
    let count = bytes.len();
    if count < 32 {
        return bytes.iter().fold(0, |all, byte| all | byte) == 0;
    }
    let start = bytes.as_ptr();
    // SAFETY: SSE2 is part of x86-64, and each load ends at or before the last byte.
    unsafe {
        let any = |at: usize| _mm_loadu_si128(start.add(at).cast());
        let aligned = |at: usize| _mm_load_si128(start.add(at).cast());
        let mut all = [any(0), any(count - 16), any(0), any(0)];
        let mut at = 16 - (start as usize & 15);
        while at + 128 <= count {
            for (lane, all) in all.iter_mut().enumerate() {
                *all = _mm_or_si128(*all, aligned(at + 16 * lane));
                *all = _mm_or_si128(*all, aligned(at + 64 + 16 * lane));
            }
            at += 128;
        }
        while at + 16 <= count {
            all[0] = _mm_or_si128(all[0], aligned(at));
            at += 16;
        }
        let all = _mm_or_si128(_mm_or_si128(all[0], all[1]), _mm_or_si128(all[2], all[3]));
        _mm_movemask_epi8(_mm_cmpeq_epi8(all, _mm_setzero_si128())) == 0xFFFF
    }
}

/// Printable ASCII without the space: UTF-8, with no control character and no white space.
#[inline(always)]
fn is_plain(text: &[u8]) -> bool {
    let count = text.len();
    if count < 16 {
        return text.iter().all(|byte| (33..=126).contains(byte));
    }
    let start = text.as_ptr();
    // SAFETY: as above. As signed bytes, those from 128 on are below 33.
    unsafe {
        let bad = |at: usize| {
            let bytes = _mm_loadu_si128(start.add(at).cast());
            _mm_or_si128(
                _mm_cmplt_epi8(bytes, _mm_set1_epi8(33)),
                _mm_cmpeq_epi8(bytes, _mm_set1_epi8(127)),
            )
        };
        let mut any = bad(count - 16);
        let mut at = 0;
        while at + 16 <= count {
            any = _mm_or_si128(any, bad(at));
            at += 16;
        }
        _mm_movemask_epi8(any) == 0
    }
}

// ---- The representability check (30).

/// Whether every text was plain, so that no character of it needs to be looked at again; none where
/// the Rust types cannot hold the table.
#[inline(never)]
pub fn representable(table: &Table) -> Option<bool> {
    if table.epoch < 1 || table.count > PLACES {
        return None;
    }
    let (slots, after) = table.slots.split_at(table.count);
    if !slots.iter().all(slot_is_held) || !are_zero(bytes_of(after)) {
        return None;
    }
    if !table.has_replacement {
        return are_zero(bytes_of(std::slice::from_ref(&table.replacement))).then_some(true);
    }
    replacement_is_held(&table.replacement)
}

#[inline(always)]
fn slot_is_held(slot: &Slot) -> bool {
    let receipt = &slot.last_result;
    member_is_held(&slot.member)
        && slot.phase <= 2
        && if slot.has_last_result {
            is_incarnation(receipt.incarnation) && receipt.epoch >= 1 && receipt.kind <= 1
        } else {
            are_zero(bytes_of(std::slice::from_ref(receipt)))
        }
}

#[inline(always)]
fn member_is_held(member: &Member) -> bool {
    member.slot >= 1 && is_incarnation(member.incarnation)
}

#[inline(always)]
fn is_incarnation(number: u64) -> bool {
    number.wrapping_sub(1) < MAX_INCARNATION
}

#[inline(always)]
fn replacement_is_held(replacement: &Replacement) -> Option<bool> {
    let claims = &replacement.attestation;
    let evidence = &replacement.evidence;
    let cuts = [
        &evidence.learner,
        &evidence.caught_up,
        &evidence.continuation,
        &evidence.fence,
        &evidence.joint,
        &evidence.uniform,
    ];
    let held = claims.slot >= 1
        && is_incarnation(claims.incarnation)
        && (1..=2).contains(&claims.reason)
        && configuration_is_held(&replacement.predecessor)
        && configuration_is_held(&replacement.successor)
        && replacement.phase <= 6
        && cuts
            .into_iter()
            .all(|optional| optional.is_some || optional.cut.term | optional.cut.index == 0);
    if !held {
        return None;
    }
    let candidate = text_is_held(&claims.candidate)?;
    let controller = text_is_held(&claims.controller)?;
    let snapshot = if evidence.has_snapshot {
        text_is_held(&evidence.snapshot.id)?
    } else {
        are_zero(bytes_of(std::slice::from_ref(&evidence.snapshot))).then_some(true)?
    };
    Some(candidate & controller & snapshot)
}

#[inline(always)]
fn configuration_is_held(configuration: &Configuration) -> bool {
    if configuration.epoch < 1 || configuration.count > PLACES {
        return false;
    }
    let (members, after) = configuration.members.split_at(configuration.count);
    members.iter().all(member_is_held) && are_zero(bytes_of(after))
}

/// Whether the text is plain; none where it is not UTF-8 or not zero after its length.
#[inline(always)]
fn text_is_held<const SIZE: usize>(text: &Text<SIZE>) -> Option<bool> {
    let (used, filler) = text.bytes.split_at_checked(text.len)?;
    let plain = is_plain(used);
    ((plain || text::is_utf8(used)) && are_zero(filler)).then_some(plain)
}

// ---- Validity.

/// The number of document 01: 30, or validity's 3 or 6, or 0.
#[inline(never)]
pub fn validate(table: &Table) -> u8 {
    match representable(table) {
        Some(plain) => validity(table, plain),
        None => 30,
    }
}

#[inline(never)]
fn validity(table: &Table, plain: bool) -> u8 {
    if !slots_are_valid(table) {
        return 6;
    }
    let slots = &table.slots[..table.count];
    if !table.has_replacement {
        return if slots.iter().all(|slot| slot.phase == 2) {
            0
        } else {
            6
        };
    }
    if !operation_is_valid(table, plain) {
        return 6;
    }
    validate_members(slots, &table.replacement)
}

#[inline(always)]
fn slots_are_valid(table: &Table) -> bool {
    let slots = &table.slots[..table.count];
    if slots.len().is_multiple_of(2) || table.revision == 0 {
        return false;
    }
    for (index, slot) in slots.iter().enumerate() {
        let before = &slots[..index];
        let rises = before
            .last()
            .is_none_or(|last| last.member.slot < slot.member.slot);
        let same = |other: &Slot| {
            other.has_last_result && other.last_result.request_id == slot.last_result.request_id
        };
        if !rises || !slot_is_valid(table, slot) || slot.has_last_result && before.iter().any(same)
        {
            return false;
        }
    }
    true
}

#[inline(always)]
fn slot_is_valid(table: &Table, slot: &Slot) -> bool {
    let own = slot.member.incarnation;
    let receipt = &slot.last_result;
    let active = table.has_replacement && table.replacement.attestation.slot == slot.member.slot;
    let completed = slot.has_last_result && receipt.incarnation == own && receipt.kind == 0;
    slot.member.admission_generation > 0
        && slot.retired_through == own - 1
        && (active || own <= 1 || completed)
        && (!slot.has_last_result
            || cut_is_valid(receipt.terminal)
                && receipt.revision > 0
                && receipt.revision <= table.revision
                && receipt.epoch <= table.epoch
                && receipt.incarnation > 1
                && receipt.incarnation <= own
                && (!active || receipt.incarnation < own)
                && (receipt.incarnation != own || slot.phase == 2 && receipt.kind == 0))
}

#[inline(always)]
fn cut_is_valid(cut: Cut) -> bool {
    cut.term > 0 && cut.index > 0
}

#[inline(always)]
fn follows(cut: Cut, older: Cut, allow_equal: bool) -> bool {
    if cut.index == older.index {
        return allow_equal && cut == older;
    }
    cut.index > older.index && cut.term >= older.term
}

/// The open request, but for its members. `plain` says that no text has a character that is ruled
/// out.
#[inline(always)]
fn operation_is_valid(table: &Table, plain: bool) -> bool {
    let replacement = &table.replacement;
    let claims = &replacement.attestation;
    let current = if replacement.phase == 6 {
        &replacement.successor
    } else {
        &replacement.predecessor
    };
    name_is_valid(&claims.candidate, plain)
        && name_is_valid(&claims.controller, plain)
        && claims.generation > 0
        && claims.times[0] <= claims.times[1]
        && claims.times[1] <= claims.times[2]
        && claims.times[2] < claims.times[3]
        && configuration_is_valid(&replacement.predecessor)
        && configuration_is_valid(&replacement.successor)
        && evidence_is_valid(&replacement.evidence, replacement.phase, plain)
        && replacement.expected_revision > 0
        && replacement.expected_revision < table.revision
        && claims.cluster == table.cluster
        && table.count >= 3
        && replacement.predecessor.count == table.count
        && replacement.successor.count == table.count
        && replacement.predecessor.epoch.checked_add(1) == Some(replacement.successor.epoch)
        && table.epoch == current.epoch
}

#[inline(always)]
fn name_is_valid(name: &Text<2048>, plain: bool) -> bool {
    let bytes = &name.bytes[..name.len];
    bytes.len() > 9 && bytes.starts_with(b"spiffe://") && (plain || text::is_name(bytes))
}

#[inline(always)]
fn configuration_is_valid(configuration: &Configuration) -> bool {
    let members = &configuration.members[..configuration.count];
    members.len() % 2 == 1
        && members.iter().all(|member| member.admission_generation > 0)
        && members.windows(2).all(|pair| pair[0].slot < pair[1].slot)
}

#[inline(always)]
fn evidence_is_valid(evidence: &Evidence, phase: u8, plain: bool) -> bool {
    let snapshot = OptionalCut {
        is_some: evidence.has_snapshot,
        cut: evidence.snapshot.cut,
    };
    let id = &evidence.snapshot.id;
    if !cut_is_valid(evidence.prepare)
        || snapshot.is_some && !(id.len > 0 && (plain || text::is_snapshot_id(&id.bytes[..id.len])))
    {
        return false;
    }
    let last = &mut { evidence.prepare };
    stage_is_valid(&snapshot, phase >= 1, last, true)
        && stage_is_valid(&evidence.learner, phase >= 2, last, false)
        && stage_is_valid(&evidence.caught_up, phase >= 3, last, false)
        && stage_is_valid(&evidence.fence, phase >= 4, last, false)
        && stage_is_valid(&evidence.joint, phase >= 5, last, false)
        && stage_is_valid(&evidence.uniform, phase >= 6, last, false)
        && (!evidence.continuation.is_some || continuation_is_valid(evidence, &snapshot))
}

#[inline(always)]
fn stage_is_valid(stage: &OptionalCut, due: bool, last: &mut Cut, allow_equal: bool) -> bool {
    if stage.is_some != due {
        return false;
    }
    if stage.is_some {
        if !cut_is_valid(stage.cut) || !follows(stage.cut, *last, allow_equal) {
            return false;
        }
        *last = stage.cut;
    }
    true
}

#[inline(always)]
fn continuation_is_valid(evidence: &Evidence, snapshot: &OptionalCut) -> bool {
    let cut = evidence.continuation.cut;
    let agrees = |other: &OptionalCut, is_snapshot| {
        !other.is_some
            || if cut.index >= other.cut.index {
                follows(cut, other.cut, is_snapshot)
            } else {
                follows(other.cut, cut, false)
            }
    };
    cut_is_valid(cut)
        && follows(cut, evidence.prepare, false)
        && (!evidence.fence.is_some || follows(evidence.fence.cut, cut, false))
        && agrees(snapshot, true)
        && agrees(&evidence.learner, false)
        && agrees(&evidence.caught_up, false)
}

#[inline(always)]
fn validate_members(slots: &[Slot], replacement: &Replacement) -> u8 {
    let claims = &replacement.attestation;
    let mut found = false;
    for (index, slot) in slots.iter().enumerate() {
        let predecessor = &replacement.predecessor.members[index];
        let successor = &replacement.successor.members[index];
        if !is_same(&slot.member, successor) || predecessor.slot != successor.slot {
            return 6;
        }
        if slot.member.slot == claims.slot {
            found = true;
            if claims.incarnation == MAX_INCARNATION {
                return 3;
            }
            if !target_is_valid(replacement, slot, predecessor, successor) {
                return 6;
            }
        } else if !is_same(predecessor, successor) || slot.phase != 2 {
            return 6;
        }
        if slot.has_last_result && slot.last_result.request_id == claims.request_id {
            return 6;
        }
    }
    if found {
        0
    } else {
        6
    }
}

#[inline(always)]
fn is_same(a: &Member, b: &Member) -> bool {
    (a.slot == b.slot)
        & (a.incarnation == b.incarnation)
        & (a.key_digest == b.key_digest)
        & (a.descriptor_digest == b.descriptor_digest)
        & (a.admission_generation == b.admission_generation)
}

#[inline(always)]
fn target_is_valid(
    replacement: &Replacement,
    slot: &Slot,
    predecessor: &Member,
    successor: &Member,
) -> bool {
    let claims = &replacement.attestation;
    let receipt = &slot.last_result;
    let phase = match replacement.phase {
        0 | 1 => 0,
        2..=4 => 1,
        _ => 2,
    };
    successor.incarnation == claims.incarnation + 1
        && predecessor.incarnation <= claims.incarnation
        && successor.admission_generation > predecessor.admission_generation
        && successor.admission_generation == claims.generation
        && successor.key_digest == claims.candidate_key
        && slot.phase == phase
        && if predecessor.incarnation == claims.incarnation {
            predecessor.descriptor_digest == claims.old_descriptor
        } else {
            slot.has_last_result
                && receipt.incarnation == claims.incarnation
                && receipt.kind == 1
                && receipt.terminal == replacement.evidence.prepare
        }
}

#[cfg(test)]
mod tests {
    use super::*;
    use crate::format::{items, Item};
    use crate::generate::generate;
    use crate::{answer, raw};

    /// The answers are those of the original, on generated tables, valid and damaged.
    #[test]
    fn the_originals_answers() {
        let questions = generate(1, 20_000, "validity").expect("a kind of question");
        let mut counts = [0; 31];
        for item in items(&questions) {
            let Item::Whole([b'V', b'T'], body) = item else {
                continue;
            };
            let Some(raw) = raw::from_sparse(&mut Fields(body)) else {
                continue;
            };
            let expected = match raw::held(&raw) {
                Some(table) => answer::of_slot_result(table.check_validity()),
                None => answer::NOT_HELD,
            };
            let table = of_raw(&raw).expect("a raw table");
            assert_eq!(validate(&table), expected);
            counts[usize::from(expected)] += 1;
        }
        assert!(
            [0, 3, 6, 30].iter().all(|&number| counts[number] > 0),
            "{counts:?}"
        );
    }
}
