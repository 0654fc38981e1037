//! The raw form of a table (see FORMAT.md): every field of the port's flat value, of fixed size.
//! Writes it from the original's table, and reads it where the original's types can hold it.

use original::{
    ConsensusClusterId, ConsensusConfigurationEpoch, ConsensusRequestId, LostVoterAttestationV1,
    SlotId, VoterConfiguration, VoterIncarnation, VoterLossReason, VoterReplacementEvidence,
    VoterReplacementPhase, VoterReplacementRecord, VoterReplacementResult,
    VoterReplacementResultKind, VoterSlotIdentity, VoterSlotLogId, VoterSlotMember, VoterSlotPhase,
    VoterSlotRecord, VoterSlotTable, VoterSnapshotEvidence,
};

use crate::format::Fields;
use crate::layout::{Layout, Nature};
use crate::text::{MAX_NAME, MAX_SNAPSHOT_ID};

/// Places for slots and members; the first so many are in use.
pub const PLACES: usize = 9;

pub const MEMBER: usize = 82;
pub const RESULT: usize = 89;
pub const SLOT: usize = MEMBER + 8 + 1 + 1 + RESULT;
pub const ATTESTATION: usize = 4423;
pub const CONFIGURATION: usize = 8 + PLACES * MEMBER + 1;
pub const CUT: usize = 16;
pub const SNAPSHOT: usize = CUT + 2 + MAX_SNAPSHOT_ID + 32;
pub const EVIDENCE: usize = CUT + 1 + SNAPSHOT + 6 * (1 + CUT);
pub const REPLACEMENT: usize = 8 + ATTESTATION + 2 * CONFIGURATION + 1 + EVIDENCE;
pub const TABLE: usize = 80 + PLACES * SLOT + 2 + REPLACEMENT;

const SLOTS_AT: usize = 80;
const COUNT_AT: usize = SLOTS_AT + PLACES * SLOT;
const EVIDENCE_AT: usize = TABLE - EVIDENCE;

/// The revision, wherever the rest of the value stands.
pub fn revision(raw: &[u8]) -> u64 {
    let mut fields = Fields(&raw[64..72]);
    fields.u64().unwrap_or_default()
}

// ---- The sparse form in a question.

/// A raw table from its pieces; `None` where it is not of the form (33).
pub fn from_sparse(fields: &mut Fields) -> Option<Vec<u8>> {
    let mut raw = vec![0; TABLE];
    let mut end = 0;
    for _ in 0..fields.u16()? {
        let at = usize::from(fields.u16()?);
        let piece = fields.sized()?;
        if at < end {
            return None;
        }
        end = at + piece.len();
        raw.get_mut(at..end)?.copy_from_slice(piece);
    }
    flags_are_flags(&raw).then_some(raw)
}

/// A flag is 0 or 1, in absent parts too.
fn flags_are_flags(raw: &[u8]) -> bool {
    let slots = (0..PLACES).map(|index| SLOTS_AT + index * SLOT + MEMBER + 9);
    let cuts = (0..6).map(|index| EVIDENCE_AT + CUT + 1 + SNAPSHOT + index * (1 + CUT));
    let mut flags = slots.chain([COUNT_AT + 1, EVIDENCE_AT + CUT]).chain(cuts);
    flags.all(|at| raw[at] <= 1)
}

/// The pieces that are not zero. A run of up to four zero bytes costs less than a new piece.
pub fn to_sparse(raw: &[u8]) -> Vec<u8> {
    let mut pieces: Vec<(usize, usize)> = Vec::new();
    for (at, _) in raw.iter().enumerate().filter(|(_, byte)| **byte != 0) {
        match pieces.last_mut() {
            Some((_, end)) if at <= *end + 4 => *end = at + 1,
            _ => pieces.push((at, at + 1)),
        }
    }
    let mut out = (pieces.len() as u16).to_be_bytes().to_vec();
    for (at, end) in pieces {
        out.extend((at as u16).to_be_bytes());
        out.extend(((end - at) as u16).to_be_bytes());
        out.extend(&raw[at..end]);
    }
    out
}

// ---- From the original's table.

pub fn of_table(table: &VoterSlotTable) -> Layout {
    let mut out = Layout::default();
    out.digest(table.cluster_instance.as_bytes());
    out.digest(&table.manifest_digest);
    out.number64(table.revision);
    out.number64(table.configuration_epoch.get());
    for index in 0..PLACES {
        let slot = table.slots.get(index);
        out.part(slot.is_some(), |out| put_slot(out, slot));
    }
    out.count(table.slots.len());
    out.flag(table.replacement.is_some());
    let operation = table.replacement.as_ref();
    out.part(operation.is_some(), |out| put_operation(out, operation));
    out
}

pub fn of_attestation(claims: &LostVoterAttestationV1) -> Layout {
    let mut out = Layout::default();
    put_attestation(&mut out, Some(claims));
    out
}

/// Start and end of every field of the raw form, each text with its filler as one field.
pub fn fields() -> Vec<(usize, usize)> {
    let blank = VoterSlotTable {
        cluster_instance: ConsensusClusterId::from_bytes([0; 32]),
        manifest_digest: [0; 32],
        revision: 0,
        configuration_epoch: ConsensusConfigurationEpoch::new(1).expect("epoch 1"),
        slots: Vec::new(),
        replacement: None,
    };
    let fields = of_table(&blank).fields.into_iter();
    fields
        .map(|field| (field.at, field.at + field.size))
        .collect()
}

fn put_slot(out: &mut Layout, slot: Option<&VoterSlotRecord>) {
    put_member(out, slot.map(|slot| &slot.member));
    out.number64(slot.map_or(0, |slot| slot.retired_through));
    out.number8(slot.map_or(0, |slot| slot.phase as u8));
    let result = slot.and_then(|slot| slot.last_result.as_ref());
    out.flag(result.is_some());
    out.part(result.is_some(), |out| put_result(out, result));
}

fn put_member(out: &mut Layout, member: Option<&VoterSlotMember>) {
    out.number16(member.map_or(0, |member| member.identity.slot().get()));
    out.number64(member.map_or(0, |member| member.identity.incarnation().get()));
    out.digest(&member.map_or([0; 32], |member| member.key_digest));
    out.digest(&member.map_or([0; 32], |member| member.descriptor_digest));
    out.number64(member.map_or(0, |member| member.admission_generation));
}

fn put_result(out: &mut Layout, result: Option<&VoterReplacementResult>) {
    out.digest(&result.map_or([0; 16], |result| *result.request_id.as_bytes()));
    out.digest(&result.map_or([0; 32], |result| result.request_digest));
    out.number64(result.map_or(0, |result| result.incarnation.get()));
    out.number64(result.map_or(0, |result| result.revision));
    out.number64(result.map_or(0, |result| result.configuration_epoch.get()));
    out.number8(result.map_or(0, |result| result.kind as u8));
    put_cut(out, result.map(|result| result.terminal));
}

fn put_cut(out: &mut Layout, cut: Option<VoterSlotLogId>) {
    out.number64(cut.map_or(0, |cut| cut.term));
    out.number64(cut.map_or(0, |cut| cut.index));
}

fn put_operation(out: &mut Layout, operation: Option<&VoterReplacementRecord>) {
    out.number64(operation.map_or(0, |operation| operation.expected_revision));
    put_attestation(out, operation.map(|operation| &operation.attestation));
    put_configuration(out, operation.map(|operation| &operation.predecessor));
    put_configuration(out, operation.map(|operation| &operation.successor));
    out.number8(operation.map_or(0, |operation| operation.phase as u8));
    put_evidence(out, operation.map(|operation| &operation.evidence));
}

fn put_attestation(out: &mut Layout, claims: Option<&LostVoterAttestationV1>) {
    out.digest(&claims.map_or([0; 16], |claims| *claims.request_id.as_bytes()));
    out.digest(&claims.map_or([0; 32], |claims| claims.request_digest));
    out.digest(&claims.map_or([0; 32], |claims| *claims.cluster_instance.as_bytes()));
    out.number16(claims.map_or(0, |claims| claims.slot.get()));
    out.number64(claims.map_or(0, |claims| claims.expected_incarnation.get()));
    out.digest(&claims.map_or([0; 32], |claims| claims.old_descriptor_digest));
    out.digest(&claims.map_or([0; 32], |claims| claims.candidate_key_digest));
    out.number64(claims.map_or(0, |claims| claims.admission_generation));
    put_text(
        out,
        claims.map_or("", |claims| &claims.candidate_spiffe_id),
        MAX_NAME,
    );
    put_text(
        out,
        claims.map_or("", |claims| &claims.controller_spiffe_id),
        MAX_NAME,
    );
    out.digest(&claims.map_or([0; 32], |claims| claims.signing_key_digest));
    out.number8(claims.map_or(0, |claims| claims.reason as u8));
    out.digest(&claims.map_or([0; 32], |claims| claims.policy_digest));
    out.number64(claims.map_or(0, |claims| claims.observation_start_ms));
    out.number64(claims.map_or(0, |claims| claims.decision_ms));
    out.number64(claims.map_or(0, |claims| claims.issued_ms));
    out.number64(claims.map_or(0, |claims| claims.expires_ms));
    out.digest(&claims.map_or([0; 64], |claims| claims.signature));
}

/// Text with its length, zero after it.
fn put_text(out: &mut Layout, text: &str, size: usize) {
    out.text(text);
    out.part(false, |out| {
        out.put(Nature::Text, &vec![0; size - text.len()])
    });
}

fn put_configuration(out: &mut Layout, configuration: Option<&VoterConfiguration>) {
    let members = configuration.map_or(&[][..], |configuration| &configuration.members);
    out.number64(configuration.map_or(0, |configuration| configuration.epoch.get()));
    for index in 0..PLACES {
        let member = members.get(index);
        out.part(member.is_some(), |out| put_member(out, member));
    }
    out.count(members.len());
}

fn put_evidence(out: &mut Layout, evidence: Option<&VoterReplacementEvidence>) {
    put_cut(out, evidence.map(|evidence| evidence.prepare));
    let snapshot = evidence.and_then(|evidence| evidence.snapshot.as_ref());
    out.flag(snapshot.is_some());
    out.part(snapshot.is_some(), |out| {
        put_cut(out, snapshot.map(|snapshot| snapshot.cut));
        put_text(
            out,
            snapshot.map_or("", |snapshot| &snapshot.snapshot_id),
            MAX_SNAPSHOT_ID,
        );
        out.digest(&snapshot.map_or([0; 32], |snapshot| snapshot.digest));
    });
    let cuts = evidence.map_or([None; 6], |evidence| {
        [
            evidence.learner,
            evidence.caught_up,
            evidence.continuation,
            evidence.fence,
            evidence.joint,
            evidence.uniform,
        ]
    });
    for cut in cuts {
        out.flag(cut.is_some());
        out.part(cut.is_some(), |out| put_cut(out, cut));
    }
}

// ---- To the original's table.

/// The raw value as the original's table; `None` where its types cannot hold it or filler is not
/// zero (30).
pub fn held(raw: &[u8]) -> Option<VoterSlotTable> {
    let mut fields = Fields(raw);
    let cluster_instance = ConsensusClusterId::from_bytes(fields.array()?);
    let manifest_digest = fields.array()?;
    let revision = fields.u64()?;
    let configuration_epoch = epoch(&mut fields)?;
    let slots = fields.take(PLACES * SLOT)?;
    let slots = places(slots, SLOT, fields.u8()?, slot)?;
    let replacement = optional(&mut fields, REPLACEMENT, operation)?;
    Some(VoterSlotTable {
        cluster_instance,
        manifest_digest,
        revision,
        configuration_epoch,
        slots,
        replacement,
    })
}

fn is_zero(bytes: &[u8]) -> bool {
    bytes.iter().all(|byte| *byte == 0)
}

/// The first `count` places read, all others zero.
fn places<T>(
    bytes: &[u8],
    size: usize,
    count: u8,
    read: impl Fn(&mut Fields) -> Option<T>,
) -> Option<Vec<T>> {
    let count = usize::from(count);
    if count > PLACES {
        return None;
    }
    let (used, filler) = bytes.split_at(count * size);
    if !is_zero(filler) {
        return None;
    }
    used.chunks_exact(size)
        .map(|place| read(&mut Fields(place)))
        .collect()
}

/// A flag and the part after it: read where it is present, zero where it is absent.
fn optional<T>(
    fields: &mut Fields,
    size: usize,
    read: impl Fn(&mut Fields) -> Option<T>,
) -> Option<Option<T>> {
    let present = fields.u8()? == 1;
    let part = fields.take(size)?;
    if present {
        return read(&mut Fields(part)).map(Some);
    }
    is_zero(part).then_some(None)
}

fn epoch(fields: &mut Fields) -> Option<ConsensusConfigurationEpoch> {
    ConsensusConfigurationEpoch::new(fields.u64()?).ok()
}

fn slot_id(fields: &mut Fields) -> Option<SlotId> {
    SlotId::new(fields.u16()?).ok()
}

fn incarnation(fields: &mut Fields) -> Option<VoterIncarnation> {
    VoterIncarnation::new(fields.u64()?).ok()
}

fn cut(fields: &mut Fields) -> Option<VoterSlotLogId> {
    Some(VoterSlotLogId {
        term: fields.u64()?,
        index: fields.u64()?,
    })
}

/// Text of at most `size` bytes, which must be UTF-8, zero after it.
fn text(fields: &mut Fields, size: usize) -> Option<String> {
    let length = usize::from(fields.u16()?);
    let (text, filler) = fields.take(size)?.split_at_checked(length)?;
    if !is_zero(filler) {
        return None;
    }
    std::str::from_utf8(text).ok().map(str::to_owned)
}

fn member(fields: &mut Fields) -> Option<VoterSlotMember> {
    Some(VoterSlotMember {
        identity: VoterSlotIdentity::new(slot_id(fields)?, incarnation(fields)?),
        key_digest: fields.array()?,
        descriptor_digest: fields.array()?,
        admission_generation: fields.u64()?,
    })
}

fn slot(fields: &mut Fields) -> Option<VoterSlotRecord> {
    Some(VoterSlotRecord {
        member: member(fields)?,
        retired_through: fields.u64()?,
        phase: slot_phase(fields.u8()?)?,
        last_result: optional(fields, RESULT, result)?,
    })
}

fn slot_phase(number: u8) -> Option<VoterSlotPhase> {
    use VoterSlotPhase::*;
    [Pending, CatchingUp, Voting]
        .get(usize::from(number))
        .copied()
}

fn result(fields: &mut Fields) -> Option<VoterReplacementResult> {
    Some(VoterReplacementResult {
        request_id: ConsensusRequestId::from_bytes(fields.array()?),
        request_digest: fields.array()?,
        incarnation: incarnation(fields)?,
        revision: fields.u64()?,
        configuration_epoch: epoch(fields)?,
        kind: result_kind(fields.u8()?)?,
        terminal: cut(fields)?,
    })
}

fn result_kind(number: u8) -> Option<VoterReplacementResultKind> {
    use VoterReplacementResultKind::*;
    [Completed, Superseded].get(usize::from(number)).copied()
}

fn operation(fields: &mut Fields) -> Option<VoterReplacementRecord> {
    Some(VoterReplacementRecord {
        expected_revision: fields.u64()?,
        attestation: attestation(fields)?,
        predecessor: configuration(fields)?,
        successor: configuration(fields)?,
        phase: replacement_phase(fields.u8()?)?,
        evidence: evidence(fields)?,
    })
}

fn replacement_phase(number: u8) -> Option<VoterReplacementPhase> {
    use VoterReplacementPhase::*;
    let phases = [
        Prepared,
        SnapshotInstalled,
        LearnerAdded,
        CaughtUp,
        Fenced,
        Joint,
        Uniform,
    ];
    phases.get(usize::from(number)).copied()
}

fn attestation(fields: &mut Fields) -> Option<LostVoterAttestationV1> {
    Some(LostVoterAttestationV1 {
        request_id: ConsensusRequestId::from_bytes(fields.array()?),
        request_digest: fields.array()?,
        cluster_instance: ConsensusClusterId::from_bytes(fields.array()?),
        slot: slot_id(fields)?,
        expected_incarnation: incarnation(fields)?,
        old_descriptor_digest: fields.array()?,
        candidate_key_digest: fields.array()?,
        admission_generation: fields.u64()?,
        candidate_spiffe_id: text(fields, MAX_NAME)?,
        controller_spiffe_id: text(fields, MAX_NAME)?,
        signing_key_digest: fields.array()?,
        reason: loss_reason(fields.u8()?)?,
        policy_digest: fields.array()?,
        observation_start_ms: fields.u64()?,
        decision_ms: fields.u64()?,
        issued_ms: fields.u64()?,
        expires_ms: fields.u64()?,
        signature: fields.array()?,
    })
}

fn loss_reason(number: u8) -> Option<VoterLossReason> {
    match number {
        1 => Some(VoterLossReason::StorageLost),
        2 => Some(VoterLossReason::TimeBoundLoss),
        _ => None,
    }
}

fn configuration(fields: &mut Fields) -> Option<VoterConfiguration> {
    let epoch = epoch(fields)?;
    let members = fields.take(PLACES * MEMBER)?;
    let members = places(members, MEMBER, fields.u8()?, member)?;
    Some(VoterConfiguration { epoch, members })
}

fn evidence(fields: &mut Fields) -> Option<VoterReplacementEvidence> {
    Some(VoterReplacementEvidence {
        prepare: cut(fields)?,
        snapshot: optional(fields, SNAPSHOT, snapshot)?,
        learner: optional(fields, CUT, cut)?,
        caught_up: optional(fields, CUT, cut)?,
        continuation: optional(fields, CUT, cut)?,
        fence: optional(fields, CUT, cut)?,
        joint: optional(fields, CUT, cut)?,
        uniform: optional(fields, CUT, cut)?,
    })
}

fn snapshot(fields: &mut Fields) -> Option<VoterSnapshotEvidence> {
    Some(VoterSnapshotEvidence {
        cut: cut(fields)?,
        snapshot_id: text(fields, MAX_SNAPSHOT_ID)?,
        digest: fields.array()?,
    })
}
