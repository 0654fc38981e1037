//! Table and attestation bytes as the original writes them, but of invalid tables too: the
//! original's own writers refuse those. A test holds this writer against the original's.

use original::{
    LostVoterAttestationV1, VoterConfiguration, VoterReplacementRecord, VoterReplacementResult,
    VoterSlotLogId, VoterSlotMember, VoterSlotRecord, VoterSlotTable,
};

use crate::layout::{Layout, Nature};

pub fn table(table: &VoterSlotTable) -> Layout {
    let mut out = Layout::default();
    out.digest(b"OPVI");
    out.number16(1);
    out.digest(table.cluster_instance.as_bytes());
    out.digest(&table.manifest_digest);
    out.number64(table.revision);
    out.number64(table.configuration_epoch.get());
    out.count(table.slots.len());
    for slot in &table.slots {
        put_slot(&mut out, slot);
    }
    out.flag(table.replacement.is_some());
    if let Some(operation) = &table.replacement {
        put_operation(&mut out, operation);
    }
    out
}

pub fn attestation(claims: &LostVoterAttestationV1) -> Layout {
    let mut out = Layout::default();
    out.number16(1);
    out.digest(claims.request_id.as_bytes());
    out.digest(&claims.request_digest);
    out.digest(claims.cluster_instance.as_bytes());
    out.number16(claims.slot.get());
    out.number64(claims.expected_incarnation.get());
    out.digest(&claims.old_descriptor_digest);
    out.digest(&claims.candidate_key_digest);
    out.number64(claims.admission_generation);
    out.text(&claims.candidate_spiffe_id);
    out.text(&claims.controller_spiffe_id);
    out.digest(&claims.signing_key_digest);
    out.number8(claims.reason as u8);
    out.digest(&claims.policy_digest);
    out.number64(claims.observation_start_ms);
    out.number64(claims.decision_ms);
    out.number64(claims.issued_ms);
    out.number64(claims.expires_ms);
    out.digest(&claims.signature);
    out
}

fn put_slot(out: &mut Layout, slot: &VoterSlotRecord) {
    out.number16(slot.member.identity.slot().get());
    out.number64(slot.member.identity.incarnation().get());
    out.number64(slot.retired_through);
    put_binding(out, &slot.member);
    out.number8(slot.phase as u8);
    out.flag(slot.last_result.is_some());
    if let Some(result) = &slot.last_result {
        put_result(out, result);
    }
}

fn put_binding(out: &mut Layout, member: &VoterSlotMember) {
    out.digest(&member.key_digest);
    out.digest(&member.descriptor_digest);
    out.number64(member.admission_generation);
}

fn put_result(out: &mut Layout, result: &VoterReplacementResult) {
    out.digest(result.request_id.as_bytes());
    out.digest(&result.request_digest);
    out.number64(result.incarnation.get());
    out.number64(result.revision);
    out.number64(result.configuration_epoch.get());
    out.number8(result.kind as u8);
    put_cut(out, result.terminal);
}

fn put_cut(out: &mut Layout, cut: VoterSlotLogId) {
    out.number64(cut.term);
    out.number64(cut.index);
}

fn put_operation(out: &mut Layout, operation: &VoterReplacementRecord) {
    out.number64(operation.expected_revision);
    let claims = attestation(&operation.attestation);
    out.put(Nature::Length, &(claims.bytes.len() as u16).to_be_bytes());
    out.append(claims);
    put_configuration(out, &operation.predecessor);
    put_configuration(out, &operation.successor);
    out.number8(operation.phase as u8);
    let evidence = &operation.evidence;
    put_cut(out, evidence.prepare);
    out.flag(evidence.snapshot.is_some());
    if let Some(snapshot) = &evidence.snapshot {
        put_cut(out, snapshot.cut);
        out.text(&snapshot.snapshot_id);
        out.digest(&snapshot.digest);
    }
    let cuts = [
        evidence.learner,
        evidence.caught_up,
        evidence.continuation,
        evidence.fence,
        evidence.joint,
        evidence.uniform,
    ];
    for cut in cuts {
        out.flag(cut.is_some());
        if let Some(cut) = cut {
            put_cut(out, cut);
        }
    }
}

fn put_configuration(out: &mut Layout, configuration: &VoterConfiguration) {
    out.number64(configuration.epoch.get());
    out.count(configuration.members.len());
    for member in &configuration.members {
        out.number16(member.identity.slot().get());
        out.number64(member.identity.incarnation().get());
        put_binding(out, member);
    }
}
