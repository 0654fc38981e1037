//! Fixed tables and records, with nothing random in them: for the tests of readings and the bench.
//! The names of requests are single numbers: request 1 has the id and digest of ones.

use original::{
    ConsensusClusterId, ConsensusConfigurationEpoch, ConsensusRequestId, LostVoterAttestationV1,
    SlotId, VoterIncarnation, VoterReplacementPhase, VoterReplacementRecord,
    VoterReplacementResult, VoterReplacementResultKind, VoterSlotIdentity, VoterSlotLogId,
    VoterSlotMember, VoterSlotPhase, VoterSlotRecord, VoterSlotTable,
};

use crate::record::{Advance, Begin, Body, Candidate, Cut, Marker, Observation, Step};
use crate::text::attestation_of;
use crate::{call, wire};

pub const CLUSTER: [u8; 32] = [3; 32];

/// A valid table with no request open: slots 1 to `count`, all in their first incarnation.
pub fn idle(count: u16) -> VoterSlotTable {
    VoterSlotTable {
        cluster_instance: ConsensusClusterId::from_bytes(CLUSTER),
        manifest_digest: [9; 32],
        revision: 1,
        configuration_epoch: ConsensusConfigurationEpoch::new(1).expect("epoch 1"),
        slots: (1..=count).map(first_incarnation).collect(),
        replacement: None,
    }
}

fn first_incarnation(number: u16) -> VoterSlotRecord {
    VoterSlotRecord {
        member: VoterSlotMember {
            identity: identity(number, 1),
            key_digest: [number as u8; 32],
            descriptor_digest: [100 + number as u8; 32],
            admission_generation: 1,
        },
        retired_through: 0,
        phase: VoterSlotPhase::Voting,
        last_result: None,
    }
}

pub fn identity(slot: u16, incarnation: u64) -> VoterSlotIdentity {
    VoterSlotIdentity::new(
        SlotId::new(slot).expect("a slot above 0"),
        VoterIncarnation::new(incarnation).expect("an incarnation within its limits"),
    )
}

pub fn cut(term: u64, index: u64) -> Cut {
    Cut { term, index }
}

pub fn request_id(request: u8) -> [u8; 16] {
    [request; 16]
}

pub fn request_digest(request: u8) -> [u8; 32] {
    [request; 32]
}

/// A Begin of this request that fits the table, for the slot with this number.
pub fn begin(table: &VoterSlotTable, slot: u16, request: u8, cut: Cut) -> Begin {
    let claims = claims(table, slot, request);
    Begin {
        cut,
        expected_revision: table.revision,
        expected_cluster: CLUSTER,
        configuration_id: [0x55; 32],
        epoch: table.current_configuration().epoch.get(),
        candidate: Candidate {
            slot,
            incarnation: claims.expected_incarnation.get() + 1,
            key_digest: claims.candidate_key_digest,
            descriptor_digest: [200 + request; 32],
            admission_generation: claims.admission_generation,
        },
        attestation: wire::attestation(&claims).bytes,
        supplied_digest: request_digest(request),
        supplied_configuration_id: [0x55; 32],
    }
}

/// The attestation of such a Begin.
pub fn claims(table: &VoterSlotTable, slot: u16, request: u8) -> LostVoterAttestationV1 {
    let number = SlotId::new(slot).expect("a slot above 0");
    let found = table
        .slots
        .iter()
        .find(|record| record.member.identity.slot() == number);
    let member = &found.unwrap_or(&table.slots[0]).member;
    LostVoterAttestationV1 {
        request_id: ConsensusRequestId::from_bytes(request_id(request)),
        request_digest: request_digest(request),
        cluster_instance: ConsensusClusterId::from_bytes(CLUSTER),
        slot: number,
        expected_incarnation: member.identity.incarnation(),
        old_descriptor_digest: member.descriptor_digest,
        candidate_key_digest: [50 + request; 32],
        admission_generation: member.admission_generation + 1,
        controller_spiffe_id: name(40),
        ..attestation_of(name(40))
    }
}

pub fn marker(request: u8, cut: Cut) -> Body {
    Body::Marker(Marker {
        cut,
        request_id: request_id(request),
        request_digest: request_digest(request),
    })
}

pub fn advance(request: u8, cut: Cut, step: Step) -> Body {
    Body::Advance(Advance {
        cut,
        request_id: request_id(request),
        request_digest: request_digest(request),
        step,
    })
}

pub fn snapshot(cut: Cut) -> Step {
    Step::Snapshot {
        cut,
        id: b"snapshot".to_vec(),
        digest: [0x5A; 32],
    }
}

pub fn observation(cut: Cut, sets: &[&[u64]], nodes: &[u64]) -> Body {
    let sets = sets.iter().map(|set| set.to_vec()).collect();
    Body::Observation(Observation {
        cut,
        sets,
        nodes: nodes.to_vec(),
    })
}

/// Plays a record on the table and gives its answer.
pub fn play(table: &mut VoterSlotTable, body: &Body) -> u8 {
    match call::held(body) {
        Ok(call) => call::run(&call, table),
        Err(refusal) => refusal.number(),
    }
}

/// The records that take a replacement of slot 2 under `request` from an idle table (all slots in
/// their first incarnation) to its end, in order: Begin, snapshot, learner, caught up, fence,
/// joint, uniform, finalize. The first stands at index `from`, in term 2.
pub fn replacement(table: &VoterSlotTable, request: u8, from: u64) -> [Body; 8] {
    let at = |step: u64| cut(2, from + 2 * step);
    let old: Vec<u64> = (1..=table.slots.len() as u64).collect();
    let candidate = identity(2, 2).node_id().get();
    let mut new: Vec<u64> = old.iter().copied().filter(|id| *id != 2).collect();
    new.push(candidate);
    let union = [&old[..], &[candidate]].concat();
    [
        Body::Begin(begin(table, 2, request, at(0))),
        advance(request, at(1), snapshot(at(0))),
        observation(at(2), &[&old], &union),
        advance(request, at(4), Step::CaughtUp(at(3))),
        advance(request, at(5), Step::Fence),
        observation(at(6), &[&old, &new], &union),
        observation(at(7), &[&new], &new),
        advance(request, at(8), Step::Finalize),
    ]
}

/// A table with request 1 open on slot 2 in this phase; it began at (2, 10). Its names have 40
/// bytes.
pub fn open(count: u16, phase: VoterReplacementPhase) -> VoterSlotTable {
    let mut table = idle(count);
    for body in &replacement(&table.clone(), 1, 10)[..=phase as usize] {
        assert_eq!(play(&mut table, body), 0, "a record of a replacement");
    }
    table
}

/// A table as most are: three slots, a request open, names of 40 bytes.
pub fn typical() -> VoterSlotTable {
    open(3, VoterReplacementPhase::CaughtUp)
}

/// The table of the most bytes.
pub fn largest() -> VoterSlotTable {
    full(9, 2048, 256)
}

/// A table in which every part is present: a receipt in each slot, an open request, all evidence.
pub fn full(count: u16, name: usize, snapshot_id: usize) -> VoterSlotTable {
    let mut table = open(count, VoterReplacementPhase::Uniform);
    for slot in &mut table.slots {
        slot.last_result = Some(receipt(slot.member.identity.slot().get()));
        slot.retired_through += 1;
        next_incarnation(&mut slot.member);
    }
    if let Some(operation) = &mut table.replacement {
        let configurations = [&mut operation.predecessor, &mut operation.successor];
        for member in configurations.into_iter().flat_map(|c| &mut c.members) {
            next_incarnation(member);
        }
        let attested = &mut operation.attestation.expected_incarnation;
        *attested = attested.next().expect("a next incarnation");
        set_names(operation, name);
        if let Some(snapshot) = &mut operation.evidence.snapshot {
            snapshot.snapshot_id = "s".repeat(snapshot_id);
        }
        operation.evidence.continuation = Some(VoterSlotLogId { term: 2, index: 12 });
    }
    table
}

fn set_names(operation: &mut VoterReplacementRecord, length: usize) {
    let name = name(length);
    operation.attestation.candidate_spiffe_id = name.clone();
    operation.attestation.controller_spiffe_id = name;
}

/// A name of so many bytes.
fn name(length: usize) -> String {
    format!("{:x<length$}", "spiffe://")
}

fn next_incarnation(member: &mut VoterSlotMember) {
    let incarnation = member.identity.incarnation().get();
    member.identity = identity(member.identity.slot().get(), incarnation + 1);
}

/// The receipt of a slot's first replacement, with a request id of its own.
fn receipt(slot: u16) -> VoterReplacementResult {
    VoterReplacementResult {
        request_id: ConsensusRequestId::from_bytes(request_id(0x80 + slot as u8)),
        request_digest: request_digest(0x80 + slot as u8),
        incarnation: VoterIncarnation::new(2).expect("incarnation 2"),
        revision: 1,
        configuration_epoch: ConsensusConfigurationEpoch::new(1).expect("epoch 1"),
        kind: VoterReplacementResultKind::Completed,
        terminal: VoterSlotLogId { term: 1, index: 5 },
    }
}
