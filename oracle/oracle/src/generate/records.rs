//! The record that takes a table's request a step further.
//! A line that is given nothing else goes from Begin to Finalize.

use original::{ConsensusClusterId, ConsensusRequestId};
use original::{
    LostVoterAttestationV1, VoterLossReason, VoterReplacementPhase, VoterReplacementRecord,
    VoterSlotRecord, VoterSlotTable, MAX_VOTER_INCARNATION,
};

use super::observations::observation_of_next;
use super::random::Random;
use super::tables::{digest, request_id};
use crate::fixed::filled;
use crate::record::{Advance, Begin, Body, Candidate, Cut, Marker, Step};
use crate::wire;

/// The record that the table's request needs next; with none open a Begin, or an observation where
/// too few slots stand.
pub fn right(random: &mut Random, table: &VoterSlotTable, cut: Cut) -> Body {
    use VoterReplacementPhase::*;
    let Some(operation) = &table.replacement else {
        return right_without_request(random, table, cut);
    };
    if operation.phase < Fenced && operation.evidence.continuation.is_none() && random.chance(8) {
        return advance(operation, cut, Step::Continuation);
    }
    match operation.phase {
        Prepared => advance(operation, cut, snapshot_step(random, operation, cut)),
        SnapshotInstalled | Fenced | Joint => observation_of_next(table, cut),
        LearnerAdded => {
            if random.chance(25) {
                return marker(operation, cut);
            }
            advance(operation, cut, caught_up_step(random, cut))
        }
        // A fence needs a mark of its own term; now and then it comes without.
        CaughtUp if mark_of_another_term(operation, cut) && random.chance(70) => {
            advance(operation, cut, caught_up_step(random, cut))
        }
        CaughtUp => advance(operation, cut, Step::Fence),
        Uniform => advance(operation, cut, Step::Finalize),
    }
}

fn mark_of_another_term(operation: &VoterReplacementRecord, cut: Cut) -> bool {
    let mark = operation.evidence.caught_up;
    mark.is_some_and(|mark| mark.term != cut.term)
}

fn right_without_request(random: &mut Random, table: &VoterSlotTable, cut: Cut) -> Body {
    if random.chance(10) {
        return observation_of_next(table, cut);
    }
    let slot = &table.slots[random.below(table.slots.len())];
    begin(random, table, slot, cut)
}

fn marker(operation: &VoterReplacementRecord, cut: Cut) -> Body {
    Body::Marker(Marker {
        cut,
        request_id: *operation.attestation.request_id.as_bytes(),
        request_digest: operation.attestation.request_digest,
    })
}

fn advance(operation: &VoterReplacementRecord, cut: Cut, step: Step) -> Body {
    Body::Advance(Advance {
        cut,
        request_id: *operation.attestation.request_id.as_bytes(),
        request_digest: operation.attestation.request_digest,
        step,
    })
}

/// A snapshot at prepare's cut or between it and the command's.
fn snapshot_step(random: &mut Random, operation: &VoterReplacementRecord, cut: Cut) -> Step {
    let prepare = operation.evidence.prepare;
    let between = Cut {
        term: prepare.term,
        index: cut.index.saturating_sub(1),
    };
    let at_prepare = Cut {
        term: prepare.term,
        index: prepare.index,
    };
    Step::Snapshot {
        cut: if random.chance(50) {
            at_prepare
        } else {
            between
        },
        id: snapshot_id(random),
        digest: digest(random, 0x51),
    }
}

pub fn snapshot_id(random: &mut Random) -> Vec<u8> {
    match random.below(20) {
        0 => filled("", "s", 256),
        1 => filled("", "\u{E9}", 256),
        2 => b"with a space".to_vec(),
        _ => filled("snapshot-", "x", 10 + random.below(8)),
    }
}

fn caught_up_step(random: &mut Random, cut: Cut) -> Step {
    let back = 1 + random.below(2) as u64;
    Step::CaughtUp(Cut {
        term: cut.term,
        index: cut.index.saturating_sub(back),
    })
}

/// A Begin that the table accepts, as far as any can be.
pub fn begin(
    random: &mut Random,
    table: &VoterSlotTable,
    slot: &VoterSlotRecord,
    cut: Cut,
) -> Body {
    let member = &slot.member;
    let incarnation = member.identity.incarnation().get();
    let number = random.next();
    let configuration_id = digest(random, 0x71);
    let request_digest = digest(random, 0x72);
    let candidate = Candidate {
        slot: member.identity.slot().get(),
        incarnation: (incarnation + 1).min(MAX_VOTER_INCARNATION),
        key_digest: digest(random, number as u8),
        descriptor_digest: digest(random, 0x73),
        admission_generation: member
            .admission_generation
            .saturating_add(1 + random.below(3) as u64),
    };
    let claims = claims(
        random,
        table,
        slot,
        &candidate,
        request_id(number),
        request_digest,
    );
    Body::Begin(Begin {
        cut,
        expected_revision: table.revision,
        expected_cluster: *table.cluster_instance.as_bytes(),
        configuration_id,
        epoch: table.current_configuration().epoch.get(),
        candidate,
        attestation: wire::attestation(&claims).bytes,
        supplied_digest: request_digest,
        supplied_configuration_id: configuration_id,
    })
}

fn claims(
    random: &mut Random,
    table: &VoterSlotTable,
    slot: &VoterSlotRecord,
    candidate: &Candidate,
    request_id: [u8; 16],
    request_digest: [u8; 32],
) -> LostVoterAttestationV1 {
    let start = random.below(1000) as u64;
    LostVoterAttestationV1 {
        request_id: ConsensusRequestId::from_bytes(request_id),
        request_digest,
        cluster_instance: ConsensusClusterId::from_bytes(*table.cluster_instance.as_bytes()),
        slot: slot.member.identity.slot(),
        expected_incarnation: slot.member.identity.incarnation(),
        old_descriptor_digest: slot.member.descriptor_digest,
        candidate_key_digest: candidate.key_digest,
        admission_generation: candidate.admission_generation,
        candidate_spiffe_id: name(random),
        controller_spiffe_id: name(random),
        signing_key_digest: digest(random, 0x74),
        reason: random.pick(&[VoterLossReason::StorageLost, VoterLossReason::TimeBoundLoss]),
        policy_digest: digest(random, 0x75),
        observation_start_ms: start,
        decision_ms: start + random.below(2) as u64,
        issued_ms: start + 1 + random.below(2) as u64,
        expires_ms: start + 3,
        signature: [0x76; 64],
    }
}

/// Mostly short names, so that inputs stay small; now and then one at its limit.
fn name(random: &mut Random) -> String {
    let bytes = match random.below(60) {
        0 => filled("spiffe://", "n", 2048),
        1 => filled("spiffe://\u{200B}", "\u{20AC}", 9 + 3 * random.below(20)),
        2 => filled("spiffe://", "n", 2047),
        _ => filled("spiffe://", "site/", 10 + random.below(12)),
    };
    String::from_utf8(bytes).expect("whole characters")
}
