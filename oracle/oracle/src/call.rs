//! One call of the original: the values of a record as the original's types (or the number that
//! document 01 gives where they cannot be), and the call itself.

use std::collections::BTreeSet;

use original::{
    decode_lost_voter_attestation, with_supplied, ConsensusClusterId, ConsensusConfigurationEpoch,
    ConsensusConfigurationId, ConsensusIdentity, ConsensusNodeId, ConsensusRequestId,
    LostVoterAttestationV1, SlotId, VoterIncarnation, VoterReplacementRequest,
    VoterReplacementStep, VoterSlotControl, VoterSlotIdentity, VoterSlotLogId, VoterSlotMember,
    VoterSlotTable, VoterSnapshotEvidence, MAX_VOTER_SNAPSHOT_ID_BYTES,
};

use crate::answer::{self, NOT_HELD, NOT_RISING};
use crate::record::{Begin, Body, Candidate, Cut, Observation, Step};

/// Why a record's values do not reach the call.
#[derive(Debug, Clone, Copy, PartialEq, Eq)]
pub enum Refusal {
    /// The attestation's own number: before 30.
    Reader(u8),
    /// 30.
    NotHeld,
    /// 31: after 30.
    NotRising,
}

impl Refusal {
    pub fn number(self) -> u8 {
        match self {
            Refusal::Reader(number) => number,
            Refusal::NotHeld => NOT_HELD,
            Refusal::NotRising => NOT_RISING,
        }
    }
}

/// A call whose values the original's types hold.
pub enum Call {
    Control {
        control: VoterSlotControl,
        cut: VoterSlotLogId,
        /// The supplied request digest and configuration id; only a Begin hashes.
        supplied: ([u8; 32], [u8; 32]),
    },
    Observation {
        sets: Vec<BTreeSet<ConsensusNodeId>>,
        nodes: BTreeSet<ConsensusNodeId>,
        cut: VoterSlotLogId,
    },
}

/// The call of a record, in the order of document 01: the reader's number, 30, 31.
pub fn held(body: &Body) -> Result<Call, Refusal> {
    match body {
        Body::Begin(begin) => held_begin(begin),
        Body::Observation(observation) => held_observation(observation),
        Body::Marker(marker) => Ok(control(
            VoterSlotControl::Marker {
                request_id: ConsensusRequestId::from_bytes(marker.request_id),
                request_digest: marker.request_digest,
            },
            marker.cut,
        )),
        Body::Advance(advance) => Ok(control(
            VoterSlotControl::Advance {
                request_id: ConsensusRequestId::from_bytes(advance.request_id),
                request_digest: advance.request_digest,
                step: held_step(&advance.step).ok_or(Refusal::NotHeld)?,
            },
            advance.cut,
        )),
    }
}

/// Runs the call on the table, which changes only where the call is accepted.
pub fn run(call: &Call, table: &mut VoterSlotTable) -> u8 {
    let result = match call {
        Call::Control {
            control,
            cut,
            supplied,
        } => with_supplied(supplied.0, supplied.1, || {
            table.apply_control(control, *cut)
        }),
        Call::Observation { sets, nodes, cut } => table.observe_membership(sets, nodes, *cut),
    };
    answer::of_replacement_result(result)
}

fn control(control: VoterSlotControl, cut: Cut) -> Call {
    Call::Control {
        control,
        cut: log_id(cut),
        supplied: ([0; 32], [0; 32]),
    }
}

pub fn log_id(cut: Cut) -> VoterSlotLogId {
    VoterSlotLogId {
        term: cut.term,
        index: cut.index,
    }
}

fn held_begin(begin: &Begin) -> Result<Call, Refusal> {
    let attestation = decode_lost_voter_attestation(&begin.attestation)
        .map_err(|error| Refusal::Reader(answer::of_slot_error(error)))?;
    let request = held_request(begin, attestation).ok_or(Refusal::NotHeld)?;
    Ok(Call::Control {
        control: VoterSlotControl::Begin(Box::new(request)),
        cut: log_id(begin.cut),
        supplied: (begin.supplied_digest, begin.supplied_configuration_id),
    })
}

fn held_request(
    begin: &Begin,
    attestation: LostVoterAttestationV1,
) -> Option<VoterReplacementRequest> {
    let expected_configuration = ConsensusIdentity::new(
        ConsensusClusterId::from_bytes(begin.expected_cluster),
        ConsensusConfigurationId::from_bytes(begin.configuration_id),
        ConsensusConfigurationEpoch::new(begin.epoch).ok()?,
    );
    Some(VoterReplacementRequest {
        expected_revision: begin.expected_revision,
        expected_configuration,
        candidate: held_member(&begin.candidate)?,
        attestation,
    })
}

fn held_member(candidate: &Candidate) -> Option<VoterSlotMember> {
    let slot = SlotId::new(candidate.slot).ok()?;
    let incarnation = VoterIncarnation::new(candidate.incarnation).ok()?;
    Some(VoterSlotMember {
        identity: VoterSlotIdentity::new(slot, incarnation),
        key_digest: candidate.key_digest,
        descriptor_digest: candidate.descriptor_digest,
        admission_generation: candidate.admission_generation,
    })
}

/// A snapshot id that is longer than its field, or not UTF-8, cannot be held.
fn held_step(step: &Step) -> Option<VoterReplacementStep> {
    Some(match step {
        Step::Snapshot { cut, id, digest } => {
            if id.len() > MAX_VOTER_SNAPSHOT_ID_BYTES {
                return None;
            }
            VoterReplacementStep::RecordSnapshot(VoterSnapshotEvidence {
                cut: log_id(*cut),
                snapshot_id: String::from_utf8(id.clone()).ok()?,
                digest: *digest,
            })
        }
        Step::CaughtUp(cut) => VoterReplacementStep::RecordCaughtUp(log_id(*cut)),
        Step::Continuation => VoterReplacementStep::RecordContinuation,
        Step::Fence => VoterReplacementStep::Fence,
        Step::Finalize => VoterReplacementStep::Finalize,
    })
}

/// 30 anywhere in the observation comes before 31 anywhere in it.
fn held_observation(observation: &Observation) -> Result<Call, Refusal> {
    let all = || observation.sets.iter().chain([&observation.nodes]);
    if all().flatten().any(|&id| held_node(id).is_none()) {
        return Err(Refusal::NotHeld);
    }
    if !all().all(|set| set.is_sorted_by(|a, b| a < b)) {
        return Err(Refusal::NotRising);
    }
    Ok(Call::Observation {
        sets: observation.sets.iter().map(|set| node_set(set)).collect(),
        nodes: node_set(&observation.nodes),
        cut: log_id(observation.cut),
    })
}

fn node_set(ids: &[u64]) -> BTreeSet<ConsensusNodeId> {
    ids.iter().filter_map(|&id| held_node(id)).collect()
}

/// The node id as the original's type, where that can hold it: 0 (its default) and 1 to 2^63 - 1.
pub fn held_node(number: u64) -> Option<ConsensusNodeId> {
    if number == 0 {
        return Some(ConsensusNodeId::default());
    }
    ConsensusNodeId::new(number).ok()
}
