//! Tables and commands for the tests. A request is named by one number: request 1 has the id and
//! the digest of ones.
#![allow(dead_code)]

use voter_slots::{
    first_table, Advance, Begin, Candidate, Command, FirstVoter, LogId, LossReason,
    LostVoterAttestation, Marker, Observation, Step, Table,
};

pub const CLUSTER: [u8; 32] = [3; 32];
pub const CONFIGURATION: [u8; 32] = [0x55; 32];

/// Where a table's bytes have its revision, its epoch and its first slot; a slot with no receipt
/// takes `SLOT_BYTES`.
pub const REVISION: usize = 70;
pub const EPOCH: usize = 78;
pub const SLOTS: usize = 87;
pub const SLOT_BYTES: usize = 92;

/// The incarnation in the attestation of a table's open request, where no slot has a receipt.
pub fn attested_incarnation(slots: usize) -> usize {
    SLOTS + slots * SLOT_BYTES + 1 + 8 + 2 + 84
}

/// A table's bytes with a number of eight bytes set.
pub fn with_u64(bytes: &[u8], at: usize, number: u64) -> Vec<u8> {
    let mut bytes = bytes.to_vec();
    bytes[at..at + 8].copy_from_slice(&number.to_be_bytes());
    bytes
}

pub fn idle_bytes(count: u16) -> Vec<u8> {
    let voters: Vec<FirstVoter> = (1..=count)
        .map(|slot| FirstVoter {
            slot,
            key_digest: [slot as u8; 32],
            descriptor_digest: [100 + slot as u8; 32],
            admission_generation: 1,
        })
        .collect();
    first_table(&CLUSTER, &[9; 32], &voters)
}

/// No request is open, and every slot is in its first incarnation.
pub fn idle(count: u16) -> Table {
    Table::decode(&idle_bytes(count)).expect("a valid table")
}

pub fn attestation(slot: u16, request: u8) -> LostVoterAttestation {
    LostVoterAttestation {
        request_id: [request; 16],
        request_digest: [request; 32],
        cluster_instance: CLUSTER,
        slot,
        expected_incarnation: 1,
        old_descriptor_digest: [100 + slot as u8; 32],
        candidate_key_digest: [50 + request; 32],
        admission_generation: 2,
        candidate_spiffe_id: "spiffe://example/voter".to_owned(),
        controller_spiffe_id: "spiffe://example/controller".to_owned(),
        signing_key_digest: [6; 32],
        reason: LossReason::StorageLost,
        policy_digest: [7; 32],
        observation_start_ms: 1,
        decision_ms: 2,
        issued_ms: 3,
        expires_ms: 4,
        signature: [8; 64],
    }
}

/// A Begin that fits a table whose slots are in their first incarnation.
pub fn begin(table: &Table, slot: u16, request: u8, cut: LogId) -> Begin {
    Begin {
        cut,
        expected_revision: table.revision(),
        expected_cluster_id: CLUSTER,
        expected_configuration_id: CONFIGURATION,
        expected_configuration_epoch: table.epoch(),
        candidate: Candidate {
            slot,
            incarnation: 2,
            key_digest: [50 + request; 32],
            descriptor_digest: [200 + request; 32],
            admission_generation: 2,
        },
        attestation: attestation(slot, request).encode(),
        supplied_request_digest: [request; 32],
        supplied_configuration_id: CONFIGURATION,
    }
}

pub fn advance(request: u8, cut: LogId, step: Step) -> Command {
    Advance {
        cut,
        request_id: [request; 16],
        request_digest: [request; 32],
        step,
    }
    .into()
}

pub fn marker(request: u8, cut: LogId) -> Command {
    Marker {
        cut,
        request_id: [request; 16],
        request_digest: [request; 32],
    }
    .into()
}

/// A command or an observation.
pub enum Call {
    Command(Command),
    Observation(Observation),
}

/// The calls that replace slot 2 of a table from its first incarnation to the end.
pub fn replacement(table: &Table, request: u8) -> Vec<Call> {
    let at = |step: u64| LogId::new(2, 10 + 2 * step);
    let old: Vec<u64> = (1..=table.slots() as u64).collect();
    let candidate = 65_536 + 2;
    let mut new: Vec<u64> = old.iter().copied().filter(|id| *id != 2).collect();
    new.push(candidate);
    let both = [&old[..], &[candidate]].concat();
    let snapshot = Step::RecordSnapshot {
        cut: at(0),
        snapshot_id: "snapshot".to_owned(),
        digest: [0x5A; 32],
    };
    vec![
        Call::Command(begin(table, 2, request, at(0)).into()),
        Call::Command(advance(request, at(1), snapshot)),
        Call::Observation(Observation::new(at(2), &[&old], &both)),
        Call::Command(advance(request, at(4), Step::RecordCaughtUp(at(3)))),
        Call::Command(advance(request, at(5), Step::Fence)),
        Call::Observation(Observation::new(at(6), &[&old, &new], &both)),
        Call::Observation(Observation::new(at(7), &[&new], &new)),
        Call::Command(advance(request, at(8), Step::Finalize)),
    ]
}
