//! A Begin on a new installation of three voters, to start from: `cargo run --example begin`.

use voter_slots::{
    first_table, Begin, Candidate, FirstVoter, LogId, LossReason, LostVoterAttestation, Refusal,
    Table,
};

const CLUSTER: [u8; 32] = [3; 32];
const CONFIGURATION: [u8; 32] = [0x55; 32];

/// The controller's statement that slot 2 is lost. The service has checked the signature.
fn attestation() -> LostVoterAttestation {
    LostVoterAttestation {
        request_id: [1; 16],
        request_digest: [7; 32],
        cluster_instance: CLUSTER,
        slot: 2,
        expected_incarnation: 1,
        old_descriptor_digest: [2; 32],
        candidate_key_digest: [5; 32],
        admission_generation: 2,
        candidate_spiffe_id: "spiffe://example/voter".to_owned(),
        controller_spiffe_id: "spiffe://example/controller".to_owned(),
        signing_key_digest: [6; 32],
        reason: LossReason::StorageLost,
        policy_digest: [8; 32],
        observation_start_ms: 1,
        decision_ms: 2,
        issued_ms: 3,
        expires_ms: 4,
        signature: [0xAB; 64],
    }
}

fn main() -> Result<(), Refusal> {
    let voters = [1_u8, 2, 3].map(|slot| FirstVoter {
        slot: slot.into(),
        key_digest: [slot; 32],
        descriptor_digest: [slot; 32],
        admission_generation: 1,
    });
    let mut table = Table::decode(&first_table(&CLUSTER, &[9; 32], &voters))?;
    let begin = Begin {
        cut: LogId::new(2, 10),
        expected_revision: table.revision(),
        expected_cluster_id: CLUSTER,
        expected_configuration_id: CONFIGURATION,
        expected_configuration_epoch: table.epoch(),
        candidate: Candidate {
            slot: 2,
            incarnation: 2,
            key_digest: [5; 32],
            descriptor_digest: [12; 32],
            admission_generation: 2,
        },
        attestation: attestation().encode(),
        supplied_request_digest: [7; 32],
        supplied_configuration_id: CONFIGURATION,
    };
    let change = table.apply(&begin.into())?;
    println!("{change:?}: {table:?}");
    println!("node 2 is retired: {}", table.is_retired(2));
    Ok(())
}
