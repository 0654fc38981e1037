//! `oracle ordered`: a table with an open request, and its attestation, in which no two fields hold
//! the same unless validity asks for it, as bytes of the original's own writers. The text is
//! `crates/proved_cases/specs/OrderBytes.antt`, from which the port reads the record field by
//! field: two fields that changed places in its format, its reader and its writer alike are seen
//! there.

use original::{
    encode_lost_voter_attestation, encode_voter_slot_table, ConsensusClusterId,
    ConsensusConfigurationEpoch, ConsensusRequestId, LostVoterAttestationV1, SlotId,
    VoterConfiguration, VoterIncarnation, VoterLossReason, VoterReplacementEvidence,
    VoterReplacementPhase, VoterReplacementRecord, VoterReplacementResult,
    VoterReplacementResultKind, VoterSlotLogId, VoterSlotMember, VoterSlotPhase, VoterSlotRecord,
    VoterSlotTable, VoterSnapshotEvidence,
};

use crate::sample::identity;

/// The whole file.
pub fn text() -> String {
    let table = encode_voter_slot_table(&table()).expect("a valid table");
    let claims = encode_lost_voter_attestation(&attestation()).expect("a valid attestation");
    format!(
        "-- A table with an open request and its attestation, as the original Rust writes them. Written by `oracle ordered`; Order.antt has the records.\n\
         -- Assumes nothing.\n\
         use Rattle.std.specs.Prelude.{{ℕ, List, [], ◌∷◌, ◌++◌, replicate}}\n\
         \n\
         abbrev pub filled : ℕ → ℕ → List ℕ\n\
         filled count byte = replicate count byte\n\
         \n\
         abbrev pub ordered_table_bytes : List ℕ\n\
         ordered_table_bytes =\n{}\
         \n\
         abbrev pub ordered_attestation_bytes : List ℕ\n\
         ordered_attestation_bytes =\n{}",
        list(&table),
        list(&claims)
    )
}

/// Equal bytes from here on become `filled`; a stretch of others has so many on a line.
const RUN: usize = 16;
const LINE: usize = 18;

/// Bytes as a list of antt, a line for each run of equal bytes.
fn list(bytes: &[u8]) -> String {
    let mut pieces = Vec::new();
    let mut stretch: &[u8] = &[];
    let mut at = 0;
    while at < bytes.len() {
        let run = bytes[at..].iter().take_while(|b| **b == bytes[at]).count();
        if run < RUN {
            stretch = &bytes[at - stretch.len()..at + run];
        } else {
            pieces.extend(stretch.chunks(LINE).map(literal));
            pieces.push(format!("filled {run} {}", byte(bytes[at])));
            stretch = &[];
        }
        at += run;
    }
    pieces.extend(stretch.chunks(LINE).map(literal));
    format!("    {}\n", pieces.join("\n    ++ "))
}

/// In hex, where it has two digits.
fn byte(byte: u8) -> String {
    if byte < 10 {
        format!("{byte}")
    } else {
        format!("0x{byte:02X}")
    }
}

fn literal(bytes: &[u8]) -> String {
    let bytes: String = bytes.iter().map(|b| format!("{} ∷ ", byte(*b))).collect();
    format!("({bytes}[])")
}

fn epoch(number: u64) -> ConsensusConfigurationEpoch {
    ConsensusConfigurationEpoch::new(number).expect("an epoch above 0")
}

fn incarnation(number: u64) -> VoterIncarnation {
    VoterIncarnation::new(number).expect("an incarnation within its limits")
}

fn cut(term: u64, index: u64) -> VoterSlotLogId {
    VoterSlotLogId { term, index }
}

fn member(
    slot: u16,
    incarnation: u64,
    key: u8,
    descriptor: u8,
    generation: u64,
) -> VoterSlotMember {
    VoterSlotMember {
        identity: identity(slot, incarnation),
        key_digest: [key; 32],
        descriptor_digest: [descriptor; 32],
        admission_generation: generation,
    }
}

/// The slots' members; the second is the one that replaces `replaced`.
fn members() -> [VoterSlotMember; 3] {
    [
        member(259, 21, 0x31, 0x41, 351),
        member(516, 42, 0x32, 0x42, 352),
        member(773, 63, 0x33, 0x43, 353),
    ]
}

fn replaced() -> VoterSlotMember {
    member(516, 40, 0x34, 0x44, 350)
}

/// A receipt in the slot of this place: the request of the second was superseded by the open one.
fn receipt(place: u8, own: u64, kind: VoterReplacementResultKind) -> VoterReplacementResult {
    let number = u64::from(place);
    VoterReplacementResult {
        request_id: ConsensusRequestId::from_bytes([0x50 + place; 16]),
        request_digest: [0x60 + place; 32],
        incarnation: incarnation(own),
        revision: 310 + number,
        configuration_epoch: epoch(320 + number),
        kind,
        terminal: cut(330 + number, 340 + number),
    }
}

fn slots() -> Vec<VoterSlotRecord> {
    let receipts = [
        receipt(1, 21, VoterReplacementResultKind::Completed),
        receipt(2, 41, VoterReplacementResultKind::Superseded),
        receipt(3, 63, VoterReplacementResultKind::Completed),
    ];
    let slot = |(member, receipt): (VoterSlotMember, VoterReplacementResult)| VoterSlotRecord {
        retired_through: member.identity.incarnation().get() - 1,
        member,
        phase: VoterSlotPhase::Voting,
        last_result: Some(receipt),
    };
    members().into_iter().zip(receipts).map(slot).collect()
}

fn attestation() -> LostVoterAttestationV1 {
    LostVoterAttestationV1 {
        request_id: ConsensusRequestId::from_bytes([0x54; 16]),
        request_digest: [0x64; 32],
        cluster_instance: ConsensusClusterId::from_bytes([0x11; 32]),
        slot: SlotId::new(516).expect("a slot above 0"),
        expected_incarnation: incarnation(41),
        old_descriptor_digest: [0x45; 32],
        candidate_key_digest: [0x32; 32],
        admission_generation: 352,
        candidate_spiffe_id: "spiffe://a/b".to_owned(),
        controller_spiffe_id: "spiffe://c".to_owned(),
        signing_key_digest: [0x71; 32],
        reason: VoterLossReason::TimeBoundLoss,
        policy_digest: [0x72; 32],
        observation_start_ms: 401,
        decision_ms: 402,
        issued_ms: 403,
        expires_ms: 404,
        signature: [0x73; 64],
    }
}

fn evidence() -> VoterReplacementEvidence {
    VoterReplacementEvidence {
        prepare: cut(332, 342),
        snapshot: Some(VoterSnapshotEvidence {
            cut: cut(611, 621),
            snapshot_id: "snap".to_owned(),
            digest: [0x74; 32],
        }),
        learner: Some(cut(612, 622)),
        caught_up: Some(cut(613, 623)),
        continuation: Some(cut(614, 624)),
        fence: Some(cut(615, 625)),
        joint: Some(cut(616, 626)),
        uniform: Some(cut(617, 627)),
    }
}

fn table() -> VoterSlotTable {
    let [first, second, third] = members();
    VoterSlotTable {
        cluster_instance: ConsensusClusterId::from_bytes([0x11; 32]),
        manifest_digest: [0x22; 32],
        revision: 0x0102_0304_0506_0708,
        configuration_epoch: epoch(515),
        slots: slots(),
        replacement: Some(VoterReplacementRecord {
            expected_revision: 301,
            attestation: attestation(),
            predecessor: VoterConfiguration {
                epoch: epoch(514),
                members: vec![first.clone(), replaced(), third.clone()],
            },
            successor: VoterConfiguration {
                epoch: epoch(515),
                members: vec![first, second, third],
            },
            phase: VoterReplacementPhase::Uniform,
            evidence: evidence(),
        }),
    }
}

#[cfg(test)]
mod tests {
    /// The stored file is what the original writes now.
    #[test]
    fn stored_bytes_are_the_originals() {
        let stored = include_str!("../../../crates/proved_cases/specs/OrderBytes.antt");
        assert_eq!(super::text(), stored);
    }
}
