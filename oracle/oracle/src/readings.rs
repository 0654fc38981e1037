//! Tests that ask the original for every reading of document 01 that is easy to get wrong.
//! They check the oracle too: a wrong answer here would judge the port wrongly.

use original::VoterReplacementPhase::*;
use original::{
    decode_voter_slot_table, encode_voter_slot_table, ConsensusConfigurationEpoch,
    VoterReplacementPhase, VoterReplacementResultKind, VoterSlotPhase, VoterSlotTable,
    MAX_VOTER_INCARNATION,
};

use crate::record::{put_record, Begin, Body, Cut, Step};
use crate::sample::{
    advance, begin, claims, cut, identity, idle, marker, observation, open, play, replacement,
    request_digest, request_id, snapshot,
};
use crate::{answer, raw, replay, wire};

const PHASES: [VoterReplacementPhase; 7] = [
    Prepared,
    SnapshotInstalled,
    LearnerAdded,
    CaughtUp,
    Fenced,
    Joint,
    Uniform,
];

/// The answer on a copy; a refused call must leave the table as it was.
fn answer_of(table: &VoterSlotTable, body: &Body) -> u8 {
    let mut after = table.clone();
    let answer = play(&mut after, body);
    assert!(answer == 0 || after == *table);
    answer
}

fn unchanged(table: &VoterSlotTable, body: &Body) -> bool {
    let mut after = table.clone();
    play(&mut after, body) == 0 && after == *table
}

fn begun(table: &VoterSlotTable, begin: Begin) -> u8 {
    answer_of(table, &Body::Begin(begin))
}

/// A table whose request 1 on slot 2 is completed.
fn completed(count: u16) -> VoterSlotTable {
    let mut table = idle(count);
    for body in replacement(&table.clone(), 1, 10) {
        assert_eq!(play(&mut table, &body), 0);
    }
    table
}

fn with_epoch(mut table: VoterSlotTable, epoch: u64) -> VoterSlotTable {
    table.configuration_epoch = ConsensusConfigurationEpoch::new(epoch).expect("an epoch above 0");
    table
}

#[test]
fn the_replay_of_document_01() {
    let mut log = Vec::new();
    put_record(&mut log, *b"TB", &wire::table(&idle(1)).bytes);
    put_record(&mut log, *b"MK", &marker(1, cut(1, 1)).bytes());
    put_record(
        &mut log,
        *b"OB",
        &observation(cut(1, 1), &[&[1]], &[1]).bytes(),
    );
    assert_eq!(
        replay::lines(&log),
        "replay 1\n1 TB 0 1\n2 MK 25 1\n3 OB 0 1\n"
    );
    assert_eq!(replay::lines(b""), "replay 1\n");
}

#[test]
fn records_of_a_wrong_form() {
    let table = wire::table(&idle(3)).bytes;
    let marker = marker(1, cut(1, 1)).bytes();
    let mut log = Vec::new();
    put_record(&mut log, *b"MK", &marker); // no table
    put_record(&mut log, *b"TB", b""); // the reader's number
    put_record(&mut log, *b"TB", &table);
    put_record(&mut log, *b"TB", &table); // a table stands
    put_record(&mut log, *b"MK", &marker[1..]); // too short
    put_record(&mut log, *b"MK", &[&marker[..], &[0]].concat()); // too long
    let mut step = advance(1, cut(1, 1), Step::Finalize).bytes();
    *step.last_mut().unwrap() = 5; // no such step
    put_record(&mut log, *b"AD", &step);
    let start =
        "replay 1\n1 MK 33 0\n2 TB 6 0\n3 TB 0 1\n4 TB 33 1\n5 MK 33 1\n6 MK 33 1\n7 AD 33 1\n";
    assert_eq!(replay::lines(&log), start);
    for (end, line) in [
        (&b"XX\0\0"[..], "8 ?? 33 1\n"),
        (b"M", "8 ?? 33 1\n"),
        (b"MK", "8 MK 33 1\n"),
        (b"MK\0", "8 MK 33 1\n"),
        (b"MK\0\x05abcd", "8 MK 33 1\n"),
    ] {
        assert_eq!(
            replay::lines(&[&log, end].concat()),
            format!("{start}{line}")
        );
    }
}

#[test]
fn counts_magic_and_version_in_bytes() {
    let read =
        |bytes: &[u8]| decode_voter_slot_table(bytes).map_or_else(answer::of_slot_error, |_| 0);
    for (count, expected) in [(0, 6), (1, 0), (2, 6), (3, 0), (9, 0), (10, 6)] {
        assert_eq!(
            read(&wire::table(&idle(count)).bytes),
            expected,
            "{count} slots"
        );
    }
    assert_eq!(read(b"OPVI"), 6);
    assert_eq!(read(b"OPVI\0\x02"), 4);
    assert_eq!(read(b"OPVX\0\x02"), 6);
    assert_eq!(read(&[0; 65_537]), 5);
    assert_eq!(read(&[0; 65_536]), 6);
}

#[test]
fn sizes_of_the_smallest_and_largest_table() {
    assert_eq!(
        encode_voter_slot_table(&idle(1)).map(|bytes| bytes.len()),
        Ok(180)
    );
    let mut table = completed(9);
    let receipt = table.slots[1].last_result.clone();
    for (index, slot) in table.slots.iter_mut().enumerate() {
        slot.last_result = receipt.clone();
        let receipt = slot.last_result.as_mut().unwrap();
        receipt.request_id =
            original::ConsensusRequestId::from_bytes(request_id(100 + index as u8));
        slot.member.identity = identity(index as u16 + 1, 2);
        slot.retired_through = 1;
    }
    assert_eq!(table.check_validity(), Ok(()));
    let mut request = begin(&table, 2, 5, cut(3, 100));
    let mut claims = claims(&table, 2, 5);
    claims.candidate_spiffe_id = "spiffe://".to_owned() + &"n".repeat(2039);
    claims.controller_spiffe_id = claims.candidate_spiffe_id.clone();
    request.attestation = wire::attestation(&claims).bytes;
    assert_eq!(play(&mut table, &Body::Begin(request)), 0);
    let old: Vec<u64> = (1..=9)
        .map(|slot| identity(slot, 2).node_id().get())
        .collect();
    let candidate = identity(2, 3).node_id().get();
    let mut new: Vec<u64> = old.iter().copied().filter(|id| *id != old[1]).collect();
    new.push(candidate);
    let union = [&old[..], &[candidate]].concat();
    let id = vec![b's'; 256];
    for body in [
        advance(
            5,
            cut(3, 102),
            Step::Snapshot {
                cut: cut(3, 101),
                id,
                digest: [1; 32],
            },
        ),
        observation(cut(3, 103), &[&old], &union),
        advance(5, cut(3, 105), Step::CaughtUp(cut(3, 104))),
        advance(5, cut(3, 106), Step::Continuation),
        advance(5, cut(3, 107), Step::Fence),
        observation(cut(3, 108), &[&old, &new], &union),
        observation(cut(3, 109), &[&new], &new),
    ] {
        assert_eq!(play(&mut table, &body), 0);
    }
    assert_eq!(
        encode_voter_slot_table(&table).map(|bytes| bytes.len()),
        Ok(8072)
    );
}

#[test]
fn a_repeated_begin_looks_at_id_digest_and_request_check_only() {
    let table = open(5, Prepared);
    for slot in [2, 3] {
        let mut again = begin(&table, slot, 1, cut(1, 1));
        again.expected_revision = 77;
        again.supplied_configuration_id = [0; 32];
        assert!(unchanged(&table, &Body::Begin(again.clone())));
        again.supplied_digest = [0; 32];
        assert_eq!(begun(&table, again), 12);
    }
    let mut other_digest = begin(&table, 2, 1, cut(1, 1));
    let mut claims = claims(&table, 2, 1);
    claims.request_digest = [0; 32];
    other_digest.attestation = wire::attestation(&claims).bytes;
    assert_eq!(begun(&table, other_digest), 14);
}

#[test]
fn a_completed_request_resent_while_another_is_open() {
    let mut table = completed(3);
    let first = begin(&idle(3), 2, 1, cut(2, 10));
    let other = begin(&table, 3, 5, cut(2, 50));
    assert_eq!(play(&mut table, &Body::Begin(other)), 0);
    assert!(unchanged(&table, &Body::Begin(first)));
    assert_eq!(begun(&table, begin(&table, 2, 6, cut(2, 60))), 15);
}

#[test]
fn a_superseded_request_resent() {
    let mut table = idle(3);
    let first = Body::Begin(begin(&table, 2, 1, cut(2, 10)));
    assert_eq!(play(&mut table, &first), 0);
    let second = Body::Begin(begin(&table, 2, 2, cut(2, 12)));
    assert_eq!(play(&mut table, &second), 0);
    let receipt = table.slots[1]
        .last_result
        .as_ref()
        .expect("the receipt of request 1");
    assert_eq!(receipt.kind, VoterReplacementResultKind::Superseded);
    assert_eq!(receipt.incarnation.get(), 2);
    assert_eq!(receipt.revision, table.revision);
    assert_eq!(receipt.configuration_epoch, table.configuration_epoch);
    assert!(unchanged(&table, &first));
    let third = Body::Begin(begin(&table, 2, 3, cut(2, 14)));
    assert_eq!(play(&mut table, &third), 0);
    // The receipt of request 1 was overwritten: its id is not remembered.
    assert_eq!(answer_of(&table, &first), 25);
}

#[test]
fn a_begin_over_an_open_request() {
    for phase in PHASES {
        let table = open(3, phase);
        assert_eq!(begun(&table, begin(&table, 1, 2, cut(9, 90))), 15);
        let past_fence = begun(&table, begin(&table, 2, 2, cut(9, 10)));
        assert_eq!(past_fence, if phase >= Fenced { 19 } else { 25 });
    }
    let table = open(3, Prepared);
    assert_eq!(begun(&table, begin(&table, 2, 2, cut(2, 10))), 25);
    // A lower term comes to 25 at the very end, after 12 to 24.
    let lower_term = begin(&table, 2, 2, cut(1, 11));
    assert_eq!(begun(&table, lower_term.clone()), 25);
    let stale = Begin {
        expected_revision: 1,
        ..lower_term.clone()
    };
    assert_eq!(begun(&table, stale), 13);
    let wrong = Begin {
        supplied_digest: [0; 32],
        ..lower_term
    };
    assert_eq!(begun(&table, wrong), 12);
}

#[test]
fn a_begin_with_no_open_request_at_any_cut() {
    let table = completed(3);
    assert_eq!(begun(&table, begin(&table, 2, 2, cut(1, 1))), 0);
    assert_eq!(begun(&table, begin(&table, 2, 2, cut(0, 1))), 25);
    assert_eq!(begun(&table, begin(&table, 2, 2, cut(1, 0))), 25);
}

#[test]
fn one_slot_answers_13_then_16_then_12() {
    let table = idle(1);
    let mut same_key = begin(&table, 1, 1, cut(1, 1));
    let mut claims = claims(&table, 1, 1);
    claims.candidate_key_digest = table.slots[0].member.key_digest;
    same_key.candidate.key_digest = claims.candidate_key_digest;
    same_key.attestation = wire::attestation(&claims).bytes;
    assert_eq!(begun(&table, same_key.clone()), 16);
    assert_eq!(
        begun(
            &table,
            Begin {
                expected_revision: 2,
                ..same_key.clone()
            }
        ),
        13
    );
    assert_eq!(begun(&idle(3), same_key), 12);
}

#[test]
fn wrong_epoch_full_epoch_and_full_revision() {
    let table = idle(3);
    assert_eq!(
        begun(
            &table,
            Begin {
                epoch: 2,
                ..begin(&table, 2, 1, cut(1, 1))
            }
        ),
        13
    );
    let full_epoch = with_epoch(idle(3), u64::MAX);
    assert_eq!(begun(&full_epoch, begin(&full_epoch, 2, 1, cut(1, 1))), 23);
    let mut full = with_epoch(idle(3), u64::MAX);
    full.revision = u64::MAX;
    assert_eq!(begun(&full, begin(&full, 2, 1, cut(1, 1))), 23);
    full.configuration_epoch = idle(3).configuration_epoch;
    assert_eq!(begun(&full, begin(&full, 2, 1, cut(1, 1))), 24);
}

#[test]
fn the_last_incarnation_has_no_next_and_22_is_never_given() {
    let mut table = completed(3);
    let slot = &mut table.slots[1];
    slot.member.identity = identity(2, MAX_VOTER_INCARNATION);
    slot.retired_through = MAX_VOTER_INCARNATION - 1;
    slot.last_result.as_mut().unwrap().incarnation = slot.member.identity.incarnation();
    assert_eq!(table.check_validity(), Ok(()));
    let mut request = begin(&table, 2, 2, cut(3, 90));
    request.candidate.incarnation = MAX_VOTER_INCARNATION;
    assert_eq!(begun(&table, request.clone()), 12);
    request.candidate.incarnation += 1;
    assert_eq!(begun(&table, request), 30);
}

#[test]
fn advance_compares_the_cut_with_prepare_before_repeats() {
    for phase in &PHASES[1..] {
        let table = open(3, *phase);
        let again = |cut: Cut| advance(1, cut, snapshot(self::cut(2, 10)));
        assert_eq!(answer_of(&table, &again(cut(2, 10))), 25);
        assert_eq!(answer_of(&table, &again(cut(1, 11))), 25);
        assert!(unchanged(&table, &again(cut(2, 11))));
        assert_eq!(
            answer_of(&table, &advance(1, cut(2, 11), snapshot(cut(2, 11)))),
            14
        );
    }
}

#[test]
fn repeats_after_the_fence_at_any_cut_past_prepare() {
    for phase in [Fenced, Joint, Uniform] {
        let table = open(3, phase);
        let early = cut(2, 11);
        assert!(unchanged(
            &table,
            &advance(1, early, Step::CaughtUp(cut(2, 16)))
        ));
        assert_eq!(
            answer_of(&table, &advance(1, early, Step::CaughtUp(cut(2, 15)))),
            25
        );
        assert!(unchanged(&table, &advance(1, early, Step::Fence)));
        assert_eq!(
            answer_of(&table, &advance(1, early, Step::Continuation)),
            25
        );
    }
}

#[test]
fn finalize_of_another_or_completed_request() {
    let idle_again = completed(3);
    assert!(unchanged(
        &idle_again,
        &advance(1, cut(1, 1), Step::Finalize)
    ));
    assert_eq!(
        answer_of(&idle_again, &advance(1, cut(0, 0), Step::Finalize)),
        25
    );
    assert_eq!(
        answer_of(&idle_again, &advance(1, cut(9, 99), Step::Fence)),
        13
    );
    let mut table = idle_again.clone();
    let other = begin(&table, 3, 5, cut(2, 50));
    assert_eq!(play(&mut table, &Body::Begin(other)), 0);
    assert_eq!(
        answer_of(&table, &advance(1, cut(2, 60), Step::Finalize)),
        13
    );
    // Below the uniform cut: refused by the successor check.
    let uniform = open(3, Uniform);
    assert_eq!(
        answer_of(&uniform, &advance(1, cut(2, 23), Step::Finalize)),
        25
    );
    assert_eq!(
        answer_of(&uniform, &advance(1, cut(2, 25), Step::Finalize)),
        0
    );
}

#[test]
fn a_full_revision_in_advance_marker_and_observation() {
    let mut table = open(3, LearnerAdded);
    table.revision = u64::MAX;
    assert_eq!(answer_of(&table, &advance(9, cut(2, 30), Step::Fence)), 24);
    assert_eq!(answer_of(&table, &advance(1, cut(0, 30), Step::Fence)), 25);
    assert!(unchanged(&table, &marker(1, cut(2, 30))));
    assert!(unchanged(
        &table,
        &Body::Begin(begin(&table, 2, 1, cut(2, 30)))
    ));
    assert_eq!(answer_of(&table, &observation(cut(2, 30), &[], &[])), 24);
    let mut idle_table = idle(3);
    idle_table.revision = u64::MAX;
    assert_eq!(
        answer_of(
            &idle_table,
            &observation(cut(1, 1), &[&[1, 2, 3]], &[1, 2, 3])
        ),
        24
    );
    assert_eq!(
        answer_of(&idle_table, &observation(cut(1, 1), &[&[3, 2]], &[])),
        31
    );
    assert_eq!(
        answer_of(&idle_table, &observation(cut(1, 1), &[&[3, 2]], &[1 << 63])),
        30
    );
    assert_eq!(
        answer_of(&idle_table, &advance(1, cut(1, 1), Step::Finalize)),
        24
    );
}

#[test]
fn a_marker_does_not_compare_its_cut_with_prepare() {
    for phase in PHASES {
        let expected = if matches!(phase, LearnerAdded | CaughtUp) {
            0
        } else {
            25
        };
        let table = open(3, phase);
        assert_eq!(answer_of(&table, &marker(1, cut(1, 1))), expected);
        assert_eq!(answer_of(&table, &marker(2, cut(1, 1))), 25);
    }
}

#[test]
fn unchanged_observations_may_carry_cut_zero() {
    assert!(unchanged(
        &idle(3),
        &observation(cut(0, 0), &[&[1, 2, 3]], &[1, 2, 3])
    ));
    let table = open(3, Prepared);
    assert!(unchanged(
        &table,
        &observation(cut(0, 0), &[&[1, 2, 3]], &[1, 2, 3])
    ));
    let with_candidate = [1, 2, 3, 65_538];
    assert_eq!(
        answer_of(
            &table,
            &observation(cut(2, 40), &[&[1, 2, 3]], &with_candidate)
        ),
        25
    );
    let installed = open(3, SnapshotInstalled);
    assert_eq!(
        answer_of(
            &installed,
            &observation(cut(0, 0), &[&[1, 2, 3]], &with_candidate)
        ),
        25
    );
    let added = open(3, LearnerAdded);
    assert!(unchanged(
        &added,
        &observation(cut(0, 0), &[&[1, 2, 3]], &with_candidate)
    ));
}

#[test]
fn ids_that_the_type_holds_and_ids_that_it_does_not() {
    let table = idle(3);
    assert_eq!(
        answer_of(
            &table,
            &observation(cut(1, 1), &[&[0, 1, 2, 3]], &[1, 2, 3])
        ),
        25
    );
    assert_eq!(
        answer_of(
            &table,
            &observation(cut(1, 1), &[&[1, 2, 3]], &[1, 2, (1 << 63) - 1])
        ),
        25
    );
    assert_eq!(
        answer_of(
            &table,
            &observation(cut(1, 1), &[&[1, 2, 3]], &[1, 2, 1 << 63])
        ),
        30
    );
    // 30 anywhere comes before 31 anywhere.
    assert_eq!(
        answer_of(&table, &observation(cut(1, 1), &[&[2, 1]], &[u64::MAX])),
        30
    );
    assert_eq!(
        answer_of(&table, &observation(cut(1, 1), &[&[1]], &[2, 2])),
        31
    );
}

#[test]
fn obsolete_candidates_after_a_supersession() {
    let mut table = idle(3);
    for (request, index) in [(1, 10), (2, 12), (3, 14)] {
        let body = Body::Begin(begin(&table, 2, request, cut(2, index)));
        assert_eq!(play(&mut table, &body), 0);
    }
    let seen = |nodes: &[u64]| observation(cut(2, 20), &[&[1, 2, 3]], nodes);
    assert!(unchanged(&table, &seen(&[1, 2, 3, 65_538])));
    assert!(unchanged(&table, &seen(&[1, 2, 3, 131_074])));
    assert_eq!(answer_of(&table, &seen(&[1, 2, 3, 131_075])), 25);
    assert_eq!(answer_of(&table, &seen(&[1, 2, 3, 262_146])), 25);
    assert_eq!(answer_of(&table, &seen(&[1, 2, 3, 65_538, 131_074])), 25);
}

#[test]
fn observations_on_invalid_tables() {
    let mut empty = idle(3);
    empty.slots.clear();
    assert_eq!(
        empty.check_validity().map_err(answer::of_slot_error),
        Err(6)
    );
    assert!(unchanged(&empty, &observation(cut(1, 1), &[&[]], &[])));
    let mut twice = idle(1);
    twice.slots.push(twice.slots[0].clone());
    assert!(unchanged(&twice, &observation(cut(1, 1), &[&[1]], &[1])));
    // An observation sets the target slot's phase after every branch.
    let seen = observation(cut(2, 40), &[&[1, 2, 3]], &[1, 2, 3]);
    let mut target_voting = open(3, Prepared);
    target_voting.slots[1].phase = VoterSlotPhase::Voting;
    assert_eq!(answer_of(&target_voting, &seen), 25);
    let mut other_pending = open(3, Prepared);
    other_pending.slots[0].phase = VoterSlotPhase::Pending;
    assert!(unchanged(&other_pending, &seen));
    let mut no_target = open(3, Prepared);
    no_target.slots.remove(1);
    assert_eq!(answer_of(&no_target, &seen), 25);
}

#[test]
fn an_attested_last_incarnation_gives_3_at_the_target() {
    let number = |table: &VoterSlotTable| table.check_validity().map_err(answer::of_slot_error);
    let mut table = open(3, Prepared);
    let last = identity(2, MAX_VOTER_INCARNATION).incarnation();
    table
        .replacement
        .as_mut()
        .unwrap()
        .attestation
        .expected_incarnation = last;
    assert_eq!(number(&table), Err(3));
    let fault_at = |slot: usize| {
        let mut table = table.clone();
        table.replacement.as_mut().unwrap().predecessor.members[slot].key_digest = [0; 32];
        table
    };
    assert_eq!(number(&fault_at(0)), Err(6));
    assert_eq!(number(&fault_at(2)), Err(3));
    let bytes = wire::table(&table).bytes;
    assert_eq!(
        decode_voter_slot_table(&bytes)
            .map_err(answer::of_slot_error)
            .err(),
        Some(3)
    );
}

#[test]
fn a_refused_field_ends_the_reading() {
    let read =
        |bytes: &[u8]| decode_voter_slot_table(bytes).map_or_else(answer::of_slot_error, |_| 0);
    let bytes = wire::table(&idle(3)).bytes;
    // The first slot's number stands right after the count.
    let first_slot = 4 + 2 + 64 + 16 + 1;
    let mut slot_zero = bytes[..first_slot + 2].to_vec();
    slot_zero[first_slot..].copy_from_slice(&[0, 0]);
    assert_eq!(read(&slot_zero), 1);
    let mut incarnation_zero = bytes[..first_slot + 10].to_vec();
    incarnation_zero[first_slot + 2..].fill(0);
    assert_eq!(read(&incarnation_zero), 2);

    let attest = |bytes: &[u8]| {
        original::decode_lost_voter_attestation(bytes).map_or_else(answer::of_slot_error, |_| 0)
    };
    let claims = claims(&idle(3), 2, 1);
    let bytes = wire::attestation(&claims).bytes;
    assert_eq!(attest(&bytes), 0);
    let candidate_size = 2 + 16 + 32 + 32 + 2 + 8 + 32 + 32 + 8;
    let size = 2049u16.to_be_bytes();
    assert_eq!(attest(&[&bytes[..candidate_size], &size[..]].concat()), 5);
    // The rule for names runs after all fields.
    let controller_size = candidate_size + 2 + claims.candidate_spiffe_id.len();
    let mut bad_names = [&bytes[..controller_size], &size[..]].concat();
    bad_names[candidate_size + 2] = b'S';
    assert_eq!(attest(&bad_names), 5);
    let mut other_version = bytes.clone();
    other_version[1] = 2;
    assert_eq!(attest(&other_version), 6);
    assert_eq!(attest(&[&bytes[..], &[0]].concat()), 6);
    assert_eq!(attest(&vec![0; 8193]), 5);
}

#[test]
fn a_full_predecessor_epoch_is_6_without_overflow() {
    let mut table = open(3, Prepared);
    table.configuration_epoch = ConsensusConfigurationEpoch::new(u64::MAX).unwrap();
    let operation = table.replacement.as_mut().unwrap();
    operation.predecessor.epoch = table.configuration_epoch;
    assert_eq!(
        table.check_validity().map_err(answer::of_slot_error),
        Err(6)
    );
}

#[test]
fn continuation_may_equal_the_snapshot_cut_only() {
    let mut table = open(3, Prepared);
    assert_eq!(
        play(&mut table, &advance(1, cut(2, 14), snapshot(cut(2, 12)))),
        0
    );
    assert_eq!(
        answer_of(&table, &advance(1, cut(2, 12), Step::Continuation)),
        0
    );
    let with_continuation = |phase, index| {
        let mut table = open(3, phase);
        table.replacement.as_mut().unwrap().evidence.continuation =
            Some(crate::call::log_id(cut(2, index)));
        table.check_validity().is_ok()
    };
    // The sample's cuts: prepare and snapshot 10, learner 14, caught up 16, fence 20.
    assert!(!with_continuation(Prepared, 10));
    assert!(with_continuation(LearnerAdded, 13) && !with_continuation(LearnerAdded, 14));
    assert!(with_continuation(CaughtUp, 15) && !with_continuation(CaughtUp, 16));
    assert!(with_continuation(Fenced, 19) && !with_continuation(Fenced, 20));
}

#[test]
fn snapshot_ids_in_an_advance() {
    let table = open(3, Prepared);
    let with_id = |id: &[u8]| {
        advance(
            1,
            cut(2, 14),
            Step::Snapshot {
                cut: cut(2, 12),
                id: id.to_vec(),
                digest: [1; 32],
            },
        )
    };
    assert_eq!(answer_of(&table, &with_id(&[b'a'; 257])), 30);
    assert_eq!(answer_of(&table, &with_id(&[0xC0, 0x80])), 30);
    assert_eq!(answer_of(&table, &with_id(b"")), 25);
    assert_eq!(answer_of(&table, &with_id(b"a\x7F")), 25);
    assert_eq!(answer_of(&table, &with_id(b"a b")), 0);
    assert_eq!(answer_of(&table, &with_id(&[b'a'; 256])), 0);
}

/// The snapshot id's rule as written in text.rs is the original's.
#[test]
fn the_rule_of_snapshot_ids_is_the_original_s() {
    let table = open(3, SnapshotInstalled);
    let valid_with = |id: &str| {
        let mut table = table.clone();
        let evidence = &mut table.replacement.as_mut().unwrap().evidence;
        evidence.snapshot.as_mut().unwrap().snapshot_id = id.to_owned();
        table.check_validity().is_ok()
    };
    for character in (0..0x3100).filter_map(char::from_u32) {
        let id = format!("a{character}");
        assert_eq!(valid_with(&id), crate::text::is_snapshot_id(id.as_bytes()));
    }
    for length in [0, 1, 255, 256, 257] {
        let id = "a".repeat(length);
        assert_eq!(valid_with(&id), crate::text::is_snapshot_id(id.as_bytes()));
    }
}

#[test]
fn candidates_and_epochs_that_cannot_be_held() {
    let table = idle(3);
    let good = begin(&table, 2, 1, cut(0, 0));
    assert_eq!(begun(&table, good.clone()), 25);
    assert_eq!(
        begun(
            &table,
            Begin {
                epoch: 0,
                ..good.clone()
            }
        ),
        30
    );
    let mut candidate = good.clone();
    candidate.candidate.slot = 0;
    assert_eq!(begun(&table, candidate.clone()), 30);
    candidate.attestation.clear();
    assert_eq!(begun(&table, candidate), 6);
}

#[test]
fn supplied_digests_decide_and_nothing_is_hashed() {
    let table = idle(3);
    let good = begin(&table, 2, 1, cut(2, 10));
    assert_eq!(good.supplied_digest, request_digest(1));
    assert_eq!(begun(&table, good.clone()), 0);
    assert_eq!(
        begun(
            &table,
            Begin {
                supplied_digest: [0; 32],
                ..good.clone()
            }
        ),
        12
    );
    assert_eq!(
        begun(
            &table,
            Begin {
                supplied_configuration_id: [0; 32],
                ..good
            }
        ),
        13
    );
}

#[test]
fn nodes_being_replaced_are_retired_from_the_begin_on() {
    let node = |slot, incarnation| identity(slot, incarnation).node_id();
    assert!(!idle(3).is_retired(node(2, 1)));
    let table = open(3, Prepared);
    assert!(table.is_retired(node(2, 1)) && !table.is_retired(node(2, 2)));
    assert!(!table.is_retired(node(1, 1)) && !table.is_retired(Default::default()));
}

#[test]
fn raw_and_written_forms_give_the_table_back() {
    let tables =
        PHASES
            .map(|phase| open(5, phase))
            .into_iter()
            .chain([idle(1), idle(9), completed(3)]);
    for table in tables {
        let raw = raw::of_table(&table).bytes;
        assert_eq!(raw.len(), raw::TABLE);
        assert_eq!(raw::held(&raw).as_ref(), Some(&table));
        let sparse = raw::to_sparse(&raw);
        assert_eq!(
            raw::from_sparse(&mut crate::format::Fields(&sparse)),
            Some(raw)
        );
        assert_eq!(
            encode_voter_slot_table(&table),
            Ok(wire::table(&table).bytes)
        );
    }
    assert_eq!(raw::TABLE, 8062);
}

#[test]
fn raw_values_that_cannot_be_held() {
    let table = open(3, SnapshotInstalled);
    let layout = raw::of_table(&table);
    // Each byte of an absent part or after a count or length, on its own.
    for field in layout
        .fields
        .iter()
        .filter(|field| !field.used && field.size > 0)
    {
        for at in [field.at, field.at + field.size - 1] {
            let mut raw = layout.bytes.clone();
            raw[at] = 1;
            assert_eq!(raw::held(&raw), None, "byte {at}");
        }
    }
    assert_eq!(raw::held(&vec![0; raw::TABLE]), None);
}
