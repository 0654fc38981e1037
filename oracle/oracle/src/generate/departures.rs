//! Records that depart from the right one: other calls, repeats, and single parts changed.
//! Most keep close to what the table knows, so that the later tests of a call are reached.

use original::{ConsensusClusterId, ConsensusRequestId};
use original::{LostVoterAttestationV1, VoterSlotLogId, VoterSlotTable, MAX_VOTER_INCARNATION};

use super::observations::{any_observation, fault};
use super::random::Random;
use super::records::{begin, snapshot_id};
use super::tables::{digest, held_incarnation, request_id};
use super::{limits, text};
use crate::fixed::filled;
use crate::record::{Advance, Begin, Body, Cut, Marker, Step};
use crate::wire;

/// Some record for this table, plausible but mostly not the one it needs.
pub fn other(random: &mut Random, table: &VoterSlotTable, cut: Cut) -> Body {
    match random.below(10) {
        0..=2 => any_observation(random, table, cut),
        3 | 4 => any_advance(random, table, cut),
        5 => any_marker(random, table, cut),
        6 | 7 => {
            let slot = &table.slots[random.below(table.slots.len())];
            begin(random, table, slot, cut)
        }
        _ => superseding(random, table, cut),
    }
}

/// A Begin for the slot that is being replaced.
pub fn superseding(random: &mut Random, table: &VoterSlotTable, cut: Cut) -> Body {
    let target = table
        .replacement
        .as_ref()
        .map(|operation| operation.attestation.slot);
    let slot = table
        .slots
        .iter()
        .find(|slot| Some(slot.member.identity.slot()) == target);
    begin(random, table, slot.unwrap_or(&table.slots[0]), cut)
}

/// A Begin for any slot or for the one being replaced, mostly with some part changed.
pub fn begin_or_repeat(random: &mut Random, table: &VoterSlotTable, cut: Cut) -> Body {
    let mut body = if random.chance(60) {
        superseding(random, table, cut)
    } else {
        let slot = &table.slots[random.below(table.slots.len())];
        begin(random, table, slot, cut)
    };
    if random.chance(60) {
        depart(random, table, &mut body);
    }
    body
}

/// The id and digest of the open request or of a receipt.
fn known_request(random: &mut Random, table: &VoterSlotTable) -> ([u8; 16], [u8; 32]) {
    let open = table.replacement.as_ref();
    let open = open.map(|open| {
        (
            *open.attestation.request_id.as_bytes(),
            open.attestation.request_digest,
        )
    });
    let receipts = table
        .slots
        .iter()
        .filter_map(|slot| slot.last_result.as_ref());
    let receipts = receipts.map(|receipt| (*receipt.request_id.as_bytes(), receipt.request_digest));
    let known: Vec<_> = if random.chance(75) && open.is_some() {
        open.into_iter().collect()
    } else {
        receipts.chain(open).collect()
    };
    if known.is_empty() {
        return (request_id(7), [7; 32]);
    }
    random.pick(&known)
}

fn any_marker(random: &mut Random, table: &VoterSlotTable, cut: Cut) -> Body {
    let (request_id, request_digest) = known_request(random, table);
    Body::Marker(Marker {
        cut,
        request_id,
        request_digest,
    })
}

/// Any step of a known request, now and then at a cut near the evidence: repeats are compared with
/// prepare too.
fn any_advance(random: &mut Random, table: &VoterSlotTable, cut: Cut) -> Body {
    let (request_id, request_digest) = known_request(random, table);
    // Past the fence a continuation is refused, also at a cut where it would have fitted.
    let late_continuation = has_fence_only(table) && random.chance(40);
    let cut = match random.below(4) {
        0 | 1 if !late_continuation => cut,
        2 => near_cut(random, table, cut),
        _ => soon_after_prepare(random, table).unwrap_or(cut),
    };
    let step = match random.below(8) {
        _ if late_continuation => Step::Continuation,
        0 | 1 => any_snapshot(random, table, cut),
        2 => Step::CaughtUp(standing_mark(table).unwrap_or(cut)),
        3 => Step::CaughtUp(near_cut(random, table, cut)),
        4 | 5 => Step::Continuation,
        6 => Step::Fence,
        _ => Step::Finalize,
    };
    Body::Advance(Advance {
        cut,
        request_id,
        request_digest,
        step,
    })
}

/// A fence stands and no continuation.
fn has_fence_only(table: &VoterSlotTable) -> bool {
    let evidence = table.replacement.as_ref().map(|open| &open.evidence);
    evidence.is_some_and(|evidence| evidence.fence.is_some() && evidence.continuation.is_none())
}

/// A cut within the evidence, after prepare; now and then of an earlier term.
fn soon_after_prepare(random: &mut Random, table: &VoterSlotTable) -> Option<Cut> {
    let prepare = table.replacement.as_ref()?.evidence.prepare;
    Some(Cut {
        term: prepare.term.saturating_sub(u64::from(random.chance(35))),
        index: prepare.index.wrapping_add(random.below(12) as u64),
    })
}

/// The caught-up mark that stands.
fn standing_mark(table: &VoterSlotTable) -> Option<Cut> {
    let mark = table.replacement.as_ref()?.evidence.caught_up?;
    Some(Cut {
        term: mark.term,
        index: mark.index,
    })
}

/// The snapshot that stands, or one that differs from it, or one of any form.
fn any_snapshot(random: &mut Random, table: &VoterSlotTable, cut: Cut) -> Step {
    let standing = table
        .replacement
        .as_ref()
        .and_then(|open| open.evidence.snapshot.as_ref());
    if let Some(standing) = standing.filter(|_| random.chance(60)) {
        let mut id = standing.snapshot_id.clone().into_bytes();
        let mut digest = standing.digest;
        let mut cut = Cut {
            term: standing.cut.term,
            index: standing.cut.index,
        };
        match random.below(6) {
            0 => id.push(b'y'),
            1 => digest[random.below(32)] ^= 1,
            2 => cut.index = cut.index.wrapping_add(1),
            _ => {}
        }
        return Step::Snapshot { cut, id, digest };
    }
    let id = match random.below(8) {
        0 => Vec::new(),
        1 => filled("", "s", 257),
        2 => [b"a".to_vec(), text::invalid_sequence(random)].concat(),
        3 => b"with\x07bell".to_vec(),
        4 if random.chance(3) => filled("", "t", 65_000),
        _ => snapshot_id(random),
    };
    Step::Snapshot {
        cut: near_cut(random, table, cut),
        id,
        digest: digest(random, 0x52),
    }
}

/// A cut of the evidence, or the given one, or a neighbour of either.
pub fn near_cut(random: &mut Random, table: &VoterSlotTable, cut: Cut) -> Cut {
    let mut cuts = vec![cut];
    if let Some(operation) = &table.replacement {
        let evidence = &operation.evidence;
        let of = |cut: VoterSlotLogId| Cut {
            term: cut.term,
            index: cut.index,
        };
        let later = [
            evidence.learner,
            evidence.caught_up,
            evidence.caught_up,
            evidence.continuation,
            evidence.fence,
            evidence.joint,
            evidence.uniform,
        ];
        cuts.extend([of(evidence.prepare); 2]);
        cuts.extend(evidence.snapshot.as_ref().map(|snapshot| of(snapshot.cut)));
        cuts.extend(later.into_iter().flatten().map(of));
    }
    let mut near = random.pick(&cuts);
    match random.below(8) {
        0 => near.index = near.index.wrapping_add(1),
        1 => near.index = near.index.wrapping_sub(1),
        2 => near.term = near.term.wrapping_add(1),
        3 => near.term = near.term.wrapping_sub(1),
        4 if random.chance(30) => {
            near = Cut {
                term: limits::u64_near_limits(random),
                index: near.index,
            }
        }
        5 if random.chance(30) => {
            near = Cut {
                term: near.term,
                index: limits::u64_near_limits(random),
            }
        }
        _ => {}
    }
    near
}

/// Changes one part of a record.
pub fn depart(random: &mut Random, table: &VoterSlotTable, body: &mut Body) {
    if random.chance(25) {
        body.set_cut(bad_cut(random, table, body.cut()));
        return;
    }
    match body {
        Body::Marker(marker) => {
            depart_in_request(
                random,
                table,
                &mut marker.request_id,
                &mut marker.request_digest,
            );
        }
        Body::Advance(advance) if random.chance(60) => {
            depart_in_step(random, advance.cut, &mut advance.step);
        }
        Body::Advance(advance) => {
            let (id, digest) = (&mut advance.request_id, &mut advance.request_digest);
            depart_in_request(random, table, id, digest);
        }
        Body::Begin(begin) => depart_in_begin(random, table, begin),
        Body::Observation(observation) => {
            let at = random.below(observation.sets.len() + 1);
            fault(
                random,
                observation
                    .sets
                    .get_mut(at)
                    .unwrap_or(&mut observation.nodes),
            );
        }
    }
}

/// The cut that a step carries, laid on the command's own or next to it; or another step.
fn depart_in_step(random: &mut Random, command: Cut, step: &mut Step) {
    let (term, index) = random.pick(&[
        (0, 0),
        (0, 1),
        (0, u64::MAX),
        (1, u64::MAX),
        (u64::MAX, u64::MAX),
    ]);
    let next = Cut {
        term: command.term.wrapping_add(term),
        index: command.index.wrapping_add(index),
    };
    match step {
        Step::Snapshot { cut, .. } | Step::CaughtUp(cut) => *cut = next,
        Step::Continuation | Step::Fence | Step::Finalize => {
            *step = random.pick(&[
                Step::Continuation,
                Step::Fence,
                Step::Finalize,
                Step::CaughtUp(next),
            ]);
        }
    }
}

fn bad_cut(random: &mut Random, table: &VoterSlotTable, cut: Cut) -> Cut {
    match random.below(6) {
        0 => Cut { term: 0, ..cut },
        1 => Cut { index: 0, ..cut },
        2 => Cut::default(),
        _ => near_cut(random, table, cut),
    }
}

fn depart_in_request(
    random: &mut Random,
    table: &VoterSlotTable,
    id: &mut [u8; 16],
    digest: &mut [u8; 32],
) {
    match random.below(3) {
        0 => id[random.below(16)] ^= 1 << random.below(8),
        1 => digest[random.below(32)] ^= 1 << random.below(8),
        _ => (*id, *digest) = known_request(random, table),
    }
}

fn depart_in_begin(random: &mut Random, table: &VoterSlotTable, begin: &mut Begin) {
    match random.below(20) {
        0 => begin.expected_revision = limits::near(random, begin.expected_revision),
        1 => begin.expected_cluster[random.below(32)] ^= 1,
        2 => begin.configuration_id[random.below(32)] ^= 1,
        3 => begin.epoch = limits::near(random, begin.epoch),
        4 => {
            begin.candidate.slot = begin
                .candidate
                .slot
                .wrapping_add(random.pick(&[1, 2, u16::MAX]))
        }
        5 => begin.candidate.incarnation = limits::near(random, begin.candidate.incarnation),
        6 => begin.candidate.key_digest[random.below(32)] ^= 1,
        7 => {
            begin.candidate.admission_generation =
                limits::near(random, begin.candidate.admission_generation)
        }
        8 => begin.supplied_digest[random.below(32)] ^= 1,
        9 => begin.supplied_configuration_id[random.below(32)] ^= 1,
        10 => begin.candidate.slot = 0,
        11 => begin.candidate.descriptor_digest[random.below(32)] ^= 1,
        _ => depart_in_claims(random, table, begin),
    }
}

/// The id of a request that the table knows, mostly with its digest.
fn repeat_a_request(
    random: &mut Random,
    table: &VoterSlotTable,
    begin: &mut Begin,
    claims: &mut LostVoterAttestationV1,
) {
    let (id, digest) = known_request(random, table);
    claims.request_id = ConsensusRequestId::from_bytes(id);
    if random.chance(60) {
        claims.request_digest = digest;
        begin.supplied_digest = digest;
    }
}

/// Changes the attestation, mostly together with the candidate, so that later tests are reached.
fn depart_in_claims(random: &mut Random, table: &VoterSlotTable, begin: &mut Begin) {
    let Ok(mut claims) = original::decode_lost_voter_attestation(&begin.attestation) else {
        return;
    };
    match random.below(20) {
        0 | 12..=16 => repeat_a_request(random, table, begin, &mut claims),
        1 => {
            let number = random.pick(&[1, 2, 3, 5, 9, 77, u16::MAX]);
            begin.candidate.slot = number;
            claims.slot = original::SlotId::new(number).expect("a slot above 0");
        }
        2 => {
            let now = claims.expected_incarnation.get() + random.pick(&[0, 1, 2]);
            let expected = now.saturating_sub(1).clamp(1, MAX_VOTER_INCARNATION);
            claims.expected_incarnation = held_incarnation(expected);
            begin.candidate.incarnation = expected + 1;
        }
        3 => claims.old_descriptor_digest[random.below(32)] ^= 1,
        4 => {
            let key = table.slots[random.below(table.slots.len())]
                .member
                .key_digest;
            claims.candidate_key_digest = key;
            begin.candidate.key_digest = key;
        }
        5 => {
            let generation = limits::near(random, claims.admission_generation).max(1);
            let generation = if random.chance(50) { 1 } else { generation };
            claims.admission_generation = generation;
            begin.candidate.admission_generation = generation;
        }
        6 => claims.cluster_instance = ConsensusClusterId::from_bytes([0xEE; 32]),
        7 => {
            claims.cluster_instance = ConsensusClusterId::from_bytes([0xEE; 32]);
            begin.expected_cluster = [0xEE; 32];
        }
        8 => claims.expected_incarnation = held_incarnation(MAX_VOTER_INCARNATION),
        9 => claims.request_digest[random.below(32)] ^= 1,
        10 => claims.signature[random.below(64)] ^= 1,
        _ => {
            let layout = wire::attestation(&claims);
            begin.attestation = super::damage::damaged(random, &layout);
            return;
        }
    }
    begin.attestation = wire::attestation(&claims).bytes;
}
