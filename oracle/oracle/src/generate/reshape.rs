//! Changes to a table as a whole. Some keep it valid, so that the successor check is reached with
//! two valid tables; others put its slots or members out of order.

use original::{
    ConsensusConfigurationEpoch, ConsensusRequestId, VoterReplacementEvidence,
    VoterReplacementPhase, VoterReplacementResult, VoterReplacementResultKind, VoterSlotLogId,
    VoterSlotPhase, VoterSlotRecord, VoterSlotTable, MAX_VOTER_INCARNATION,
};

use super::limits;
use super::random::Random;
use super::tables::{digest, held_epoch, held_incarnation, identity, request_id};
use crate::text::{MAX_NAME, MAX_SNAPSHOT_ID};

/// One change that mostly keeps the table valid.
pub fn reshape(random: &mut Random, table: &mut VoterSlotTable) {
    if table.replacement.is_some() && random.chance(60) {
        match random.below(6) {
            0 => shift_cuts(random, table),
            1 => later_mark(table),
            2 | 3 => move_cut(random, table),
            _ => reshape_operation(random, table),
        }
        return;
    }
    match random.below(8) {
        0 => table.manifest_digest[random.below(32)] ^= 1,
        1 => table.revision = limits::near(random, table.revision),
        2 => {
            table.configuration_epoch =
                held_epoch(limits::near(random, table.configuration_epoch.get()).max(1))
        }
        3 => reshape_member(random, table),
        4 => drop_slots(random, table),
        5 => renumber_last_slot(table),
        _ => reshape_receipt(random, table),
    }
}

/// Two slots fewer, in the table and in both configurations.
fn drop_slots(random: &mut Random, table: &mut VoterSlotTable) {
    if table.slots.len() < 3 {
        return;
    }
    let at = random.below(table.slots.len() - 1);
    table.slots.drain(at..at + 2);
    if let Some(operation) = &mut table.replacement {
        for configuration in [&mut operation.predecessor, &mut operation.successor] {
            if at + 2 <= configuration.members.len() {
                configuration.members.drain(at..at + 2);
            }
        }
    }
}

/// Another number for the last slot, everywhere.
fn renumber_last_slot(table: &mut VoterSlotTable) {
    let Some(last) = table.slots.last_mut() else {
        return;
    };
    let (slot, incarnation) = (
        last.member.identity.slot(),
        last.member.identity.incarnation(),
    );
    let renumbered = identity(slot.get() ^ 1 | 2, incarnation.get());
    last.member.identity = renumbered;
    let Some(operation) = &mut table.replacement else {
        return;
    };
    if operation.attestation.slot == slot {
        operation.attestation.slot = renumbered.slot();
    }
    for configuration in [&mut operation.predecessor, &mut operation.successor] {
        if let Some(member) = configuration.members.last_mut() {
            let incarnation = member.identity.incarnation().get();
            member.identity = identity(renumbered.slot().get(), incarnation);
        }
    }
}

/// Lays a part of another table of the same line over this one, so that what the successor check
/// compares is equal, or one more or less.
pub fn borrow(random: &mut Random, table: &mut VoterSlotTable, other: &VoterSlotTable) {
    let at = some_slot(random, table);
    let Some(theirs) = other.slots.get(at) else {
        return;
    };
    let fenced = other
        .replacement
        .as_ref()
        .is_some_and(|open| open.evidence.fence.is_some());
    if fenced && random.chance(50) {
        lower_epoch(table, other.configuration_epoch);
        return;
    }
    let slot = &mut table.slots[at];
    match random.below(7) {
        0 => {
            slot.member.admission_generation = theirs.member.admission_generation;
            spread_member(table, at);
        }
        1 => *slot = theirs.clone(),
        2 => slot.last_result = theirs.last_result.clone(),
        3 => table.replacement = other.replacement.clone(),
        4 | 5 => lower_epoch(table, other.configuration_epoch),
        _ => borrow_receipt(random, slot, theirs),
    }
}

/// One epoch later, in the table and in both configurations.
pub fn raise_epoch(table: &mut VoterSlotTable) {
    let later = |epoch: ConsensusConfigurationEpoch| held_epoch(epoch.get().saturating_add(1));
    table.configuration_epoch = later(table.configuration_epoch);
    if let Some(operation) = &mut table.replacement {
        operation.predecessor.epoch = later(operation.predecessor.epoch);
        operation.successor.epoch = later(operation.successor.epoch);
    }
}

/// The other table's epoch, and no receipt of a later one.
fn lower_epoch(table: &mut VoterSlotTable, epoch: ConsensusConfigurationEpoch) {
    table.configuration_epoch = epoch;
    for receipt in table
        .slots
        .iter_mut()
        .filter_map(|slot| slot.last_result.as_mut())
    {
        receipt.configuration_epoch = receipt.configuration_epoch.min(epoch);
    }
}

/// The numbers of a receipt next to those of the other table's receipt.
fn borrow_receipt(random: &mut Random, slot: &mut VoterSlotRecord, other: &VoterSlotRecord) {
    let (Some(receipt), Some(other)) = (&mut slot.last_result, &other.last_result) else {
        return;
    };
    if random.chance(40) {
        let earlier = other.configuration_epoch.get() - 1;
        receipt.configuration_epoch = held_epoch(earlier.max(1));
        return;
    }
    let near_to = |random: &mut Random, number: u64| {
        number.wrapping_sub(1).wrapping_add(random.below(3) as u64)
    };
    if random.chance(60) {
        receipt.revision = near_to(random, other.revision);
    }
    if random.chance(60) {
        let near = near_to(random, other.incarnation.get());
        receipt.incarnation = held_incarnation(near.clamp(1, MAX_VOTER_INCARNATION));
    }
    if random.chance(60) {
        let near = near_to(random, other.configuration_epoch.get());
        receipt.configuration_epoch = held_epoch(near.max(1));
    }
}

/// A member's binding, in the slot and in both configurations alike.
fn reshape_member(random: &mut Random, table: &mut VoterSlotTable) {
    let at = random.below(table.slots.len());
    let member = &mut table.slots[at].member;
    match random.below(3) {
        0 => member.key_digest[random.below(32)] ^= 1,
        1 => member.descriptor_digest[random.below(32)] ^= 1,
        _ => member.admission_generation = limits::near(random, member.admission_generation).max(1),
    }
    spread_member(table, at);
}

/// Puts a slot's member into the configurations and, where it is the candidate, the attestation.
fn spread_member(table: &mut VoterSlotTable, at: usize) {
    let member = table.slots[at].member.clone();
    let Some(operation) = &mut table.replacement else {
        return;
    };
    let (old, new) = (
        &mut operation.predecessor.members,
        &mut operation.successor.members,
    );
    if at >= old.len().min(new.len()) {
        return;
    }
    if operation.attestation.slot == member.identity.slot() {
        operation.attestation.candidate_key_digest = member.key_digest;
        operation.attestation.admission_generation = member.admission_generation;
    } else {
        old[at] = member.clone();
    }
    new[at] = member;
}

/// A part of some slot's receipt, or a receipt where there was none.
fn reshape_receipt(random: &mut Random, table: &mut VoterSlotTable) {
    let at = some_slot(random, table);
    let (revision, epoch) = (table.revision, table.configuration_epoch);
    let slot = &mut table.slots[at];
    let own = slot.member.identity.incarnation().get();
    let near = random.pick(&[1, 2, own, own, own - 1, own + 1]);
    let incarnation = held_incarnation(near.clamp(1, MAX_VOTER_INCARNATION));
    let kind = random.pick(&[
        VoterReplacementResultKind::Completed,
        VoterReplacementResultKind::Superseded,
    ]);
    let Some(receipt) = slot.last_result.as_mut().filter(|_| random.chance(80)) else {
        slot.last_result = Some(VoterReplacementResult {
            request_id: ConsensusRequestId::from_bytes(request_id(random.next())),
            request_digest: digest(random, 3),
            incarnation,
            revision,
            configuration_epoch: epoch,
            kind,
            terminal: VoterSlotLogId { term: 1, index: 1 },
        });
        return;
    };
    match random.below(9) {
        0 => receipt.revision = limits::near(random, receipt.revision),
        1 => receipt.revision = limits::near(random, revision),
        2 => {
            let near = limits::near(random, epoch.get());
            receipt.configuration_epoch = held_epoch(near.max(1));
        }
        3 => receipt.terminal.index = limits::near(random, receipt.terminal.index),
        4 => receipt.terminal.term = limits::near(random, receipt.terminal.term),
        5 => receipt.request_digest[random.below(32)] ^= 1,
        6 => receipt.kind = kind,
        7 => {
            receipt.revision = revision;
            let lower = receipt.incarnation.get() - 1;
            receipt.incarnation = held_incarnation(lower.max(1));
        }
        _ => receipt.incarnation = incarnation,
    }
}

/// Any slot, but mostly the one that is being replaced.
fn some_slot(random: &mut Random, table: &VoterSlotTable) -> usize {
    let target = table.replacement.as_ref().map(|open| open.attestation.slot);
    let found = table
        .slots
        .iter()
        .position(|slot| Some(slot.member.identity.slot()) == target);
    match found {
        Some(at) if random.chance(60) => at,
        _ => random.below(table.slots.len()),
    }
}

/// The cuts of the evidence that are there, prepare first, continuation last.
fn cuts(evidence: &mut VoterReplacementEvidence) -> Vec<&mut VoterSlotLogId> {
    let snapshot = evidence.snapshot.as_mut().map(|snapshot| &mut snapshot.cut);
    let later = [
        &mut evidence.learner,
        &mut evidence.caught_up,
        &mut evidence.fence,
        &mut evidence.joint,
        &mut evidence.uniform,
        &mut evidence.continuation,
    ];
    let first = [&mut evidence.prepare].into_iter().chain(snapshot);
    first.chain(later.into_iter().flatten()).collect()
}

/// All cuts from one on moved by the same amount.
fn shift_cuts(random: &mut Random, table: &mut VoterSlotTable) {
    let Some(operation) = &mut table.replacement else {
        return;
    };
    let mut cuts = cuts(&mut operation.evidence);
    let from = random.below(cuts.len());
    let (term, index) = random.pick(&[(0, 1), (0, 1), (1, 0), (1, 1)]);
    for cut in cuts.iter_mut().skip(from) {
        cut.term = cut.term.wrapping_add(term);
        cut.index = cut.index.wrapping_add(index);
    }
}

/// The caught-up mark one index later: allowed up to the fence only.
fn later_mark(table: &mut VoterSlotTable) {
    let open = table.replacement.as_mut();
    if let Some(mark) = open.and_then(|open| open.evidence.caught_up.as_mut()) {
        mark.index = mark.index.saturating_add(1);
    }
}

/// The slot after one more replacement.
fn next_incarnation(slot: &mut VoterSlotRecord) {
    let now = slot.member.identity;
    slot.member.identity = identity(now.slot().get(), now.incarnation().get() + 1);
    slot.member.admission_generation = slot.member.admission_generation.saturating_add(1);
    slot.member.key_digest[0] ^= 1;
    slot.retired_through += 1;
}

/// The table as it may stand after its request, and perhaps another one for the same slot, was
/// completed; the receipt's cut, the epoch and the id are right in some and wrong in others.
pub fn finished(random: &mut Random, table: &VoterSlotTable) -> Option<VoterSlotTable> {
    let mut later = table.clone();
    let mut operation = later.replacement.take()?;
    let target = operation.attestation.slot;
    let slots = &mut later.slots;
    let slot = slots
        .iter_mut()
        .find(|slot| slot.member.identity.slot() == target)?;
    let incarnation = slot.member.identity.incarnation().get();
    let another = random.chance(50) && incarnation < MAX_VOTER_INCARNATION;
    if another {
        next_incarnation(slot);
    }
    if another || random.chance(20) {
        operation.attestation.request_id =
            ConsensusRequestId::from_bytes(request_id(random.next()));
    }
    let latest = cuts(&mut operation.evidence)
        .into_iter()
        .max_by_key(|cut| cut.index)
        .copied()?;
    later.revision = later.revision.saturating_add(5);
    let epochs = [operation.predecessor.epoch, operation.successor.epoch];
    later.configuration_epoch = random.pick(&epochs);
    slot.phase = VoterSlotPhase::Voting;
    // Now and then the receipt is of an earlier epoch than the one that it takes the place of.
    let before = slot
        .last_result
        .as_ref()
        .map(|receipt| receipt.configuration_epoch.get());
    let configuration_epoch = match before {
        Some(epoch) if epoch > 1 && random.chance(30) => held_epoch(epoch - 1),
        _ => later.configuration_epoch,
    };
    slot.last_result = Some(VoterReplacementResult {
        request_id: operation.attestation.request_id,
        request_digest: operation.attestation.request_digest,
        incarnation: slot.member.identity.incarnation(),
        revision: later.revision,
        configuration_epoch,
        kind: VoterReplacementResultKind::Completed,
        terminal: VoterSlotLogId {
            term: latest.term - u64::from(random.chance(10)),
            index: latest.index.saturating_add(u64::from(random.chance(85))),
        },
    });
    Some(later)
}

/// One cut moved by one, or laid on another or next to it; a continuation put where there was none.
fn move_cut(random: &mut Random, table: &mut VoterSlotTable) {
    let Some(operation) = &mut table.replacement else {
        return;
    };
    if operation.evidence.continuation.is_none() && random.chance(30) {
        operation.evidence.continuation = Some(operation.evidence.prepare);
    }
    let mut cuts = cuts(&mut operation.evidence);
    // The continuation (last) and the caught-up mark (fourth) have more rules than the others.
    let at = match random.below(4) {
        0 => cuts.len() - 1,
        1 => 3.min(cuts.len() - 1),
        _ => random.below(cuts.len()),
    };
    let deltas = [(0, 1), (0, 1), (0, u64::MAX), (1, 0), (u64::MAX, 0), (1, 1)];
    let (mut term, mut index) = random.pick(&deltas);
    if random.chance(50) {
        *cuts[at] = *cuts[random.below(cuts.len())];
        if random.chance(50) {
            (term, index) = (0, 0);
        }
    }
    cuts[at].term = cuts[at].term.wrapping_add(term);
    cuts[at].index = cuts[at].index.wrapping_add(index);
}

fn reshape_operation(random: &mut Random, table: &mut VoterSlotTable) {
    let highest = table.revision;
    let Some(operation) = &mut table.replacement else {
        return;
    };
    match random.below(12) {
        0 => {
            operation.expected_revision =
                limits::near(random, operation.expected_revision).clamp(1, highest.max(1))
        }
        1 => operation.attestation.policy_digest[random.below(32)] ^= 1,
        2 => operation.attestation.signature[random.below(64)] ^= 1,
        3 => operation.attestation.request_digest[random.below(32)] ^= 1,
        4 => {
            let mut id = *operation.attestation.request_id.as_bytes();
            id[random.below(16)] ^= 1;
            operation.attestation.request_id = original::ConsensusRequestId::from_bytes(id);
        }
        5 => lengthen(&mut operation.attestation.candidate_spiffe_id, MAX_NAME),
        6 => {
            if let Some(snapshot) = &mut operation.evidence.snapshot {
                lengthen(&mut snapshot.snapshot_id, MAX_SNAPSHOT_ID);
            }
        }
        7 => operation.evidence.continuation = None,
        8 => keep_target_only(table),
        9 | 10 => reshape_predecessor(random, table),
        _ => one_phase_back(table),
    }
}

/// The predecessor's binding of the slot being replaced, which no other part repeats.
fn reshape_predecessor(random: &mut Random, table: &mut VoterSlotTable) {
    let Some(operation) = &mut table.replacement else {
        return;
    };
    let target = operation.attestation.slot;
    let members = operation.predecessor.members.iter_mut();
    for member in members.filter(|member| member.identity.slot() == target) {
        match random.below(3) {
            0 => member.key_digest[random.below(32)] ^= 1,
            1 => member.descriptor_digest[random.below(32)] ^= 1,
            _ => member.admission_generation = limits::near(random, member.admission_generation),
        }
    }
}

/// A table of one slot, the one being replaced, with configurations of that slot alone.
fn keep_target_only(table: &mut VoterSlotTable) {
    let Some(operation) = &mut table.replacement else {
        return;
    };
    let target = operation.attestation.slot;
    table
        .slots
        .retain(|slot| slot.member.identity.slot() == target);
    for configuration in [&mut operation.predecessor, &mut operation.successor] {
        configuration
            .members
            .retain(|member| member.identity.slot() == target);
    }
}

/// One letter more, where there is room for it.
fn lengthen(text: &mut String, limit: usize) {
    if text.len() < limit {
        text.push('x');
    }
}

/// The request one phase earlier, with the evidence and the slot's phase that belong to it.
fn one_phase_back(table: &mut VoterSlotTable) {
    use VoterReplacementPhase::*;
    let Some(operation) = &mut table.replacement else {
        return;
    };
    let evidence = &mut operation.evidence;
    let phase = match operation.phase {
        Prepared => return,
        SnapshotInstalled => {
            evidence.snapshot = None;
            Prepared
        }
        LearnerAdded => {
            evidence.learner = None;
            SnapshotInstalled
        }
        CaughtUp => {
            evidence.caught_up = None;
            LearnerAdded
        }
        Fenced => {
            evidence.fence = None;
            CaughtUp
        }
        Joint => {
            evidence.joint = None;
            Fenced
        }
        Uniform => {
            evidence.uniform = None;
            table.configuration_epoch = operation.predecessor.epoch;
            Joint
        }
    };
    operation.phase = phase;
    let target = operation.attestation.slot;
    let slot_phase = match phase {
        Prepared | SnapshotInstalled => VoterSlotPhase::Pending,
        LearnerAdded | CaughtUp | Fenced => VoterSlotPhase::CatchingUp,
        Joint | Uniform => VoterSlotPhase::Voting,
    };
    for slot in table
        .slots
        .iter_mut()
        .filter(|slot| slot.member.identity.slot() == target)
    {
        slot.phase = slot_phase;
    }
}

/// Slots or members repeated, swapped, left out or renumbered; phases that do not belong.
pub fn disorder(random: &mut Random, table: &mut VoterSlotTable) {
    let count = table.slots.len();
    if count == 0 {
        return;
    }
    let (a, b) = (random.below(count), random.below(count));
    match random.below(12) {
        0 => table.slots.swap(a, b),
        1 => table.slots[a] = table.slots[b].clone(),
        2 => table.slots[a].member.identity = table.slots[b].member.identity,
        3 => table.slots.truncate(a),
        4 => {
            table.slots[a].phase = random.pick(&[
                VoterSlotPhase::Pending,
                VoterSlotPhase::CatchingUp,
                VoterSlotPhase::Voting,
            ])
        }
        5 => table.slots[a].retired_through = limits::near(random, table.slots[a].retired_through),
        6 => {
            let now = table.slots[a].member.identity;
            let incarnation = random.pick(&[1, 2, 3, 1 << 47, now.incarnation().get()]);
            table.slots[a].member.identity = identity(now.slot().get(), incarnation);
        }
        7 if count < 9 => table.slots.push(table.slots[a].clone()),
        _ => disorder_members(random, table, a, b),
    }
}

fn disorder_members(random: &mut Random, table: &mut VoterSlotTable, a: usize, b: usize) {
    let Some(operation) = &mut table.replacement else {
        return;
    };
    let successor = random.chance(50);
    let configuration = if successor {
        &mut operation.successor
    } else {
        &mut operation.predecessor
    };
    let members = &mut configuration.members;
    if a.max(b) >= members.len() {
        return;
    }
    match random.below(6) {
        0 => members.swap(a, b),
        1 => members[a] = members[b].clone(),
        2 => members[a].identity = members[b].identity,
        3 => members.truncate(a),
        4 => {
            let slot = members[a].identity.slot().get();
            members[a].identity = identity(slot, random.pick(&[1, 2, 3, 1 << 47]));
        }
        _ => operation.attestation.slot = table.slots[a].member.identity.slot(),
    }
}
