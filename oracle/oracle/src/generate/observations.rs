//! Observations: the memberships that a request goes through, mixtures of their sets, and faults.
//! Ids are taken from the table itself, whether or not it is valid.

use original::{VoterConfiguration, VoterReplacementPhase, VoterSlotTable, MAX_VOTER_INCARNATION};

use super::random::Random;
use crate::record::{Body, Cut, Observation};

fn ids(configuration: &VoterConfiguration) -> Vec<u64> {
    let members = configuration.members.iter();
    sorted(
        members
            .map(|member| member.identity.node_id().get())
            .collect(),
    )
}

fn sorted(mut ids: Vec<u64>) -> Vec<u64> {
    ids.sort_unstable();
    ids.dedup();
    ids
}

/// Predecessor and successor; with no request open the current configuration twice.
fn old_and_new(table: &VoterSlotTable) -> (Vec<u64>, Vec<u64>) {
    match &table.replacement {
        Some(operation) => (ids(&operation.predecessor), ids(&operation.successor)),
        None => {
            let current = ids(&table.current_configuration());
            (current.clone(), current)
        }
    }
}

/// The membership that comes next: learner, joint, uniform; with no request the current one.
pub fn observation_of_next(table: &VoterSlotTable, cut: Cut) -> Body {
    use VoterReplacementPhase::*;
    let (old, new) = old_and_new(table);
    let union = sorted([&old[..], &new].concat());
    let (sets, nodes) = match table.replacement.as_ref().map(|operation| operation.phase) {
        None => (vec![old.clone()], old),
        Some(Prepared | SnapshotInstalled | LearnerAdded | CaughtUp) => (vec![old], union),
        Some(Fenced) => (vec![old, new], union),
        Some(Joint | Uniform) => (vec![new.clone()], new),
    };
    Body::Observation(Observation { cut, sets, nodes })
}

/// Any of the memberships that a request goes through, or a mixture of their sets; now and then
/// with a fault in one of the sets.
pub fn any_observation(random: &mut Random, table: &VoterSlotTable, cut: Cut) -> Body {
    let (old, new) = old_and_new(table);
    let union = sorted([&old[..], &new].concat());
    let (mut sets, mut nodes) = match random.below(11) {
        0 | 1 => (vec![old.clone()], old.clone()),
        2 => (vec![old.clone()], union.clone()),
        3 => (vec![old.clone(), new.clone()], union.clone()),
        4 => (vec![new.clone()], new.clone()),
        5 | 6 | 10 => (vec![old.clone()], with_obsolete(random, table, &old)),
        7 => (vec![new.clone(), old.clone()], union.clone()),
        _ => {
            let choices = [old.clone(), new.clone(), union.clone(), Vec::new()];
            let pick = |random: &mut Random| choices[random.below(4)].clone();
            let sets = (0..random.below(4)).map(|_| pick(random)).collect();
            (sets, pick(random))
        }
    };
    if random.chance(35) {
        let at = random.below(sets.len() + 1);
        fault(random, sets.get_mut(at).unwrap_or(&mut nodes));
    }
    if random.chance(1) {
        sets = vec![old; random.pick(&[2, 3, 9, 10, 255])];
    }
    Body::Observation(Observation { cut, sets, nodes })
}

/// The predecessor's nodes and one more: a candidate of the slot that may be obsolete.
fn with_obsolete(random: &mut Random, table: &VoterSlotTable, old: &[u64]) -> Vec<u64> {
    let Some(operation) = table
        .replacement
        .as_ref()
        .filter(|_| !table.slots.is_empty())
    else {
        return old.to_vec();
    };
    let claims = &operation.attestation;
    let near = claims.expected_incarnation.get() + random.below(4) as u64;
    let incarnation = near.saturating_sub(2).clamp(1, MAX_VOTER_INCARNATION);
    let slot = if random.chance(60) {
        claims.slot
    } else {
        table.slots[random.below(table.slots.len())]
            .member
            .identity
            .slot()
    };
    let obsolete = (incarnation - 1) * 65_536 + u64::from(slot.get());
    let nodes = sorted([old, &[obsolete]].concat());
    if random.chance(10) {
        return sorted([&nodes[..], &[obsolete ^ 1 << 20]].concat());
    }
    nodes
}

/// An id left out, put in, changed, repeated, or out of order.
pub fn fault(random: &mut Random, set: &mut Vec<u64>) {
    const STRANGE: [u64; 9] = [
        0,
        1,
        65_536,
        65_537,
        (1 << 63) - 1,
        1 << 63,
        (1 << 63) + 1,
        u64::MAX,
        (1 << 63) - 65_536,
    ];
    if set.is_empty() {
        set.push(random.pick(&STRANGE));
        return;
    }
    let at = random.below(set.len());
    match random.below(7) {
        0 => drop(set.remove(at)),
        1 => set.insert(at, set[at]),
        2 => set.swap(0, at),
        3 => set[at] = set[at].wrapping_add(random.pick(&[1, 65_536, u64::MAX])),
        4 => set.push(random.pick(&STRANGE)),
        5 => {
            set.push(random.pick(&STRANGE));
            *set = sorted(std::mem::take(set));
        }
        _ => set.insert(0, random.pick(&STRANGE)),
    }
}
