//! Valid tables with no request open: where a line of history starts.
//! Counters are small in most, and full or nearly full in some.

use original::{
    ConsensusClusterId, ConsensusConfigurationEpoch, ConsensusRequestId, SlotId, VoterIncarnation,
    VoterReplacementResult, VoterReplacementResultKind, VoterSlotIdentity, VoterSlotLogId,
    VoterSlotMember, VoterSlotPhase, VoterSlotRecord, VoterSlotTable, MAX_VOTER_INCARNATION,
};

use super::random::Random;

/// A valid idle table of 1, 3, 5, 7 or 9 slots.
pub fn start(random: &mut Random) -> VoterSlotTable {
    let count = random.pick(&[1, 3, 3, 3, 3, 5, 5, 7, 9, 9]);
    let revision = revision(random);
    let epoch = epoch(random);
    let slots = slot_numbers(random, count)
        .into_iter()
        .map(|number| slot(random, number, revision, epoch))
        .collect();
    VoterSlotTable {
        cluster_instance: ConsensusClusterId::from_bytes(digest(random, 1)),
        manifest_digest: digest(random, 2),
        revision,
        configuration_epoch: held_epoch(epoch),
        slots,
        replacement: None,
    }
}

/// Mostly small; now and then full, or so near to full that a few changes fill it.
fn revision(random: &mut Random) -> u64 {
    match random.below(20) {
        0 => u64::MAX,
        1 | 2 => u64::MAX - 1 - random.below(12) as u64,
        3 => random.next() | 1,
        _ => 1 + random.below(20) as u64,
    }
}

fn epoch(random: &mut Random) -> u64 {
    match random.below(20) {
        0 => u64::MAX,
        1 => u64::MAX - 1 - random.below(3) as u64,
        2 => random.next() | 1,
        _ => 1 + random.below(9) as u64,
    }
}

/// Rising slot numbers, at both ends of their range and with gaps.
fn slot_numbers(random: &mut Random, count: usize) -> Vec<u16> {
    let first = 1 + random.below(3) as u16;
    let gap = random.pick(&[1, 1, 1, 2, 255, 4096]);
    let mut numbers: Vec<u16> = (0..count as u16).map(|index| first + index * gap).collect();
    if random.chance(15) {
        numbers[count - 1] = u16::MAX;
    }
    numbers
}

fn slot(random: &mut Random, number: u16, revision: u64, epoch: u64) -> VoterSlotRecord {
    let incarnation = incarnation(random);
    let last_result = (incarnation > 1).then(|| receipt(random, incarnation, revision, epoch));
    VoterSlotRecord {
        member: VoterSlotMember {
            identity: identity(number, incarnation),
            key_digest: digest(random, (number as u8).wrapping_add(10)),
            descriptor_digest: digest(random, (number as u8).wrapping_add(60)),
            admission_generation: generation(random),
        },
        retired_through: incarnation - 1,
        phase: VoterSlotPhase::Voting,
        last_result,
    }
}

fn incarnation(random: &mut Random) -> u64 {
    match random.below(24) {
        0 => MAX_VOTER_INCARNATION,
        1 => MAX_VOTER_INCARNATION - 1,
        2 => MAX_VOTER_INCARNATION - 2,
        3..=6 => 2 + random.below(4) as u64,
        7 => 1 + random.next() % MAX_VOTER_INCARNATION,
        _ => 1,
    }
}

/// A generation that cannot be exceeded now and then.
fn generation(random: &mut Random) -> u64 {
    match random.below(30) {
        0 => u64::MAX,
        1 => u64::MAX - 1,
        _ => 1 + random.below(6) as u64,
    }
}

/// The receipt that a slot past its first incarnation must have.
fn receipt(
    random: &mut Random,
    incarnation: u64,
    revision: u64,
    epoch: u64,
) -> VoterReplacementResult {
    VoterReplacementResult {
        request_id: ConsensusRequestId::from_bytes(request_id(random.next())),
        request_digest: digest(random, 3),
        incarnation: held_incarnation(incarnation),
        revision: 1 + random.next() % revision,
        configuration_epoch: held_epoch(1 + random.next() % epoch),
        kind: VoterReplacementResultKind::Completed,
        terminal: VoterSlotLogId {
            term: 1 + random.below(3) as u64,
            index: 1 + random.below(9) as u64,
        },
    }
}

/// One byte again and again, so that inputs stay readable, with now and then another byte
/// somewhere: a comparison that looks at a part only must not pass.
pub fn digest(random: &mut Random, filler: u8) -> [u8; 32] {
    let mut digest = [filler; 32];
    if random.chance(30) {
        digest[random.pick(&[0, 15, 16, 31])] = random.byte();
    }
    digest
}

/// A request id that holds a number.
pub fn request_id(number: u64) -> [u8; 16] {
    let mut id = [0xA0; 16];
    id[8..].copy_from_slice(&number.to_be_bytes());
    id
}

pub fn identity(slot: u16, incarnation: u64) -> VoterSlotIdentity {
    VoterSlotIdentity::new(
        SlotId::new(slot).expect("a slot above 0"),
        held_incarnation(incarnation),
    )
}

pub fn held_incarnation(number: u64) -> VoterIncarnation {
    VoterIncarnation::new(number).expect("an incarnation within its limits")
}

pub fn held_epoch(number: u64) -> ConsensusConfigurationEpoch {
    ConsensusConfigurationEpoch::new(number).expect("an epoch above 0")
}
