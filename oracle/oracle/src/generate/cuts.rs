//! Calls on valid tables in every phase whose cuts are all small numbers, so that each comparison
//! of two cuts comes out both ways. The table is valid and the command fits it, so what decides is
//! the phase, the evidence and the cut: what the successor check accepts of a change.

use original::VoterReplacementPhase::*;
use original::{
    VoterConfiguration, VoterReplacementEvidence, VoterReplacementPhase, VoterReplacementRecord,
    VoterSlotLogId, VoterSlotTable,
};

use super::random::Random;
use crate::format::put_question;
use crate::raw;
use crate::record::{put_record, Body, Cut, Step};
use crate::sample::{
    advance, begin, cut, identity, idle, marker, observation, open, play, snapshot,
};

const PHASES: [VoterReplacementPhase; 7] = [
    Prepared,
    SnapshotInstalled,
    LearnerAdded,
    CaughtUp,
    Fenced,
    Joint,
    Uniform,
];

/// Puts one question after the others: a record and the table on which it is played.
pub fn put(random: &mut Random, out: &mut Vec<u8>) {
    let table = table(random);
    let body = body(random, &table);
    let mark = if matches!(body, Body::Observation(_)) {
        *b"OV"
    } else {
        *b"CM"
    };
    let mut question = Vec::new();
    put_record(&mut question, body.mark(), &body.bytes());
    question.extend(raw::to_sparse(&raw::of_table(&table).bytes));
    put_question(out, mark, &question);
}

/// A valid table, mostly with a request open; now and then with a full revision.
fn table(random: &mut Random) -> VoterSlotTable {
    if random.chance(8) {
        return idle(random.pick(&[1, 3, 5]));
    }
    loop {
        let mut table = open_table(random);
        set_cuts(random, &mut table);
        if random.chance(3) {
            table.revision = u64::MAX;
        }
        if table.check_validity().is_ok() {
            return table;
        }
    }
}

/// A table with a request open in any phase; one in Prepared may have superseded another.
fn open_table(random: &mut Random) -> VoterSlotTable {
    let phase = random.pick(&PHASES);
    let mut table = open(random.pick(&[3, 3, 5]), phase);
    if phase == Prepared && random.chance(20) {
        let again = Body::Begin(begin(&table, 2, 2, cut(3, 40)));
        assert_eq!(play(&mut table, &again), 0, "a superseding Begin");
    }
    table
}

/// Small cuts for all the evidence that is there, each a little after the one before, and a
/// continuation near one of them.
fn set_cuts(random: &mut Random, table: &mut VoterSlotTable) {
    let Some(operation) = &mut table.replacement else {
        return;
    };
    let evidence = &mut operation.evidence;
    evidence.prepare = small(random);
    if let Some(receipt) = &mut table.slots[1].last_result {
        receipt.terminal = evidence.prepare;
    }
    let mut last = evidence.prepare;
    if let Some(snapshot) = &mut evidence.snapshot {
        if random.chance(70) {
            last = after(random, last);
        }
        snapshot.cut = last;
    }
    for stage in [
        &mut evidence.learner,
        &mut evidence.caught_up,
        &mut evidence.fence,
        &mut evidence.joint,
        &mut evidence.uniform,
    ] {
        if stage.is_some() {
            last = after(random, last);
            *stage = Some(last);
        }
    }
    if random.chance(60) {
        let base = random.pick(&cuts_of(evidence));
        evidence.continuation = Some(near(random, base));
    }
}

fn small(random: &mut Random) -> VoterSlotLogId {
    VoterSlotLogId {
        term: 1 + random.below(3) as u64,
        index: 1 + random.below(12) as u64,
    }
}

fn near(random: &mut Random, cut: VoterSlotLogId) -> VoterSlotLogId {
    let mut moved = |number: u64| {
        let up = number + random.below(3) as u64;
        up.saturating_sub(random.below(2) as u64)
    };
    VoterSlotLogId {
        term: moved(cut.term),
        index: moved(cut.index),
    }
}

fn after(random: &mut Random, cut: VoterSlotLogId) -> VoterSlotLogId {
    VoterSlotLogId {
        term: cut.term + u64::from(random.chance(25)),
        index: cut.index + 1 + random.below(2) as u64,
    }
}

/// The cuts of the evidence in the order of their stages, the continuation last.
fn cuts_of(evidence: &VoterReplacementEvidence) -> Vec<VoterSlotLogId> {
    let snapshot = evidence.snapshot.as_ref().map(|snapshot| snapshot.cut);
    [
        Some(evidence.prepare),
        snapshot,
        evidence.learner,
        evidence.caught_up,
        evidence.fence,
        evidence.joint,
        evidence.uniform,
        evidence.continuation,
    ]
    .into_iter()
    .flatten()
    .collect()
}

/// A cut after all of the table's, or near one of them.
fn any_cut(random: &mut Random, table: &VoterSlotTable) -> Cut {
    let open = table.replacement.as_ref();
    let cuts = open.map_or(Vec::new(), |operation| cuts_of(&operation.evidence));
    let Some(latest) = cuts.iter().max_by_key(|cut| cut.index) else {
        return cut(random.below(4) as u64, random.below(14) as u64);
    };
    let id = match random.below(20) {
        0 => small(random),
        1..=9 => after(random, *latest),
        _ => {
            let base = random.pick(&cuts);
            near(random, base)
        }
    };
    cut(id.term, id.index)
}

/// A record that names the open request: mostly one that its phase waits for, else any.
fn body(random: &mut Random, table: &VoterSlotTable) -> Body {
    let at = any_cut(random, table);
    let Some(operation) = &table.replacement else {
        return any_body(random, table, 1, at);
    };
    let request = operation.attestation.request_digest[0];
    if random.chance(40) {
        return any_body(random, table, request, at);
    }
    let step = match operation.phase {
        Prepared if random.chance(70) => any_snapshot(random, table),
        LearnerAdded if random.chance(70) => Step::CaughtUp(any_cut(random, table)),
        CaughtUp if random.chance(40) => Step::CaughtUp(any_cut(random, table)),
        CaughtUp if random.chance(70) => Step::Fence,
        Prepared | LearnerAdded | CaughtUp => Step::Continuation,
        Uniform => Step::Finalize,
        SnapshotInstalled | Fenced | Joint => return any_observation(random, table, at),
    };
    stepped(random, request, at, step)
}

fn any_body(random: &mut Random, table: &VoterSlotTable, request: u8, at: Cut) -> Body {
    match random.below(9) {
        0 => {
            let step = any_snapshot(random, table);
            stepped(random, request, at, step)
        }
        1 | 2 => {
            let step = Step::CaughtUp(any_cut(random, table));
            stepped(random, request, at, step)
        }
        3 => advance(request, at, Step::Continuation),
        4 => advance(request, at, Step::Fence),
        5 => advance(request, at, Step::Finalize),
        6 => {
            let slot = if table.slots.len() < 3 {
                1
            } else {
                random.pick(&[2, 2, 2, 2, 1])
            };
            let own = random.pick(&[3, 3, 3, request]);
            Body::Begin(begin(table, slot, own, at))
        }
        7 if random.chance(20) => marker(request, at),
        _ => any_observation(random, table, at),
    }
}

/// An Advance; of one that carries a cut of its own, the record's comes after it in half the cases.
fn stepped(random: &mut Random, request: u8, at: Cut, step: Step) -> Body {
    let at = match &step {
        Step::Snapshot { cut: own, .. } | Step::CaughtUp(own) if random.chance(50) => {
            cut(own.term, own.index + 1 + random.below(2) as u64)
        }
        _ => at,
    };
    advance(request, at, step)
}

/// The snapshot that the table has, or another one; its id may be empty or hold a control
/// character.
fn any_snapshot(random: &mut Random, table: &VoterSlotTable) -> Step {
    let open = table.replacement.as_ref();
    let held = open.and_then(|operation| operation.evidence.snapshot.as_ref());
    if let (Some(held), true) = (held, random.chance(30)) {
        return Step::Snapshot {
            cut: cut(held.cut.term, held.cut.index),
            id: held.snapshot_id.clone().into_bytes(),
            digest: held.digest,
        };
    }
    let mut step = snapshot(any_cut(random, table));
    if let Step::Snapshot { id, .. } = &mut step {
        let ids: [&[u8]; 5] = [b"snapshot", b"snapshot", b"a b", b"", b"x\x01"];
        *id = random.pick(&ids).to_vec();
    }
    step
}

/// The observation that the phase waits for or has seen, mostly; else any of the four, or one with
/// an obsolete learner.
fn any_observation(random: &mut Random, table: &VoterSlotTable, at: Cut) -> Body {
    let Some(operation) = &table.replacement else {
        let all = node_ids(&table.current_configuration());
        return observation(at, &[&all], &all);
    };
    let old = node_ids(&operation.predecessor);
    let new = node_ids(&operation.successor);
    let union = joined(&old, &new);
    match stage(random, operation) {
        0 => observation(at, &[&old], &old),
        1 => observation(at, &[&old], &union),
        2 => observation(at, &[&old, &new], &union),
        3 => observation(at, &[&new], &new),
        _ => observation(
            at,
            &[&old],
            &joined(&old, &[identity(2, 2).node_id().get()]),
        ),
    }
}

/// Which observation: 0 before a learner, 1 learner, 2 joint, 3 uniform, 4 obsolete learner.
fn stage(random: &mut Random, operation: &VoterReplacementRecord) -> usize {
    if random.chance(20) {
        return random.below(5);
    }
    let seen: usize = match operation.phase {
        Prepared => 0,
        SnapshotInstalled | LearnerAdded | CaughtUp => 1,
        Fenced | Joint => 2,
        Uniform => 3,
    };
    (seen + usize::from(random.chance(40))).min(3)
}

fn node_ids(configuration: &VoterConfiguration) -> Vec<u64> {
    let members = configuration.members.iter();
    let mut ids: Vec<u64> = members
        .map(|member| member.identity.node_id().get())
        .collect();
    ids.sort_unstable();
    ids
}

/// Both sets in one, rising.
fn joined(a: &[u64], b: &[u64]) -> Vec<u64> {
    let mut ids = [a, b].concat();
    ids.sort_unstable();
    ids.dedup();
    ids
}
