//! The named logs of the stored samples: each shows one thing about the replay program, with
//! nothing random in it. The original plays along, so that every Begin fits the table that stands.

use original::{
    ConsensusConfigurationEpoch, VoterIncarnation, VoterReplacementPhase::*, VoterSlotTable,
    MAX_VOTER_INCARNATION,
};

use crate::format::Mark;
use crate::record::{put_record, Begin, Body, Cut, Step};
use crate::replay::Run;
use crate::sample::{advance, begin, cut, identity, idle, marker, observation, open, snapshot};
use crate::wire;

/// Every named log with its name.
pub fn logs() -> Vec<(&'static str, Vec<u8>)> {
    vec![
        ("worked-example", worked_example()),
        ("whole-replacement", whole_replacement()),
        ("supersession", supersession()),
        ("every-answer", every_answer()),
        ("under-three-slots", under_three_slots()),
        ("ends-empty", Vec::new()),
        ("ends-after-a-record", short()),
        ("ends-mark-cut", short_and(b"M")),
        ("ends-size-cut", short_and(b"MK\0")),
        ("ends-body-cut", short_and(b"MK\0\x40cut short")),
        ("ends-unknown-mark", ends_unknown_mark()),
        ("ends-before-a-table", ends_before_a_table()),
    ]
}

/// A log as it is written, with the table that stands after its last record.
#[derive(Default)]
pub struct Log {
    pub bytes: Vec<u8>,
    run: Run,
}

impl Log {
    pub fn of_table(table: &VoterSlotTable) -> Self {
        let mut log = Self::default();
        log.put(*b"TB", &wire::table(table).bytes);
        log
    }

    pub fn put(&mut self, mark: Mark, body: &[u8]) {
        put_record(&mut self.bytes, mark, body);
        self.run.step(mark, body);
    }

    fn call(&mut self, body: Body) {
        self.put(body.mark(), &body.bytes());
    }

    pub fn calls(&mut self, bodies: impl IntoIterator<Item = Body>) {
        bodies.into_iter().for_each(|body| self.call(body));
    }

    /// A Begin of this request that fits the table, for slot 2 and then changed.
    fn begin(&mut self, request: u8, cut: Cut, change: impl FnOnce(&mut Begin)) {
        self.begin_of(2, request, cut, change);
    }

    fn begin_of(&mut self, slot: u16, request: u8, cut: Cut, change: impl FnOnce(&mut Begin)) {
        let mut body = begin(self.table(), slot, request, cut);
        change(&mut body);
        self.call(Body::Begin(body));
    }

    pub fn table(&self) -> &VoterSlotTable {
        self.run.table.as_ref().expect("a table stands")
    }
}

/// The ids of voters 1 to `count` in their first incarnation, with slot 2 in this one.
pub fn voters(count: u64, incarnation: u64) -> Vec<u64> {
    let second = identity(2, incarnation).node_id().get();
    let mut ids: Vec<u64> = (1..=count).filter(|id| *id != 2).collect();
    ids.push(second);
    ids.sort_unstable();
    ids
}

pub fn with(ids: &[u64], other: u64) -> Vec<u64> {
    let mut ids = [ids, &[other]].concat();
    ids.sort_unstable();
    ids
}

/// Document 01's own.
fn worked_example() -> Vec<u8> {
    let mut log = Log::of_table(&idle(1));
    log.call(marker(1, cut(1, 1)));
    log.call(observation(cut(1, 1), &[&[1]], &[1]));
    log.bytes
}

/// Nine slots, from Begin to Finalize: every step, and most of them repeated.
fn whole_replacement() -> Vec<u8> {
    let (old, new) = (voters(9, 1), voters(9, 2));
    let candidate = identity(2, 2).node_id().get();
    let union = with(&old, candidate);
    let at = |index| cut(2, index);
    let mut log = Log::of_table(&idle(9));
    log.call(observation(at(9), &[&old], &old));
    let first = begin(log.table(), 2, 1, at(10));
    log.calls([Body::Begin(first.clone()), Body::Begin(first.clone())]);
    log.calls([
        observation(at(11), &[&old], &old),
        advance(1, at(12), snapshot(at(10))),
        advance(1, at(13), snapshot(at(10))),
        observation(at(14), &[&old], &union),
        marker(1, at(15)),
        advance(1, at(16), Step::Continuation),
        advance(1, at(17), Step::Continuation),
        advance(1, at(18), Step::CaughtUp(at(15))),
        marker(1, at(19)),
        advance(1, at(20), Step::CaughtUp(at(19))),
        advance(1, at(21), Step::Fence),
        advance(1, at(22), Step::Fence),
        marker(1, at(23)), // past the fence: 25
        observation(at(24), &[&old, &new], &union),
        observation(at(25), &[&old, &new], &union),
        observation(at(26), &[&new], &new),
        observation(at(27), &[&new], &new),
        advance(1, at(28), Step::Finalize),
        advance(1, at(29), Step::Finalize),
        Body::Begin(first), // its receipt answers
        observation(at(30), &[&new], &new),
        observation(at(31), &[&old], &old), // with the retired voter: 25
    ]);
    log.bytes
}

/// A second request takes the place of the first one, whose learner is still there for a while.
fn supersession() -> Vec<u8> {
    let (old, new) = (voters(3, 1), voters(3, 3));
    let [obsolete, candidate] = [2, 3].map(|of| identity(2, of).node_id().get());
    let union = with(&old, candidate);
    let at = |index| cut(2, index);
    let mut log = Log::of_table(&idle(3));
    let first = begin(log.table(), 2, 1, at(10));
    log.calls([
        Body::Begin(first.clone()),
        advance(1, at(11), snapshot(at(10))),
        observation(at(12), &[&old], &with(&old, obsolete)),
    ]);
    log.begin_of(1, 2, at(13), |_| ()); // another slot: 15
    log.begin(2, at(14), |_| ());
    log.calls([
        advance(1, at(15), Step::CaughtUp(at(13))), // of the first: 13
        Body::Begin(first),                         // its receipt answers
        observation(at(16), &[&old], &with(&old, obsolete)),
        advance(2, at(17), snapshot(at(14))),
        observation(at(18), &[&old], &union),
        advance(2, at(20), Step::CaughtUp(at(19))),
        advance(2, at(21), Step::Fence),
    ]);
    log.begin(3, at(22), |_| ()); // past the fence: 19
    log.calls([
        observation(at(23), &[&old, &new], &union),
        observation(at(24), &[&new], &new),
        advance(2, at(25), Step::Finalize),
    ]);
    log.bytes
}

/// Each number that a log can have with 15, 19 or 23 in it. They need three slots and 16 needs
/// fewer, and a log has one table, so `under_three_slots` has that one.
fn every_answer() -> Vec<u8> {
    let mut log = Log::default();
    put_refused_tables(&mut log);
    let mut table = idle(3);
    // Eight changes fill the revision, and the successor's epoch is the last one.
    table.revision = u64::MAX - 8;
    table.configuration_epoch = ConsensusConfigurationEpoch::new(u64::MAX - 1).expect("an epoch");
    log.put(*b"TB", &wire::table(&table).bytes);
    put_refused_begins(&mut log);
    put_line_to_the_end(&mut log);
    log.bytes
}

/// 33 with no table, then 1 to 6.
fn put_refused_tables(log: &mut Log) {
    let table = idle(1);
    let bytes = wire::table(&table).bytes;
    log.call(marker(1, cut(1, 1))); // no table: 33
                                    // The first slot's number stands at 87, its incarnation at 89.
    let zeroed = |at: usize, size: usize| {
        let mut bytes = bytes.clone();
        bytes[at..at + size].fill(0);
        bytes
    };
    log.put(*b"TB", &zeroed(87, 2)); // 1
    log.put(*b"TB", &zeroed(89, 8)); // 2
    let mut exhausted = open(3, Prepared);
    if let Some(operation) = &mut exhausted.replacement {
        let last = VoterIncarnation::new(MAX_VOTER_INCARNATION);
        operation.attestation.expected_incarnation = last.expect("the last incarnation");
    }
    log.put(*b"TB", &wire::table(&exhausted).bytes); // 3
    log.put(*b"TB", b"OPVI\0\x02"); // 4
    let mut long = open(3, SnapshotInstalled);
    if let Some(taken) = long
        .replacement
        .as_mut()
        .and_then(|of| of.evidence.snapshot.as_mut())
    {
        taken.snapshot_id = "s".repeat(257);
    }
    log.put(*b"TB", &wire::table(&long).bytes); // 5
    log.put(*b"TB", &bytes[1..]); // 6
}

/// What is refused before anything is open: 33, the attestation's number, 30, 31, 12, 13, 25.
fn put_refused_begins(log: &mut Log) {
    let at = |index| cut(2, index);
    let table = wire::table(&idle(1)).bytes;
    log.put(*b"TB", &table); // a table stands: 33
    log.put(*b"MK", b"short"); // 33
    log.begin(1, at(1), |body| body.attestation.truncate(9)); // 6
    log.begin(1, at(1), |body| body.candidate.slot = 0); // 30
    log.call(observation(at(1), &[&[1, 2, 3]], &[1, 2, 1 << 63])); // 30
    log.call(observation(at(1), &[&[1, 3, 2]], &[1, 2, 3])); // 31
    log.begin(1, at(1), |body| body.supplied_digest = [0; 32]); // 12
    log.begin(1, at(1), |body| body.expected_revision -= 1); // 13
    log.begin(1, cut(0, 1), |_| ()); // 25
}

/// A replacement to its end, with 14, 15 and 19 on the way and 23 and 24 after it.
fn put_line_to_the_end(log: &mut Log) {
    let (old, new) = (voters(3, 1), voters(3, 2));
    let union = with(&old, identity(2, 2).node_id().get());
    let at = |index| cut(2, index);
    log.begin(1, at(10), |_| ());
    let mut other = advance(1, at(11), snapshot(at(10)));
    if let Body::Advance(body) = &mut other {
        body.request_digest = [0; 32];
    }
    log.call(other); // 14
    log.begin_of(1, 2, at(12), |_| ()); // 15
    log.calls([
        advance(1, at(13), snapshot(at(10))),
        observation(at(14), &[&old], &union),
        marker(1, at(15)),
        advance(1, at(16), Step::CaughtUp(at(15))),
        advance(1, at(17), Step::Fence),
    ]);
    log.begin(2, at(18), |_| ()); // 19
    log.calls([
        observation(at(19), &[&old, &new], &union),
        observation(at(20), &[&new], &new),
        advance(1, at(21), Step::Finalize),
    ]);
    log.begin(2, at(22), |_| ()); // 23
    log.call(advance(1, at(23), Step::Finalize)); // 24
    log.call(observation(at(24), &[&new], &new)); // 24
}

/// 16: a table of one slot cannot lose its voter.
fn under_three_slots() -> Vec<u8> {
    let mut log = Log::of_table(&idle(1));
    log.begin_of(1, 1, cut(2, 10), |_| ());
    log.bytes
}

/// A table of one slot and a marker.
fn short() -> Vec<u8> {
    let mut log = Log::of_table(&idle(1));
    log.call(marker(1, cut(1, 1)));
    log.bytes
}

fn short_and(end: &[u8]) -> Vec<u8> {
    [&short(), end].concat()
}

/// The record after the unknown mark is whole, and is not read.
fn ends_unknown_mark() -> Vec<u8> {
    let mut after = b"XX\0\0".to_vec();
    put_record(
        &mut after,
        *b"OB",
        &observation(cut(1, 1), &[&[1]], &[1]).bytes(),
    );
    short_and(&after)
}

/// No table ever stands: a call without one, a table that is refused, an observation cut short.
fn ends_before_a_table() -> Vec<u8> {
    let mut log = Log::default();
    log.call(marker(1, cut(1, 1)));
    log.put(*b"TB", b"OPVI");
    log.bytes.extend(b"OB\0\x1Fcut short");
    log.bytes
}

#[cfg(test)]
mod tests {
    use std::collections::BTreeSet;

    use super::*;
    use crate::replay;

    /// The answers in the order of the lines.
    fn answers(log: &[u8]) -> Vec<u8> {
        let lines = replay::lines(log);
        let answer = |line: &str| line.split(' ').nth(2)?.parse().ok();
        lines.lines().filter_map(answer).collect()
    }

    fn named(name: &str) -> Vec<u8> {
        let found = logs().into_iter().find(|(other, _)| *other == name);
        found.expect("a log of this name").1
    }

    fn reached(name: &str) -> BTreeSet<u8> {
        answers(&named(name)).into_iter().collect()
    }

    /// Every number of document 01 but these: 7 is the successor check's and 32 the writer's, which
    /// a replay does not call by themselves (in a command that check's refusal is 25). 11, 17, 18,
    /// 20 to 22 and 26 to 28 are given by nothing that is ported.
    #[test]
    fn the_logs_have_every_answer_of_a_replay() {
        let mut all = reached("every-answer");
        let without_16 = BTreeSet::from([
            0, 1, 2, 3, 4, 5, 6, 12, 13, 14, 15, 19, 23, 24, 25, 30, 31, 33,
        ]);
        assert_eq!(all, without_16);
        all.append(&mut reached("under-three-slots"));
        assert!(all.contains(&16));
        for (name, _) in logs() {
            assert!(reached(name).is_subset(&all), "{name}");
        }
    }

    /// Why 16 stands in a log of its own: it needs fewer than three slots, and a table with an open
    /// request, or one that gives 23, has three.
    #[test]
    fn a_table_of_one_slot_with_an_open_request_is_refused() {
        let mut table = open(3, Prepared);
        table.slots.truncate(1);
        assert!(original::decode_voter_slot_table(&wire::table(&table).bytes).is_err());
    }

    /// Refusals come where the comments say so; everything else of the line is accepted.
    #[test]
    fn the_refusals_of_the_lines_of_history() {
        let refused = |name| {
            let answers = answers(&named(name));
            let records = (1..).zip(answers).filter(|(_, answer)| *answer != 0);
            records.collect::<Vec<(usize, u8)>>()
        };
        assert_eq!(refused("worked-example"), [(2, 25)]);
        assert_eq!(refused("whole-replacement"), [(17, 25), (26, 25)]);
        assert_eq!(refused("supersession"), [(5, 15), (7, 13), (14, 19)]);
    }

    /// Both lines of history end with their request completed.
    #[test]
    fn the_lines_of_history_end_idle() {
        for (name, incarnation, revision) in [("whole-replacement", 2, 11), ("supersession", 3, 12)]
        {
            let mut run = Run::default();
            for item in replay::items(&named(name)) {
                let replay::Item::Whole(mark, body) = item else {
                    panic!("a whole record");
                };
                run.step(mark, body);
            }
            let table = run.table.expect("a table");
            assert!(table.replacement.is_none(), "{name}");
            assert_eq!(table.revision, revision, "{name}");
            assert_eq!(
                table.slots[1].member.identity.incarnation().get(),
                incarnation
            );
        }
    }

    #[test]
    fn each_way_to_end() {
        let last = |name: &str| {
            let lines = replay::lines(&named(name));
            lines.lines().last().map(str::to_owned).unwrap_or_default()
        };
        assert_eq!(last("ends-empty"), "replay 1");
        assert_eq!(last("ends-after-a-record"), "2 MK 25 1");
        assert_eq!(last("ends-mark-cut"), "3 ?? 33 1");
        assert_eq!(last("ends-size-cut"), "3 MK 33 1");
        assert_eq!(last("ends-body-cut"), "3 MK 33 1");
        assert_eq!(last("ends-unknown-mark"), "3 ?? 33 1");
        assert_eq!(last("ends-before-a-table"), "3 OB 33 0");
    }
}
