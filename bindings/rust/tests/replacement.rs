//! A whole replacement, from Begin to Finalize, with a restart after each call and each call twice.

mod common;

use common::{idle, marker, replacement, Call};
use voter_slots::{Change, LiveTable, LogId, Phase, Refusal, Table};

fn play(table: &mut Table, call: &Call) -> Result<Change, Refusal> {
    match call {
        Call::Command(command) => table.apply(command),
        Call::Observation(observation) => table.observe(observation),
    }
}

const PHASES: [Option<Phase>; 8] = [
    Some(Phase::Prepared),
    Some(Phase::SnapshotInstalled),
    Some(Phase::LearnerAdded),
    Some(Phase::CaughtUp),
    Some(Phase::Fenced),
    Some(Phase::Joint),
    Some(Phase::Uniform),
    None,
];

#[test]
fn every_table_of_three_to_nine_slots_goes_through() {
    for slots in [3, 5, 7, 9] {
        let mut table = idle(slots);
        let calls = replacement(&table, 1);
        for (step, (call, phase)) in calls.iter().zip(PHASES).enumerate() {
            assert_eq!(play(&mut table, call), Ok(Change::Changed), "step {step}");
            assert_eq!(table.revision(), 2 + step as u64);
            assert_eq!(table.slots(), usize::from(slots));
            let open = table.open_request();
            assert_eq!(open.map(|open| open.phase), phase);
            assert!(open.map_or(true, |open| open.slot.get() == 2));
            // The lost voter is retired from the Begin on, its successor and the others are not.
            assert!(table.is_retired(2));
            assert!(!table.is_retired(65_538) && !table.is_retired(1) && !table.is_retired(3));

            let again = Table::decode(table.as_bytes()).expect("a restart");
            assert_eq!(again, table);
            assert_eq!(again.open_request(), open);
            assert_eq!(
                (again.revision(), again.epoch()),
                (table.revision(), table.epoch())
            );
            table = again;

            // The same table as a value, and back.
            let live = LiveTable::from(&table);
            assert_eq!(Table::from(&live), table);
            assert_eq!(live.clone().encode(), table.as_bytes());
            let mut short = vec![7; table.as_bytes().len() - 1];
            assert_eq!(live.encode_into(&mut short), Err(Refusal::BufferTooShort));
            assert!(short.iter().all(|byte| *byte == 7));

            // A marker names the request while the candidate is a learner, at any cut.
            let learns = matches!(phase, Some(Phase::LearnerAdded | Phase::CaughtUp));
            let marked = table.apply(&marker(1, LogId::new(1, 1)));
            assert_eq!(marked == Ok(Change::Unchanged), learns);

            let before = table.clone();
            assert_eq!(
                play(&mut table, call),
                Ok(Change::Unchanged),
                "step {step} again"
            );
            assert_eq!(table, before);
        }
        assert_eq!(table.epoch(), 2);
        // The request is completed: its Begin again is accepted.
        assert_eq!(play(&mut table, &calls[0]), Ok(Change::Unchanged));
    }
}

#[test]
fn steps_out_of_order_are_refused_and_change_nothing() {
    let start = idle(3);
    let calls = replacement(&start, 1);
    let mut table = start.clone();
    for done in 0..calls.len() {
        for call in &calls[done + 1..] {
            let mut tried = table.clone();
            let Err(refusal) = play(&mut tried, call) else {
                panic!("a step too early was accepted after {done}");
            };
            assert!(matches!(
                refusal,
                Refusal::InvalidTransition | Refusal::StaleIncarnation
            ));
            assert_eq!(tried, table);
        }
        assert_eq!(play(&mut table, &calls[done]), Ok(Change::Changed));
    }
}
