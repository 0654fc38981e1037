//! The pairs of tables for the successor check: tables of one line, lines that part, and copies
//! with one change. Most pairs are valid on both sides, so that the check itself decides.

use original::{VoterReplacementPhase, VoterSlotTable};

use super::questions::{attest_last_incarnation, sparse, Source};
use super::random::Random;
use super::{departures, reshape};
use crate::call;

impl Source {
    /// The two tables of a successor check, new and old, each sparse.
    pub(super) fn two_tables(&self, random: &mut Random) -> Vec<u8> {
        let pair = match random.below(100) {
            0..12 => self
                .parted(random)
                .map(|new| (new, self.walk.table.clone())),
            12..22 => self.finished(random),
            22..45 => Some(self.changed_copy(random)),
            _ => None,
        };
        if let Some((new, old)) = pair {
            return [sparse(random, &new, 0), sparse(random, &old, 0)].concat();
        }
        let (new, old) = self.now_and_earlier(random);
        let spoilt = if random.chance(20) { 50 } else { 0 };
        [sparse(random, &new, spoilt), sparse(random, &old, spoilt)].concat()
    }

    /// A table of the line and one before it, in either order, each as it stands or changed.
    fn now_and_earlier(&self, random: &mut Random) -> (VoterSlotTable, VoterSlotTable) {
        let mut new = self.walk.table.clone();
        let mut old = self.earlier_table(random);
        if random.chance(25) {
            reshape::borrow(random, &mut new, &old);
        }
        for _ in 0..random.pick(&[0, 0, 0, 1, 1, 2]) {
            let changed = if random.chance(70) {
                &mut new
            } else {
                &mut old
            };
            reshape::reshape(random, changed);
        }
        if random.chance(30) {
            new.revision = old.revision.saturating_add(random.pick(&[0, 1, 1, 1, 5]));
        }
        if random.chance(5) {
            let attesting = if random.chance(50) {
                &mut new
            } else {
                &mut old
            };
            attest_last_incarnation(random, attesting);
        }
        if random.chance(12) {
            std::mem::swap(&mut new, &mut old);
        }
        (new, old)
    }

    /// An earlier table with a request open, superseded there instead of going on: a line that
    /// parts from this one.
    fn parted(&self, random: &mut Random) -> Option<VoterSlotTable> {
        let open: Vec<&VoterSlotTable> = self
            .earlier
            .iter()
            .filter(|table| table.replacement.is_some())
            .collect();
        let mut table = (!open.is_empty()).then(|| random.pick(&open))?.clone();
        let record = departures::superseding(random, &table, self.walk.position());
        if let Ok(call) = call::held(&record) {
            call::run(&call, &mut table);
        }
        table.revision = table.revision.saturating_add(60);
        if random.chance(50) {
            reshape::raise_epoch(&mut table);
        }
        Some(table)
    }

    /// A table with a request open, and one in which it is completed.
    fn finished(&self, random: &mut Random) -> Option<(VoterSlotTable, VoterSlotTable)> {
        let old = self.earlier_table(random);
        let new = reshape::finished(random, &old)?;
        Some((new, old))
    }

    /// Mostly one of the last few tables; now and then any, or one right after its fence.
    fn earlier_table(&self, random: &mut Random) -> VoterSlotTable {
        let fenced = |table: &&VoterSlotTable| {
            let open = table.replacement.as_ref();
            open.is_some_and(|open| open.phase == VoterReplacementPhase::Fenced)
        };
        let fenced: Vec<&VoterSlotTable> = self.earlier.iter().filter(fenced).collect();
        if !fenced.is_empty() && random.chance(20) {
            return random.pick(&fenced).clone();
        }
        match self.earlier.len() {
            0 => self.walk.table.clone(),
            count if random.chance(60) => {
                self.earlier[count - 1 - random.below(count.min(4))].clone()
            }
            count => self.earlier[random.below(count)].clone(),
        }
    }

    /// The same table one revision later, with one change.
    fn changed_copy(&self, random: &mut Random) -> (VoterSlotTable, VoterSlotTable) {
        let old = self.walk.table.clone();
        let mut new = old.clone();
        new.revision = new.revision.saturating_add(1);
        reshape::reshape(random, &mut new);
        (new, old)
    }
}
