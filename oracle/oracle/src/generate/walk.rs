//! A line of history as it is generated: the table, the log's position, and the records given so
//! far. The original runs along, so that the next record fits the table that really stands.

use original::VoterSlotTable;

use super::random::Random;
use super::{departures, records, tables};
use crate::call;
use crate::record::{Body, Cut};

pub struct Walk {
    pub table: VoterSlotTable,
    position: Cut,
    given: Vec<Body>,
    /// Percent of records that take the request further.
    right: usize,
}

impl Walk {
    pub fn new(random: &mut Random, right: usize) -> Self {
        let position = match random.below(12) {
            0 => Cut {
                term: u64::MAX - 1,
                index: 1 << 40,
            },
            1 => Cut {
                term: 3,
                index: u64::MAX - 30,
            },
            _ => Cut {
                term: 1 + random.below(3) as u64,
                index: 10,
            },
        };
        Self {
            table: tables::start(random),
            position,
            given: Vec::new(),
            right,
        }
    }

    /// Where the log stands.
    pub fn position(&self) -> Cut {
        self.position
    }

    /// The next record, not yet played.
    pub fn next(&mut self, random: &mut Random) -> Body {
        let cut = self.next_cut(random);
        let body = self.chosen(random, cut);
        self.given.push(body.clone());
        body
    }

    fn chosen(&self, random: &mut Random, cut: Cut) -> Body {
        let before_fence = self
            .table
            .replacement
            .as_ref()
            .is_some_and(|open| open.evidence.fence.is_none());
        if before_fence && random.chance(5) {
            return departures::superseding(random, &self.table, cut);
        }
        if random.chance(self.right) {
            return records::right(random, &self.table, cut);
        }
        match random.below(10) {
            0 | 1 if !self.given.is_empty() => self.repeated(random, cut),
            2..=5 => self.departed(random, cut),
            _ => departures::other(random, &self.table, cut),
        }
    }

    /// An earlier record, mostly a late one, at its own cut or a new one.
    fn repeated(&self, random: &mut Random, cut: Cut) -> Body {
        let late = self.given.len().min(6);
        let back = if random.chance(70) {
            random.below(late)
        } else {
            random.below(self.given.len())
        };
        let mut body = self.given[self.given.len() - 1 - back].clone();
        if random.chance(50) {
            body.set_cut(cut);
        }
        body
    }

    /// The right record or another one, changed in one or two places.
    pub fn departed(&self, random: &mut Random, cut: Cut) -> Body {
        let mut body = if random.chance(70) {
            records::right(random, &self.table, cut)
        } else {
            departures::other(random, &self.table, cut)
        };
        for _ in 0..random.pick(&[1, 1, 1, 2]) {
            departures::depart(random, &self.table, &mut body);
        }
        body
    }

    /// Plays a record on the table, where its values can be held.
    pub fn play(&mut self, body: &Body) {
        if let Ok(call) = call::held(body) {
            call::run(&call, &mut self.table);
        }
    }

    fn next_cut(&mut self, random: &mut Random) -> Cut {
        self.position.index = self
            .position
            .index
            .saturating_add(1 + random.below(4) as u64);
        if random.chance(6) {
            self.position.term = self.position.term.saturating_add(1);
        }
        self.position
    }
}
