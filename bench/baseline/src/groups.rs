//! The groups of rows, in the order of their first rows, with what is asked of each.

use crate::batch::Batch;
use crate::header::Plan;
use crate::keys::GroupKeys;
use crate::totals::Totals;

pub struct Groups<'a, K> {
    pub keys: K,
    /// One for each aggregate.
    totals: Vec<Totals<'a>>,
}

impl<'a, K: GroupKeys<'a>> Groups<'a, K> {
    pub fn new(plan: &Plan) -> Groups<'a, K> {
        Groups {
            keys: K::new(plan),
            totals: plan.folds.iter().map(Totals::new).collect(),
        }
    }

    /// What an aggregate made of a group, or nothing for null.
    pub fn total(&self, aggregate: usize, place: usize) -> Option<i128> {
        self.totals[aggregate].get(place)
    }

    /// Adds the rows of a batch.
    pub fn add(&mut self, batch: &mut Batch<'a, K::Rows>, plan: &Plan, places: &mut Vec<usize>) {
        self.keys.find_places(&mut batch.keys, places);
        let count = self.keys.count();
        for (fold, totals) in plan.folds.iter().zip(&mut self.totals) {
            totals.add(&mut batch.cells, fold.column, places, count);
        }
    }

    /// Adds what was made of groups of another part of the rows, of which the places there and here are told.
    pub fn merge(&mut self, other: &Groups<'a, K>, places: &[(usize, usize)]) {
        let count = self.keys.count();
        for (totals, others) in self.totals.iter_mut().zip(&other.totals) {
            totals.merge(others, places, count);
        }
    }
}
