//! How many values of a column differ in each group, null as one of them.

use std::collections::HashSet;
use std::hash::{BuildHasherDefault, Hasher};

use crate::column_type::ColumnType;
use crate::keys::GroupKeys;
use crate::one_key::{Keys, Rows};
use crate::words::hash_of_key;

/// Values are numbered, and each pair of a group and a value's number is held once.
pub struct Distinct<'a> {
    values: Keys<'a>,
    pairs: HashSet<u64, BuildHasherDefault<PairHasher>>,
    counts: Vec<u32>,
    /// The numbers of the values of some rows.
    numbers: Vec<usize>,
}

impl<'a> Distinct<'a> {
    pub fn new(column_type: ColumnType) -> Distinct<'a> {
        Distinct {
            values: Keys::of_type(column_type),
            pairs: HashSet::default(),
            counts: Vec::new(),
            numbers: Vec::new(),
        }
    }

    pub fn count(&self, group: usize) -> i128 {
        self.counts[group].into()
    }

    pub fn make_room(&mut self, groups: usize) {
        self.counts.resize(groups, 0);
    }

    /// Adds the values of rows of which the groups are told.
    pub fn add(&mut self, values: &mut Rows<'a>, groups: &[usize]) {
        let mut numbers = std::mem::take(&mut self.numbers);
        self.values.find_places(values, &mut numbers);
        for (&group, &number) in groups.iter().zip(&numbers) {
            self.insert(group, number);
        }
        self.numbers = numbers;
    }

    /// Adds groups of another part of the rows, of which the places there and here are told.
    pub fn merge(&mut self, other: &Distinct<'a>, places: &[(usize, usize)]) {
        let mut groups = vec![None; other.counts.len()];
        for &(there, here) in places {
            groups[there] = Some(here);
        }
        let mut numbers = vec![None; other.values.count()];
        for &pair in &other.pairs {
            let (group, there) = parts_of_pair(pair);
            if let Some(group) = groups[group] {
                let number = numbers[there]
                    .get_or_insert_with(|| self.values.place_of(&other.values, there));
                self.insert(group, *number);
            }
        }
    }

    #[inline(always)]
    fn insert(&mut self, group: usize, number: usize) {
        let is_new = self.pairs.insert(pair_of(group, number));
        self.counts[group] += u32::from(is_new);
    }
}

/// The hash of one pair.
#[derive(Default)]
struct PairHasher(u64);

impl Hasher for PairHasher {
    fn write(&mut self, _: &[u8]) {
        unreachable!("a pair is one word");
    }

    #[inline(always)]
    fn write_u64(&mut self, pair: u64) {
        self.0 = hash_of_key(pair.into());
    }

    fn finish(&self) -> u64 {
        self.0
    }
}

fn pair_of(group: usize, number: usize) -> u64 {
    (group as u64) << 32 | number as u64
}

fn parts_of_pair(pair: u64) -> (usize, usize) {
    ((pair >> 32) as usize, pair as u32 as usize)
}
