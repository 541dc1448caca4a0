//! What each aggregate makes of the rows of each group.

use std::iter::repeat;

use crate::distinct::Distinct;
use crate::header::Fold;
use crate::one_key::Rows;
use crate::request::Method;

/// The totals of one aggregate, by the places of the groups.
pub enum Totals<'a> {
    Count(Vec<i128>),
    Sum(Vec<i128>),
    Valid(Vec<i128>),
    /// The least or the greatest valid cell, if there is one.
    Min(Vec<Option<i128>>),
    Max(Vec<Option<i128>>),
    Distinct(Distinct<'a>),
}

/// The cells of some rows, by the places of their columns among those that are kept.
pub struct Cells<'a> {
    /// Numbers, flags as 0 or 1, and texts as 0.
    pub numbers: Vec<Vec<Option<i128>>>,
    pub values: Vec<Rows<'a>>,
}

impl<'a> Totals<'a> {
    pub fn new(fold: &Fold) -> Totals<'a> {
        match fold.method {
            Method::Count => Totals::Count(Vec::new()),
            Method::Sum => Totals::Sum(Vec::new()),
            Method::Valid => Totals::Valid(Vec::new()),
            Method::Min => Totals::Min(Vec::new()),
            Method::Max => Totals::Max(Vec::new()),
            Method::NUnique => Totals::Distinct(Distinct::new(fold.column_type)),
        }
    }

    /// The total of a group, or nothing for null.
    pub fn get(&self, place: usize) -> Option<i128> {
        match self {
            Totals::Count(totals) | Totals::Sum(totals) | Totals::Valid(totals) => {
                Some(totals[place])
            }
            Totals::Min(totals) | Totals::Max(totals) => totals[place],
            Totals::Distinct(distinct) => Some(distinct.count(place)),
        }
    }

    /// Adds rows of which the places of their groups are told, and the number of all groups.
    pub fn add(&mut self, cells: &mut Cells<'a>, column: usize, places: &[usize], count: usize) {
        self.make_room(count);
        let rows = places.iter().copied();
        let numbers = cells.numbers.get(column).map_or(&[][..], Vec::as_slice);
        let numbers = rows.clone().zip(numbers.iter().copied());
        match self {
            Totals::Count(totals) => update(totals, rows.zip(repeat(1)), i128::wrapping_add),
            Totals::Sum(totals) => update(totals, numbers, |total, cell| {
                total.wrapping_add(cell.unwrap_or(0))
            }),
            Totals::Valid(totals) => update(totals, numbers, |total, cell| {
                total + i128::from(cell.is_some())
            }),
            Totals::Min(totals) => update(totals, numbers, least),
            Totals::Max(totals) => update(totals, numbers, Ord::max),
            Totals::Distinct(distinct) => distinct.add(&mut cells.values[column], places),
        }
    }

    /// Adds groups of another part of the rows, of which the places there and here are told, and the number of
    /// all groups here.
    pub fn merge(&mut self, other: &Totals<'a>, places: &[(usize, usize)], count: usize) {
        use Totals::{Count, Max, Min, Sum, Valid};
        self.make_room(count);
        match (self, other) {
            (Count(own), Count(others)) | (Sum(own), Sum(others)) | (Valid(own), Valid(others)) => {
                update(own, moved(others, places), i128::wrapping_add)
            }
            (Min(own), Min(others)) => update(own, moved(others, places), least),
            (Max(own), Max(others)) => update(own, moved(others, places), Ord::max),
            (Totals::Distinct(own), Totals::Distinct(others)) => own.merge(others, places),
            _ => unreachable!("all parts have one plan"),
        }
    }

    fn make_room(&mut self, count: usize) {
        match self {
            Totals::Count(totals) | Totals::Sum(totals) | Totals::Valid(totals) => {
                totals.resize(count, 0)
            }
            Totals::Min(totals) | Totals::Max(totals) => totals.resize(count, None),
            Totals::Distinct(distinct) => distinct.make_room(count),
        }
    }
}

/// Updates the total at each place by what comes with the place.
#[inline(always)]
fn update<Total: Copy, Cell>(
    totals: &mut [Total],
    cells: impl Iterator<Item = (usize, Cell)>,
    updated: impl Fn(Total, Cell) -> Total,
) {
    for (place, cell) in cells {
        totals[place] = updated(totals[place], cell);
    }
}

/// Totals of another part of the rows, with their places here.
fn moved<'t, Total: Copy>(
    totals: &'t [Total],
    places: &'t [(usize, usize)],
) -> impl Iterator<Item = (usize, Total)> + 't {
    places.iter().map(|&(there, here)| (here, totals[there]))
}

/// The lesser of two cells; null is beyond all of them.
#[inline(always)]
fn least(left: Option<i128>, right: Option<i128>) -> Option<i128> {
    match (left, right) {
        (Some(left), Some(right)) => Some(left.min(right)),
        _ => left.or(right),
    }
}
