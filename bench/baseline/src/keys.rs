//! What is asked of keys, be it one for each row or several.

use crate::header::{KeyColumn, Plan};
use crate::reader::TextCell;

/// What is told of one key of a group.
pub enum Key<'a> {
    Null,
    /// A number, or a text that is not long.
    Packed(u128),
    Text(&'a [u8]),
}

/// The keys of some rows, which are read one cell after another.
pub trait RowKeys<'a>: Default {
    fn clear(&mut self);

    fn is_empty(&self) -> bool;

    fn push_number(&mut self, key: Option<u128>);

    fn push_text(&mut self, cell: Option<TextCell<'a>>);

    /// Tells that all keys of a row were given.
    fn end_row(&mut self);
}

/// The keys of groups, which have their places in the order of their first rows.
pub trait GroupKeys<'a>: Send + Sync {
    type Rows: RowKeys<'a>;

    fn new(plan: &Plan) -> Self;

    fn count(&self) -> usize;

    fn key(&self, place: usize, column: &KeyColumn) -> Key<'_>;

    /// A number below `count` that groups of the same keys have in common.
    fn share(&self, place: usize, count: usize) -> usize;

    /// The places of the groups of all rows. A group that is new is last in order.
    fn find_places(&mut self, rows: &mut Self::Rows, places: &mut Vec<usize>);

    /// The place of the group that has the keys of a group of another part of the rows.
    fn place_of(&mut self, other: &Self, place: usize) -> usize;
}
