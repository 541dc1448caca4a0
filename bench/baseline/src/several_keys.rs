//! Several keys for each row, which are the bytes of a row.

use crate::header::{KeyColumn, Plan};
use crate::keys::{GroupKeys, Key, RowKeys};
use crate::reader::TextCell;
use crate::slots::{share_of_hash, Slots};
use crate::words::{append_first, hash_of_words, WORD};

/// The first byte of a part that is null, and of one with its length in the next eight bytes. Any other first
/// byte is the length and one.
const NULL: u8 = 0;
const LONG: u8 = u8::MAX;

/// Rows, one behind the other. A row has a part for each key, in the order of the columns, and zeros up to a
/// whole word: rows are equal where all their keys are, since each part begins with its length.
#[derive(Default)]
pub struct Rows {
    bytes: Vec<u8>,
    ends: Vec<usize>,
    hashes: Vec<u64>,
}

pub struct Keys {
    slots: Slots,
    rows: Rows,
}

impl<'a> RowKeys<'a> for Rows {
    fn clear(&mut self) {
        self.bytes.clear();
        self.ends.clear();
        self.hashes.clear();
    }

    fn is_empty(&self) -> bool {
        self.ends.is_empty()
    }

    /// Numbers near 0 have the fewest bytes, since the sign stands in the lowest bit.
    #[inline(always)]
    fn push_number(&mut self, key: Option<u128>) {
        let Some(key) = key else {
            return self.bytes.push(NULL);
        };
        let signed = key << 1 ^ (key as i128 >> 127) as u128;
        let length = 16 - signed.leading_zeros() as usize / 8;
        self.push_length(length);
        append_first(length, &signed.to_le_bytes(), &mut self.bytes);
    }

    #[inline(always)]
    fn push_text(&mut self, cell: Option<TextCell<'a>>) {
        let Some(cell) = cell else {
            return self.bytes.push(NULL);
        };
        self.push_length(cell.length());
        cell.append_to(&mut self.bytes);
    }

    #[inline(always)]
    fn end_row(&mut self) {
        let begin = self.end();
        let missing = self.bytes.len().wrapping_neg() % WORD;
        append_first(missing, &[0; 16], &mut self.bytes);
        self.hashes.push(hash_of_words(&self.bytes[begin..]));
        self.ends.push(self.bytes.len());
    }
}

impl Rows {
    fn end(&self) -> usize {
        self.ends.last().copied().unwrap_or(0)
    }

    #[inline(always)]
    fn push_length(&mut self, length: usize) {
        if length < usize::from(LONG) - 1 {
            return self.bytes.push(length as u8 + 1);
        }
        self.bytes.push(LONG);
        self.bytes.extend_from_slice(&length.to_le_bytes());
    }

    #[inline(always)]
    fn row(&self, place: usize) -> &[u8] {
        let begin = if place == 0 { 0 } else { self.ends[place - 1] };
        &self.bytes[begin..self.ends[place]]
    }

    fn push_row(&mut self, row: &[u8], hash: u64) {
        self.bytes.extend_from_slice(row);
        self.ends.push(self.bytes.len());
        self.hashes.push(hash);
    }
}

impl<'a> GroupKeys<'a> for Keys {
    type Rows = Rows;

    fn new(_: &Plan) -> Keys {
        Keys {
            slots: Slots::new(),
            rows: Rows::default(),
        }
    }

    fn count(&self) -> usize {
        self.rows.ends.len()
    }

    fn key(&self, place: usize, column: &KeyColumn) -> Key<'_> {
        match part(self.rows.row(place), column.part) {
            None => Key::Null,
            Some(text) if column.column_type.holds_texts() => Key::Text(text),
            Some(bytes) => Key::Packed(number(bytes)),
        }
    }

    fn share(&self, place: usize, count: usize) -> usize {
        share_of_hash(self.rows.hashes[place], count)
    }

    /// As with one key the first slots are looked up before any group is.
    fn find_places(&mut self, rows: &mut Rows, places: &mut Vec<usize>) {
        let hashes = rows.hashes.iter();
        places.clear();
        places.extend(hashes.map(|&hash| self.slots.first_likely_place(hash)));
        for (row, place) in places.iter_mut().enumerate() {
            let is_found = *place < self.rows.ends.len() && self.rows.row(*place) == rows.row(row);
            if !is_found {
                *place = self.place(rows, row);
            }
        }
    }

    fn place_of(&mut self, other: &Keys, place: usize) -> usize {
        self.place(&other.rows, place)
    }
}

impl Keys {
    /// The place of a row's group, which is a new one, last in order, where the row's keys are new.
    fn place(&mut self, rows: &Rows, row: usize) -> usize {
        let hash = rows.hashes[row];
        let row = rows.row(row);
        let found = self.slots.find(hash, |place| self.rows.row(place) == row);
        found.unwrap_or_else(|at| {
            let place = self.rows.ends.len();
            self.rows.push_row(row, hash);
            self.slots.insert(at, hash, place);
            place
        })
    }
}

/// A part of a row, or nothing for null.
fn part(row: &[u8], number: usize) -> Option<&[u8]> {
    let (mut found, mut rest) = split_part(row);
    for _ in 0..number {
        (found, rest) = split_part(rest);
    }
    found
}

/// The first part of what is left of a row, and what is behind it.
fn split_part(bytes: &[u8]) -> (Option<&[u8]>, &[u8]) {
    let (&first, rest) = bytes.split_first().expect("a part has a first byte");
    let (length, rest) = match first {
        NULL => return (None, rest),
        LONG => {
            let (length, rest) = rest.split_first_chunk().expect("a length has eight bytes");
            (usize::from_le_bytes(*length), rest)
        }
        _ => (usize::from(first) - 1, rest),
    };
    let (part, rest) = rest.split_at(length);
    (Some(part), rest)
}

/// The number that a part holds.
fn number(part: &[u8]) -> u128 {
    let mut bytes = [0; 16];
    bytes[..part.len()].copy_from_slice(part);
    let signed = u128::from_le_bytes(bytes);
    signed >> 1 ^ (signed & 1).wrapping_neg()
}
