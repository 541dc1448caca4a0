//! One key for each row, which is a number of 128 bits.

use std::borrow::Cow;

use crate::column_type::ColumnType;
use crate::header::{KeyColumn, Plan};
use crate::keys::{GroupKeys, Key, RowKeys};
use crate::reader::TextCell;
use crate::slots::{share_of_hash, Slots};
use crate::words::{hash_of_key, is_long};

#[derive(Default)]
pub struct Rows<'a> {
    /// The key of each row, or nothing for null.
    keys: Vec<Option<u128>>,
    /// The texts of those keys that do not hold them, in the order of their rows.
    long_texts: Vec<Cow<'a, [u8]>>,
}

pub struct Keys<'a> {
    slots: Slots,
    /// The key of each group, 0 for null.
    keys: Vec<u128>,
    null_place: Option<usize>,
    holds_texts: bool,
    /// The texts of groups whose keys do not hold them, up to the last of those.
    long_texts: Vec<Cow<'a, [u8]>>,
}

impl<'a> RowKeys<'a> for Rows<'a> {
    fn clear(&mut self) {
        self.keys.clear();
        self.long_texts.clear();
    }

    fn is_empty(&self) -> bool {
        self.keys.is_empty()
    }

    #[inline(always)]
    fn push_number(&mut self, key: Option<u128>) {
        self.keys.push(key);
    }

    #[inline(always)]
    fn push_text(&mut self, cell: Option<TextCell<'a>>) {
        let key = cell.as_ref().map(TextCell::key);
        self.keys.push(key);
        if let (Some(cell), Some(true)) = (cell, key.map(is_long)) {
            self.long_texts.push(cell.into_text());
        }
    }

    #[inline(always)]
    fn end_row(&mut self) {}
}

impl<'a> GroupKeys<'a> for Keys<'a> {
    type Rows = Rows<'a>;

    fn new(plan: &Plan) -> Keys<'a> {
        Keys::of_type(plan.keys[0].column_type)
    }

    fn count(&self) -> usize {
        self.keys.len()
    }

    fn key(&self, place: usize, _: &KeyColumn) -> Key<'_> {
        let key = self.keys[place];
        if self.null_place == Some(place) {
            Key::Null
        } else if self.holds_texts && is_long(key) {
            Key::Text(&self.long_texts[place])
        } else {
            Key::Packed(key)
        }
    }

    fn share(&self, place: usize, count: usize) -> usize {
        if self.null_place == Some(place) {
            return 0;
        }
        share_of_hash(hash_of_key(self.keys[place]), count)
    }

    /// The first slots of all keys are looked up before any group is, so that the processor waits for many of
    /// them at once.
    fn find_places(&mut self, rows: &mut Rows<'a>, places: &mut Vec<usize>) {
        let mut long_texts = rows.long_texts.drain(..);
        places.clear();
        places.extend(rows.keys.iter().map(|key| {
            let hash = hash_of_key(key.unwrap_or(0));
            self.slots.first_place(hash)
        }));
        for (key, place) in rows.keys.iter().zip(places) {
            *place = match *key {
                None => self.place_of_null(),
                Some(key) if self.holds_texts && is_long(key) => self.place(key, long_texts.next()),
                Some(key) if self.keys.get(*place) == Some(&key) => *place,
                Some(key) => self.place(key, None),
            };
        }
    }

    fn place_of(&mut self, other: &Keys<'a>, place: usize) -> usize {
        let key = other.keys[place];
        if other.null_place == Some(place) {
            self.place_of_null()
        } else if self.holds_texts && is_long(key) {
            self.place(key, Some(other.long_texts[place].clone()))
        } else {
            self.place(key, None)
        }
    }
}

impl<'a> Keys<'a> {
    pub fn of_type(column_type: ColumnType) -> Keys<'a> {
        Keys {
            slots: Slots::new(),
            keys: Vec::new(),
            null_place: None,
            holds_texts: column_type.holds_texts(),
            long_texts: Vec::new(),
        }
    }

    fn place_of_null(&mut self) -> usize {
        let next = self.keys.len();
        let place = *self.null_place.get_or_insert(next);
        if place == next {
            self.keys.push(0);
        }
        place
    }

    /// The place of a key's group, which is a new one, last in order, where the key is new.
    fn place(&mut self, key: u128, text: Option<Cow<'a, [u8]>>) -> usize {
        let found = self.slots.find(hash_of_key(key), |place| {
            self.keys[place] == key
                && text
                    .as_ref()
                    .is_none_or(|text| *text == self.long_texts[place])
        });
        match found {
            Ok(place) => place,
            Err(at) => self.insert(at, key, text),
        }
    }

    #[cold]
    fn insert(&mut self, at: usize, key: u128, text: Option<Cow<'a, [u8]>>) -> usize {
        let place = self.keys.len();
        self.keys.push(key);
        if let Some(text) = text {
            self.long_texts.resize(place, Cow::default());
            self.long_texts.push(text);
        }
        self.slots.insert(at, hash_of_key(key), place);
        place
    }
}
