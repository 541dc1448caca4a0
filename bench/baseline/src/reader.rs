//! The fields of a CSV text: parted by commas, quoted or not, empty lines passed over. Most cells are read by
//! a short way, which leaves the others to `field`.

use std::borrow::Cow;
use std::cell::Cell;

use crate::fault::Fault;
use crate::numbers::{digits, NumberForm, SHORT};
use crate::words::{append_first, ends_field, field_end, key_of_text, short_number_end};

const BAD_CELL: Fault = Fault::Table("a cell does not read by the type of its column");
const OTHER_LENGTH: Fault = Fault::Table("a record has another number of fields than the header");

/// What stands at a place, and the place behind it.
type Read<T> = Result<(T, usize), Fault>;

/// A text, and the word that is null in it. Each call takes the place of a field and tells the one behind it.
pub struct Reader<'a> {
    text: &'a [u8],
    null_word: &'a [u8],
    /// Whether the text ended inside quotes.
    open: Cell<bool>,
}

/// What a glance at a field is enough for, in a column of which no cell is kept.
#[derive(Clone, Copy)]
pub enum Glance {
    Text,
    Number { with_minus: bool },
    Nothing,
}

/// A text between two places of a longer one.
#[derive(Clone)]
pub struct TextCell<'a> {
    text: Cow<'a, [u8]>,
    begin: usize,
    end: usize,
}

impl<'a> TextCell<'a> {
    fn of_field(text: Cow<'a, [u8]>) -> TextCell<'a> {
        let end = text.len();
        TextCell {
            text,
            begin: 0,
            end,
        }
    }

    #[inline(always)]
    pub fn key(&self) -> u128 {
        key_of_text(&self.text, self.begin, self.end)
    }

    #[inline(always)]
    pub fn length(&self) -> usize {
        self.end - self.begin
    }

    /// Appends the text, a short one by a copy of as many bytes as any other.
    #[inline(always)]
    pub fn append_to(&self, bytes: &mut Vec<u8>) {
        match self.text[self.begin..].first_chunk() {
            Some(block) if self.length() <= block.len() => {
                append_first(self.length(), block, bytes)
            }
            _ => bytes.extend_from_slice(&self.text[self.begin..self.end]),
        }
    }

    pub fn into_text(self) -> Cow<'a, [u8]> {
        match self.text {
            Cow::Borrowed(text) => Cow::Borrowed(&text[self.begin..self.end]),
            Cow::Owned(text) => Cow::Owned(text),
        }
    }
}

pub fn check_text(text: &[u8]) -> Result<(), Fault> {
    match std::str::from_utf8(text) {
        Ok(_) => Ok(()),
        Err(_) => Err(Fault::Table("a text is not UTF-8")),
    }
}

impl<'a> Reader<'a> {
    pub fn new(text: &'a [u8], null_word: &'a [u8]) -> Reader<'a> {
        Reader {
            text,
            null_word,
            open: Cell::new(false),
        }
    }

    /// A reader of the text up to a place.
    pub fn up_to(&self, end: usize) -> Reader<'a> {
        Reader::new(&self.text[..end], self.null_word)
    }

    pub fn text(&self) -> &'a [u8] {
        self.text
    }

    pub fn is_open(&self) -> bool {
        self.open.get()
    }

    /// The place of the first record, behind a byte order mark.
    pub fn front(&self) -> usize {
        let mark = b"\xEF\xBB\xBF";
        self.text
            .starts_with(mark)
            .then_some(mark.len())
            .unwrap_or(0)
    }

    /// The place of the next record, if there is one.
    #[inline(always)]
    pub fn next_record(&self, mut place: usize) -> Option<usize> {
        while let b'\n' | b'\r' = *self.text.get(place)? {
            place += 1;
        }
        Some(place)
    }

    #[inline(always)]
    pub fn behind_comma(&self, place: usize) -> Result<usize, Fault> {
        match self.text.get(place) {
            Some(b',') => Ok(place + 1),
            _ => Err(OTHER_LENGTH),
        }
    }

    #[inline(always)]
    pub fn behind_record(&self, place: usize) -> Result<usize, Fault> {
        match self.text.get(place) {
            Some(b',') => Err(OTHER_LENGTH),
            _ => Ok(place),
        }
    }

    /// A field, as it stands in the text or without its quotes.
    pub fn field(&self, place: usize) -> (Cow<'a, [u8]>, usize) {
        if self.text.get(place) == Some(&b'"') {
            return self.quoted_field(place + 1);
        }
        let (end, _) = field_end(self.text, place);
        (Cow::Borrowed(&self.text[place..end]), end)
    }

    /// The end of a field that is plainly a cell of its column, or nothing where that is not seen at a glance.
    #[inline(always)]
    pub fn skim(&self, place: usize, glance: Glance) -> Option<usize> {
        match glance {
            Glance::Text if self.text.get(place) != Some(&b'"') => {
                let (end, foreign) = field_end(self.text, place);
                let fine = !foreign || std::str::from_utf8(&self.text[place..end]).is_ok();
                fine.then_some(end)
            }
            Glance::Number { with_minus } => short_number_end(self.text, place, with_minus),
            _ => None,
        }
    }

    #[inline(always)]
    pub fn number(&self, place: usize, form: &NumberForm) -> Read<Option<i128>> {
        match self.short_number(place, form) {
            Some(found) => Ok(found),
            None => self.other_cell(place, |field| form.read(&field)),
        }
    }

    #[inline(always)]
    pub fn flag(&self, place: usize) -> Read<Option<bool>> {
        let rest = &self.text[place..];
        let flag = rest.starts_with(b"true");
        let end = place + if flag { 4 } else { 5 };
        let known = flag || rest.starts_with(b"false");
        if known && self.null_word.is_empty() && self.field_ends_at(end) {
            return Ok((Some(flag), end));
        }
        self.other_cell(place, |field| match &field[..] {
            b"true" => Some(true),
            b"false" => Some(false),
            _ => None,
        })
    }

    #[inline(always)]
    pub fn text_cell(&self, place: usize) -> Read<Option<TextCell<'a>>> {
        if !self.null_word.is_empty() || self.text.get(place) == Some(&b'"') {
            return self.other_text_cell(place);
        }
        let (end, foreign) = field_end(self.text, place);
        if foreign {
            check_text(&self.text[place..end])?;
        }
        let cell = TextCell {
            text: Cow::Borrowed(self.text),
            begin: place,
            end,
        };
        Ok(((place < end).then_some(cell), end))
    }

    #[cold]
    fn other_text_cell(&self, place: usize) -> Read<Option<TextCell<'a>>> {
        let (field, end) = self.field(place);
        check_text(&field)?;
        let cell = (*field != *self.null_word).then(|| TextCell::of_field(field));
        Ok((cell, end))
    }

    /// Bytes, as the text of their digits in lower case.
    pub fn bytes(&self, place: usize) -> Read<Option<TextCell<'a>>> {
        self.other_cell(place, |field| {
            let fine = field.len() % 2 == 0 && field.iter().all(u8::is_ascii_hexdigit);
            fine.then(|| TextCell::of_field(field.to_ascii_lowercase().into()))
        })
    }

    pub fn null(&self, place: usize) -> Read<Option<()>> {
        self.other_cell(place, |_| None)
    }

    /// A field as a cell, however it is written.
    #[cold]
    fn other_cell<T>(
        &self,
        place: usize,
        read: impl FnOnce(Cow<'a, [u8]>) -> Option<T>,
    ) -> Read<Option<T>> {
        let (field, end) = self.field(place);
        if *field == *self.null_word {
            return Ok((None, end));
        }
        let cell = read(field).ok_or(BAD_CELL)?;
        Ok((Some(cell), end))
    }

    /// The cell, where it is empty or a short number without a plus, and no other word is null.
    #[inline(always)]
    fn short_number(&self, place: usize, form: &NumberForm) -> Option<(Option<i128>, usize)> {
        let negative = self.text.get(place) == Some(&b'-');
        if !self.null_word.is_empty() || negative && !form.is_signed() {
            return None;
        }
        let begin = place + usize::from(negative);
        let (mut number, mut end) = digits(self.text, begin, 0);
        let mut count = end - begin;
        let mut behind = 0;
        if form.scale().is_some() && self.text.get(end) == Some(&b'.') {
            let from = end + 1;
            (number, end) = digits(self.text, from, number);
            behind = end - from;
            count += behind;
        }
        if !self.field_ends_at(end) || count > SHORT {
            return None;
        }
        if count == 0 {
            return (end == place).then_some((None, end));
        }
        let number = number as i64;
        let number = form.of_short(if negative { -number } else { number }, behind)?;
        Some((Some(number), end))
    }

    /// What follows a closing quote, up to the comma, belongs to the field as it stands.
    fn quoted_field(&self, place: usize) -> (Cow<'a, [u8]>, usize) {
        let (text, mut place) = self.until_quote(place);
        let mut field = Cow::Borrowed(text);
        while self.text.get(place) == Some(&b'"') {
            let (text, end) = self.until_quote(place + 1);
            let value = field.to_mut();
            value.push(b'"');
            value.extend_from_slice(text);
            place = end;
        }
        let (end, _) = field_end(self.text, place);
        if place < end {
            field.to_mut().extend_from_slice(&self.text[place..end]);
        }
        (field, end)
    }

    /// The text before the next quote, and the place behind that; without one the rest.
    fn until_quote(&self, place: usize) -> (&'a [u8], usize) {
        let rest = &self.text[place..];
        match rest.iter().position(|&byte| byte == b'"') {
            Some(length) => (&rest[..length], place + length + 1),
            None => {
                self.open.set(true);
                (rest, self.text.len())
            }
        }
    }

    #[inline(always)]
    fn field_ends_at(&self, place: usize) -> bool {
        self.text.get(place).is_none_or(|&byte| ends_field(byte))
    }
}

#[cfg(test)]
mod tests {
    use super::Reader;

    fn records(text: &str) -> Vec<Vec<String>> {
        let reader = Reader::new(text.as_bytes(), b"");
        let mut found = Vec::new();
        let mut place = reader.front();
        while let Some(begin) = reader.next_record(place) {
            let mut fields = Vec::new();
            let mut next = Ok(begin);
            while let Ok(begin) = next {
                let (field, end) = reader.field(begin);
                fields.push(String::from_utf8(field.into_owned()).unwrap());
                next = reader.behind_comma(end);
                place = end;
            }
            found.push(fields);
        }
        found
    }

    #[test]
    fn lines_end_in_three_ways_and_empty_ones_are_passed_over() {
        assert_eq!(
            records("\u{feff}a,b\r\n\n1,2\r3,"),
            [["a", "b"], ["1", "2"], ["3", ""]]
        );
    }

    #[test]
    fn quoted_fields_hold_commas_quotes_and_line_ends() {
        assert_eq!(
            records("\"a,\"\"b\"\"\n\",\"c\"d,e\"f\n"),
            [["a,\"b\"\n", "cd", "e\"f"]]
        );
        assert_eq!(records("\"\"\n\"open"), [[""], ["open"]]);
    }
}
