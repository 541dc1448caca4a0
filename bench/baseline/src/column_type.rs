//! The types of columns, by their words.

use crate::numbers::NumberForm;

#[derive(Clone, Copy, Debug, PartialEq, Eq)]
pub enum ColumnType {
    Text,
    Bytes,
    Flag,
    Number(NumberForm),
    Null,
}

const MOST_SCALE: u32 = 38;

impl ColumnType {
    pub fn of_word(word: &str) -> Option<ColumnType> {
        let number = match word {
            "str" | "cat" | "lexcat" => return Some(ColumnType::Text),
            "bin" => return Some(ColumnType::Bytes),
            "bool" => return Some(ColumnType::Flag),
            "null" => return Some(ColumnType::Null),
            "u8" => NumberForm::unsigned(8),
            "u16" => NumberForm::unsigned(16),
            "u32" => NumberForm::unsigned(32),
            "u64" => NumberForm::unsigned(64),
            "i8" => NumberForm::signed(8),
            "i16" => NumberForm::signed(16),
            "i32" => NumberForm::signed(32),
            "i64" | "duration_ns" | "duration_us" | "duration_ms" => NumberForm::signed(64),
            "i128" => NumberForm::signed(128),
            "date" => NumberForm::signed(32).unsummed(),
            "time" | "datetime_ns" | "datetime_us" | "datetime_ms" => {
                NumberForm::signed(64).unsummed()
            }
            _ => NumberForm::signed(128).with_scale(scale(word)?),
        };
        Some(ColumnType::Number(number))
    }

    pub fn holds_texts(self) -> bool {
        matches!(self, ColumnType::Text | ColumnType::Bytes)
    }

    pub fn has_sum(self) -> bool {
        match self {
            ColumnType::Number(form) => form.summed(),
            _ => self == ColumnType::Flag,
        }
    }

    pub fn has_extremes(self) -> bool {
        matches!(self, ColumnType::Number(_) | ColumnType::Flag)
    }
}

fn scale(word: &str) -> Option<u32> {
    let scale = word.strip_prefix("dec")?.parse().ok()?;
    (scale <= MOST_SCALE && word == format!("dec{scale}")).then_some(scale)
}
