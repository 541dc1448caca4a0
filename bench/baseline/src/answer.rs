//! The text of the answer.

use std::io::{self, Write};

use crate::column_type::ColumnType;
use crate::groups::Groups;
use crate::header::Plan;
use crate::keys::{GroupKeys, Key};
use crate::merge::Merged;
use crate::request::Request;
use crate::words::short_text;
use crate::workers::each;

/// How many rows a worker spells at a time.
const BLOCK: usize = 1 << 14;

/// Writes the answer in blocks, of which as many are spelled at once as there are workers.
pub fn write<'a, K: GroupKeys<'a>>(
    merged: &Merged<'a, K>,
    plan: &Plan,
    request: &Request,
    mut output: impl Write,
) -> io::Result<()> {
    output.write_all(&header(plan))?;
    let rows: Vec<_> = merged.in_order().collect();
    for rows in rows.chunks(BLOCK * request.workers) {
        let spell = |rows| spelled(rows, plan, request);
        for text in each(rows.chunks(BLOCK), spell) {
            output.write_all(&text)?;
        }
    }
    output.flush()
}

fn header(plan: &Plan) -> Vec<u8> {
    let mut text = Vec::new();
    for (number, field) in plan.answer.iter().enumerate() {
        if number > 0 {
            text.push(b',');
        }
        write_text(field.as_bytes(), &mut text);
    }
    text.push(b'\n');
    text
}

fn spelled<'a, K: GroupKeys<'a>>(
    rows: &[(&Groups<'a, K>, usize)],
    plan: &Plan,
    request: &Request,
) -> Vec<u8> {
    let mut text = Vec::new();
    for &(groups, place) in rows {
        write_row(groups, place, plan, request, &mut text);
    }
    text
}

fn write_row<'a, K: GroupKeys<'a>>(
    groups: &Groups<'a, K>,
    place: usize,
    plan: &Plan,
    request: &Request,
    text: &mut Vec<u8>,
) {
    let begin = text.len();
    for (number, column) in plan.keys.iter().enumerate() {
        if number > 0 {
            text.push(b',');
        }
        match groups.keys.key(place, column) {
            Key::Null => write_text(request.null_word.as_bytes(), text),
            Key::Packed(key) => write_packed(key, column.column_type, text),
            Key::Text(key) => write_text(key, text),
        }
    }
    if text.len() == begin && plan.folds.is_empty() {
        // A line of nothing would be passed over.
        text.extend_from_slice(b"\"\"");
    }
    for (aggregate, fold) in plan.folds.iter().enumerate() {
        text.push(b',');
        match groups.total(aggregate, place) {
            None => write_text(request.null_word.as_bytes(), text),
            Some(total) => write_packed(fold.wrapped(total) as u128, fold.answer_type, text),
        }
    }
    text.push(b'\n');
}

fn write_packed(key: u128, column_type: ColumnType, text: &mut Vec<u8>) {
    match column_type {
        ColumnType::Number(form) => form.write(key as i128, text),
        ColumnType::Flag => text.extend_from_slice(if key == 1 { b"true" } else { b"false" }),
        ColumnType::Text | ColumnType::Bytes | ColumnType::Null => {
            let (bytes, length) = short_text(key);
            write_text(&bytes[..length], text);
        }
    }
}

/// Writes a field, in quotes where it would be read otherwise without them.
fn write_text(field: &[u8], text: &mut Vec<u8>) {
    let bare = !field.iter().any(|byte| b",\"\n\r".contains(byte));
    if bare {
        return text.extend_from_slice(field);
    }
    text.push(b'"');
    for &byte in field {
        if byte == b'"' {
            text.push(byte);
        }
        text.push(byte);
    }
    text.push(b'"');
}
