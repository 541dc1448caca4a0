//! Groups a typed CSV table by one column or several, as `gb_tool group` does: plain Rust, nothing proved.
//!
//!     baseline group --by NAME... [--agg METHOD:NAME]... [--null WORD] [--workers N] < TABLE
//!
//! The methods are sum, min, max, count, valid and n_unique; min and max are not those of texts and bytes.

mod answer;
mod batch;
mod column_type;
mod distinct;
mod fault;
mod groups;
mod header;
mod input;
mod keys;
mod merge;
mod numbers;
mod one_key;
mod parts;
mod reader;
mod request;
mod several_keys;
mod slots;
mod totals;
mod words;
mod workers;

use std::io::{self, Write};
use std::process::ExitCode;

use crate::fault::Fault;
use crate::header::Plan;
use crate::keys::GroupKeys;
use crate::reader::Reader;
use crate::request::Request;

fn main() -> ExitCode {
    match run() {
        Ok(()) => ExitCode::SUCCESS,
        Err(fault) => {
            eprintln!("baseline: {fault}");
            ExitCode::from(fault.status())
        }
    }
}

fn run() -> Result<(), Fault> {
    let request = Request::from_words(std::env::args().skip(1))?;
    let input = input::standard_input().map_err(Fault::Read)?;
    group(&input, &request, io::stdout().lock())
}

/// Writes what a request asks of a table.
fn group(table: &[u8], request: &Request, output: impl Write) -> Result<(), Fault> {
    let reader = Reader::new(table, request.null_word.as_bytes());
    let (columns, rows) = header::read_header(&reader)?;
    let plan = header::plan(&columns, request)?;
    match plan.keys.len() {
        1 => group_rows::<one_key::Keys>(&reader, rows, &plan, request, output),
        _ => group_rows::<several_keys::Keys>(&reader, rows, &plan, request, output),
    }
}

fn group_rows<'a, K: GroupKeys<'a>>(
    reader: &Reader<'a>,
    place: usize,
    plan: &Plan,
    request: &Request,
    output: impl Write,
) -> Result<(), Fault> {
    let merged = parts::group_rows::<K>(reader, place, plan, request.workers)?;
    answer::write(&merged, plan, request, output).map_err(Fault::Write)
}
