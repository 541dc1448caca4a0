//! Writes a table of keys whose hashes share bits under the seed 0, or of keys of the same form by chance.
//!
//!     crafted KIND COUNT [chance] > TABLE

mod draw;
mod hash;
mod keys;

use std::io::{self, BufWriter, Write};
use std::process::ExitCode;

use crate::draw::Draw;
use crate::keys::{by_chance, crafted, KINDS};

fn main() -> ExitCode {
    let words: Vec<String> = std::env::args().skip(1).collect();
    let words: Vec<&str> = words.iter().map(String::as_str).collect();
    let written = match words[..] {
        [kind, count] => write_table(kind, count, false),
        [kind, count, "chance"] => write_table(kind, count, true),
        _ => Err(io::Error::other("KIND COUNT [chance]")),
    };
    match written {
        Ok(()) => ExitCode::SUCCESS,
        Err(error) => {
            eprintln!("crafted: {error}");
            ExitCode::FAILURE
        }
    }
}

fn write_table(kind: &str, count: &str, chance: bool) -> io::Result<()> {
    let named = KINDS.iter().find(|(name, ..)| *name == kind);
    let (_, header, kind) = named.ok_or_else(|| io::Error::other("no such kind"))?;
    let count = count.parse().map_err(io::Error::other)?;
    let mut draw = Draw::new(1);
    let keys = if chance {
        by_chance(*kind, count, &mut draw)
    } else {
        crafted(*kind, count, &mut draw)
    };
    let mut table = BufWriter::new(io::stdout().lock());
    writeln!(table, "{header},v:i64")?;
    for key in keys {
        table.write_all(&key)?;
        table.write_all(b",1\n")?;
    }
    table.flush()
}
