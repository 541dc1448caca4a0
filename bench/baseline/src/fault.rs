//! What can go wrong, with the exit status of each.

use std::fmt::{self, Display, Formatter};
use std::io;

#[derive(Debug)]
pub enum Fault {
    Words(&'static str),
    Table(&'static str),
    Group(&'static str),
    Read(io::Error),
    Write(io::Error),
}

impl Fault {
    pub fn status(&self) -> u8 {
        match self {
            Fault::Words(_) => 2,
            Fault::Table(_) => 3,
            Fault::Group(_) => 4,
            Fault::Read(_) => 5,
            Fault::Write(_) => 6,
        }
    }
}

impl Display for Fault {
    fn fmt(&self, formatter: &mut Formatter<'_>) -> fmt::Result {
        match self {
            Fault::Words(what) | Fault::Table(what) | Fault::Group(what) => {
                formatter.write_str(what)
            }
            Fault::Read(error) => write!(formatter, "reading: {error}"),
            Fault::Write(error) => write!(formatter, "writing: {error}"),
        }
    }
}
