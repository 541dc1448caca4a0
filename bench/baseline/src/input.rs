//! The bytes of standard input: a file is mapped, so that none of them is copied, and anything else is read.

use std::ffi::{c_int, c_void};
use std::fs::File;
use std::io::{self, Read, Seek};
use std::ops::Deref;
use std::os::fd::{AsFd, AsRawFd};
use std::{ptr, slice};

const READABLE: c_int = 1;
const PRIVATE: c_int = 2;

extern "C" {
    fn mmap(
        address: *mut c_void,
        length: usize,
        protection: c_int,
        flags: c_int,
        file: c_int,
        offset: i64,
    ) -> *mut c_void;
}

pub enum Input {
    Mapped(&'static [u8]),
    Read(Vec<u8>),
}

impl Deref for Input {
    type Target = [u8];

    fn deref(&self) -> &[u8] {
        match self {
            Input::Mapped(bytes) => bytes,
            Input::Read(bytes) => bytes,
        }
    }
}

pub fn standard_input() -> io::Result<Input> {
    let mut file = File::from(io::stdin().as_fd().try_clone_to_owned()?);
    if let Some(bytes) = mapped(&mut file)? {
        return Ok(Input::Mapped(bytes));
    }
    let mut bytes = Vec::new();
    file.read_to_end(&mut bytes)?;
    Ok(Input::Read(bytes))
}

/// The bytes of a file that is no pipe, has some, and is at its front.
fn mapped(file: &mut File) -> io::Result<Option<&'static [u8]>> {
    let about = file.metadata()?;
    let Ok(length) = usize::try_from(about.len()) else {
        return Ok(None);
    };
    if !about.is_file() || length == 0 || file.stream_position()? != 0 {
        return Ok(None);
    }
    let descriptor = file.as_raw_fd();
    // SAFETY: a new mapping at an address that the system chooses, which is never undone. That nobody
    // writes to the file meanwhile is taken for granted.
    unsafe {
        let address = mmap(ptr::null_mut(), length, READABLE, PRIVATE, descriptor, 0);
        let failed = address as isize == -1;
        Ok((!failed).then(|| slice::from_raw_parts(address.cast::<u8>(), length)))
    }
}
