use crate::sys;
use std::error;
use std::ffi::CStr;
use std::fmt;

/// Why a call did nothing.
#[derive(Clone, Copy, Debug, PartialEq, Eq, Hash)]
#[non_exhaustive]
pub enum Error {
    /// No size class has so many bytes: more than [`LARGEST`](crate::LARGEST) were asked for.
    TooLarge,
    /// No slot of the class is at home, none came, and the region has no chunk left. One may come later.
    UsedUp,
    /// Memory for the library's records was refused.
    NoMemory,
    /// There is nothing to be used: all allocators of the pool are attached.
    Empty,
    /// It belongs to another allocator, or another pool.
    Stranger,
    /// There is no room for more; or, of [`Pool::close`](crate::Pool::close), an allocator is
    /// attached that was leaked.
    Full,
    /// A number is out of its range.
    BadArgument,
    /// As [`Error::UsedUp`], and the allocator drew no chunk for the class: no slot of it will ever come.
    NoChunk,
    /// The audit found a slot of a chunk that nobody drew.
    AuditStranger,
    /// The audit found a slot twice.
    AuditDoubled,
    /// The audit misses a slot: its buffer was leaked.
    AuditMissing,
    /// Memory for the audit was refused: it says nothing.
    AuditNoMemory,
    /// An answer of a later version of the library.
    Other(u32),
}

impl Error {
    /// The number that C calls answer.
    pub fn number(self) -> u32 {
        match self {
            Error::TooLarge => 1,
            Error::UsedUp => 2,
            Error::NoMemory => 3,
            Error::Empty => 5,
            Error::Stranger => 6,
            Error::Full => 7,
            Error::BadArgument => 8,
            Error::NoChunk => 9,
            Error::AuditStranger => 101,
            Error::AuditDoubled => 102,
            Error::AuditMissing => 103,
            Error::AuditNoMemory => 104,
            Error::Other(number) => number,
        }
    }

    fn of(number: u32) -> Error {
        [
            Error::TooLarge,
            Error::UsedUp,
            Error::NoMemory,
            Error::Empty,
            Error::Stranger,
            Error::Full,
            Error::BadArgument,
            Error::NoChunk,
            Error::AuditStranger,
            Error::AuditDoubled,
            Error::AuditMissing,
            Error::AuditNoMemory,
        ]
        .into_iter()
        .find(|known| known.number() == number)
        .unwrap_or(Error::Other(number))
    }
}

/// What a C call answered.
pub(crate) fn answer(number: u32) -> Result<(), Error> {
    match number {
        0 => Ok(()),
        _ => Err(Error::of(number)),
    }
}

impl fmt::Display for Error {
    fn fmt(&self, f: &mut fmt::Formatter<'_>) -> fmt::Result {
        // SAFETY: the call takes any number, and answers a string that is always there.
        let words = unsafe { CStr::from_ptr(sys::fv_strerror(self.number())) };
        f.write_str(&words.to_string_lossy())
    }
}

impl error::Error for Error {}
