//! The allocator, and what a call returns if there is no memory.

use std::{fmt, io};

/// The allocator of the process.
#[derive(Clone, Copy, Debug, PartialEq, Eq)]
pub struct Global;

/// There is no memory.
#[derive(Clone, Copy, Debug, PartialEq, Eq)]
pub struct AllocError;

/// There is no memory; the value is given back.
pub struct AllocFailed<T> {
    pub value: T,
}

impl<T> From<AllocFailed<T>> for AllocError {
    fn from(_: AllocFailed<T>) -> AllocError {
        AllocError
    }
}

/// The only reason for which a text cannot be written is that there is no memory for it.
impl From<fmt::Error> for AllocError {
    fn from(_: fmt::Error) -> AllocError {
        AllocError
    }
}

impl<T> fmt::Debug for AllocFailed<T> {
    fn fmt(&self, f: &mut fmt::Formatter<'_>) -> fmt::Result {
        f.write_str("AllocFailed")
    }
}

impl From<AllocError> for io::Error {
    fn from(_: AllocError) -> io::Error {
        io::ErrorKind::OutOfMemory.into()
    }
}

impl fmt::Display for AllocError {
    fn fmt(&self, f: &mut fmt::Formatter<'_>) -> fmt::Result {
        f.write_str("out of memory")
    }
}

impl std::error::Error for AllocError {}
