//! A text whose growth may fail.

use super::alloc::{AllocError, Global};
use super::vec::Vec;
use std::borrow::Borrow;
use std::fmt;
use std::ops::Deref;
use std::string::FromUtf8Error;

/// `std`'s text; calls that allocate return an error if there is no memory.
#[derive(Clone, Debug, PartialEq, Eq, PartialOrd, Ord)]
pub struct String(std::string::String);

impl String {
    pub const fn new(_: Global) -> String {
        String(std::string::String::new())
    }

    pub fn from_str(alloc: Global, text: &str) -> Result<String, AllocError> {
        let mut made = String::new(alloc);
        made.push_str(text)?;
        Ok(made)
    }

    pub fn from_format(alloc: Global, form: fmt::Arguments<'_>) -> Result<String, AllocError> {
        let mut made = String::new(alloc);
        fmt::Write::write_fmt(&mut made, form)?;
        Ok(made)
    }

    pub fn from_utf8(bytes: Vec<u8>) -> Result<String, FromUtf8Error> {
        std::string::String::from_utf8(bytes.into()).map(String)
    }

    pub fn push_str(&mut self, text: &str) -> Result<(), AllocError> {
        self.0.try_reserve(text.len()).map_err(|_| AllocError)?;
        self.0.push_str(text);
        Ok(())
    }

    pub fn as_str(&self) -> &str {
        &self.0
    }

    pub fn into_bytes(self) -> Vec<u8> {
        self.0.into_bytes().into()
    }
}

impl From<std::string::String> for String {
    fn from(text: std::string::String) -> String {
        String(text)
    }
}

impl Deref for String {
    type Target = str;

    fn deref(&self) -> &str {
        &self.0
    }
}

impl Borrow<str> for String {
    fn borrow(&self) -> &str {
        &self.0
    }
}

impl fmt::Write for String {
    fn write_str(&mut self, text: &str) -> fmt::Result {
        self.push_str(text).map_err(|_| fmt::Error)
    }
}

impl fmt::Display for String {
    fn fmt(&self, f: &mut fmt::Formatter<'_>) -> fmt::Result {
        f.pad(&self.0)
    }
}

/// `to_string` with an allocator.
pub trait TryToString: fmt::Display {
    fn try_to_string(&self, alloc: Global) -> Result<String, AllocError> {
        String::from_format(alloc, format_args!("{self}"))
    }
}

impl<T: fmt::Display> TryToString for T {}

/// `replace` with an allocator.
pub trait TryReplace {
    fn try_replace(&self, alloc: Global, old: &str, new: &str) -> Result<String, AllocError>;
}

impl TryReplace for str {
    fn try_replace(&self, alloc: Global, old: &str, new: &str) -> Result<String, AllocError> {
        let mut made = String::new(alloc);
        let mut rest = self;
        while let Some((front, back)) = rest.split_once(old) {
            made.push_str(front)?;
            made.push_str(new)?;
            rest = back;
        }
        made.push_str(rest)?;
        Ok(made)
    }
}
