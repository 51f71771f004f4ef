//! The back end of a linker: writes the image of a finished layout, or names its first fault.
//!
//! This is a safe interface to a static library that is written in Rattle and proved (`docs/EMBED.md`). The structs are those of
//! `c/wild.h`; a layout borrows all that it has, so nothing is copied to make one. `docs/PLAN.md` says what each member means.
//!
//! ```
//! let error = wild::write(&wild::Layout::default()).unwrap_err();
//! assert!(matches!(error, wild::Error::Refused(_)));
//! ```
use std::fmt;
use std::marker::PhantomData;

mod structs;

pub use structs::*;

/// A borrowed list, in memory as C has it: a pointer and a length.
#[repr(C)]
pub struct List<'a, T> {
    at: *const T,
    len: usize,
    of: PhantomData<&'a [T]>,
}

// A list is a shared slice.
unsafe impl<T: Sync> Send for List<'_, T> {}
unsafe impl<T: Sync> Sync for List<'_, T> {}

impl<T> Clone for List<'_, T> {
    fn clone(&self) -> Self {
        *self
    }
}

impl<T> Copy for List<'_, T> {}

impl<T> Default for List<'_, T> {
    fn default() -> Self {
        List::from(&[][..])
    }
}

impl<'a, T> From<&'a [T]> for List<'a, T> {
    fn from(items: &'a [T]) -> Self {
        List { at: items.as_ptr(), len: items.len(), of: PhantomData }
    }
}

impl<'a, T> List<'a, T> {
    /// The items.
    pub fn as_slice(&self) -> &'a [T] {
        // it was made of such a slice
        unsafe { std::slice::from_raw_parts(self.at, self.len) }
    }
}

impl<T: fmt::Debug> fmt::Debug for List<'_, T> {
    fn fmt(&self, f: &mut fmt::Formatter<'_>) -> fmt::Result {
        self.as_slice().fmt(f)
    }
}

/// An image, its warning and its counts.
#[derive(Clone, Debug)]
pub struct Image {
    pub bytes: Vec<u8>,
    /// The number of relocations read for each section.
    pub counts: Vec<u64>,
    pub warning: Option<Warning>,
}

/// Why a call wrote nothing.
#[derive(Clone, Copy, Debug, PartialEq, Eq)]
pub enum Error {
    /// The layout has faults; this is the first.
    Refused(Fault),
    /// The version of the structs is not the library's.
    OtherVersion,
    OutOfMemory,
    /// A buffer has not the size of what would be written into it, or the image has 2^64 bytes or more.
    WrongSize,
}

impl fmt::Display for Error {
    fn fmt(&self, f: &mut fmt::Formatter<'_>) -> fmt::Result {
        match self {
            Error::Refused(fault) => fault.fmt(f),
            Error::OtherVersion => f.write_str("the library has another version"),
            Error::OutOfMemory => f.write_str("out of memory"),
            Error::WrongSize => f.write_str("wrong size"),
        }
    }
}

impl std::error::Error for Error {}

/// No line for a fault is longer.
const FAULT_TEXT: usize = 256;

/// The line that `link` prints for the fault (`docs/FAULTS.md`).
impl fmt::Display for Fault {
    fn fmt(&self, f: &mut fmt::Formatter<'_>) -> fmt::Result {
        let (mut text, mut used) = ([0; FAULT_TEXT], 0);
        let status = unsafe { wild_fault_text(self, text.as_mut_ptr(), text.len(), &mut used) };
        let line = std::str::from_utf8(text.get(..used).unwrap_or_default()).unwrap_or_default();
        if status == 0 { f.write_str(line.trim_end()) } else { write!(f, "refused {self:?}") }
    }
}

fn result_of(status: u32, fault: Fault) -> Result<(), Error> {
    match status {
        0 => Ok(()),
        1 => Err(Error::Refused(fault)),
        3 => Err(Error::OtherVersion),
        6 => Err(Error::OutOfMemory),
        _ => Err(Error::WrongSize),
    }
}

unsafe extern "C" {
    fn wild_image_size(layout: &Layout, size: &mut u64) -> u32;
    fn wild_write(
        layout: &Layout,
        out: *mut u8,
        out_len: usize,
        counts: *mut u64,
        counts_len: usize,
        warning: &mut RawWarning,
        fault: &mut Fault,
    ) -> u32;
    fn wild_needs(layout: &Layout, sizes: *mut u64, sizes_len: usize) -> u32;
    fn wild_fault_text(fault: &Fault, out: *mut u8, out_len: usize, used: &mut usize) -> u32;
}

/// The size of the layout's image in bytes.
pub fn image_size(layout: &Layout) -> Result<u64, Error> {
    let mut size = 0;
    let status = unsafe { wild_image_size(layout, &mut size) };
    result_of(status, Fault::default()).map(|()| size)
}

/// Writes the image into `out`, which has its size, and the number of relocations read for each section into `counts`, which has one
/// number for each. An error changes neither.
pub fn write_into(layout: &Layout, out: &mut [u8], counts: &mut [u64]) -> Result<Option<Warning>, Error> {
    let (mut warning, mut fault) = (RawWarning::default(), Fault::default());
    // the types are those that the library expects, and the borrows end with the call
    let status = unsafe {
        wild_write(layout, out.as_mut_ptr(), out.len(), counts.as_mut_ptr(), counts.len(), &mut warning, &mut fault)
    };
    result_of(status, fault).map(|()| warning.read())
}

/// The image of the layout, or its first fault.
pub fn write(layout: &Layout) -> Result<Image, Error> {
    // a layout whose image would be too large for memory has a fault, which is found with an empty buffer
    let size = usize::try_from(image_size(layout)?).unwrap_or(0);
    let mut bytes = Vec::new();
    if bytes.try_reserve_exact(size).is_ok() {
        bytes.resize(size, 0);
    }
    let mut counts = vec![0; layout.sections.as_slice().len()];
    let warning = write_into(layout, &mut bytes, &mut counts)?;
    Ok(Image { bytes, counts, warning })
}

/// How many bytes each group needs of each part: a list for each group.
pub fn needs(layout: &Layout) -> Result<Vec<Vec<u64>>, Error> {
    let parts = layout.parts.as_slice().len();
    let mut sizes = vec![0; parts * layout.groups.as_slice().len()];
    let status = unsafe { wild_needs(layout, sizes.as_mut_ptr(), sizes.len()) };
    result_of(status, Fault::default())?;
    Ok(sizes.chunks(parts.max(1)).map(<[u64]>::to_vec).collect())
}
