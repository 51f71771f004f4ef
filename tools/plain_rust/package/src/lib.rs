//! The back end of a linker: writes the image of a finished layout. Generated from proved sources; itself unproved (see README.md).
//!
//! ```
//! let plan = include_bytes!("../tests/smallest.json");
//! let layout = wild_image_writer::read_plan(plan).unwrap();
//! let image = wild_image_writer::write(&layout, 1).unwrap();
//! assert_eq!(image.out.len(), 344);
//! ```
// Each crate of the sources is a module here. Some of what they have is for contracts or for other crates.
#![allow(unused)]
#![forbid(unsafe_code)]

pub mod shim;

use shim::alloc::{AllocError, Global};
use shim::thread::Process;
use std::fmt;
use wild_executor::Threaded;
use wild_words::{Bytes, Items};

pub use wild_image::SizedOutput;
pub use wild_types::{Error, Fault, Layout};

/// The image of a layout, or the layout's first fault. 1 to 64 threads share the work; a number outside is taken as the next inside.
pub fn write(layout: &Layout, threads: u8) -> Result<SizedOutput, Error> {
    wild_image::write_layout(&Threaded(&Process), Global, layout, threads.clamp(1, 64))
}

/// Why bytes are not a plan.
#[derive(Debug)]
pub enum PlanError {
    OutOfMemory,
    /// They are not JSON.
    NoJson,
    /// The first wrong member has this path.
    Wrong(String),
}

impl fmt::Display for wild_text::PlanFault {
    fn fmt(&self, f: &mut fmt::Formatter<'_>) -> fmt::Result {
        match self {
            wild_text::PlanFault::At(path) => write!(f, "not a plan: {path}"),
            wild_text::PlanFault::OutOfMemory => f.write_str("out of memory"),
        }
    }
}

/// The layout that a plan, a JSON text, describes.
pub fn read_plan(plan: &[u8]) -> Result<Layout, PlanError> {
    match wild_text::read_plan(Global, plan) {
        Ok(layout) => Ok(layout),
        Err(wild_text::InputFault::OutOfMemory) => Err(PlanError::OutOfMemory),
        Err(wild_text::InputFault::NoJson) => Err(PlanError::NoJson),
        Err(wild_text::InputFault::At(path)) => Err(PlanError::Wrong(path.as_str().to_string())),
    }
}

/// The line that `link` prints for a fault, such as `refused MalformedLayout clause=1 index=0`.
pub fn line_of(error: Error) -> Result<String, AllocError> {
    Ok(wild_text::refusal_answer(Global, error)?.as_str().trim_end().to_string())
}

impl<T> From<Vec<T>> for Items<T> {
    fn from(entries: Vec<T>) -> Items<T> {
        Items::from_vec(entries.into())
    }
}

impl From<Vec<u8>> for Bytes {
    fn from(bytes: Vec<u8>) -> Bytes {
        Bytes::from_vec(bytes.into())
    }
}

