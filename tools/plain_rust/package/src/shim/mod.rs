//! What the sources take from Rattle's std and libraries: calls that may run out of memory say so. Not generated, and not proved.

pub mod alloc;
pub mod atomic_table;
pub mod bitflags;
pub mod collections;
pub mod env;
pub mod fast_float;
pub mod hex;
pub mod json;
pub mod ledger;
pub mod rayon;
pub mod serde_json;
pub mod string;
#[cfg(test)]
pub mod test;
pub mod thread;
pub mod vec;

/// The names that every module uses.
pub mod prelude {
    #[cfg(test)]
    pub use super::test::HostRuntime;
    pub use super::string::{String, TryReplace as _, TryToString as _};
    pub use super::vec::{TryCollect as _, TrySortByKey as _, TryToVec as _, Vec};
}

macro_rules! vec_in {
    ($alloc:expr; $entry:expr; $count:expr) => {
        $crate::shim::vec::Vec::from_elem($alloc, $entry, $count)
    };
    ($alloc:expr; $($entry:expr),* $(,)?) => {
        $crate::shim::vec::Vec::from_array($alloc, [$($entry),*])
    };
}

macro_rules! format_in {
    ($alloc:expr; $($form:tt)*) => {
        $crate::shim::string::String::from_format($alloc, format_args!($($form)*))
    };
}

pub(crate) use {format_in, vec_in};
