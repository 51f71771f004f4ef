//! A stable sort. The sources allow any number of threads; this is one.

pub mod prelude {
    use crate::shim::alloc::{AllocError, Global};
    use crate::shim::thread::Threads;

    pub fn par_sort_by_key<R: Threads, T, K: Ord>(
        _rt: &R,
        _alloc: Global,
        entries: &mut [T],
        key: impl Fn(&T) -> K,
    ) -> Result<(), AllocError> {
        entries.sort_by_key(key);
        Ok(())
    }
}
