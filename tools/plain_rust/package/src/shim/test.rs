//! What the tests use.

use super::alloc::Global;
use super::thread::Threads;
use std::fmt::Debug;

/// The process that runs a test.
pub struct HostRuntime;

impl HostRuntime {
    pub fn alloc(&self) -> Global {
        Global
    }
}

impl Threads for HostRuntime {}

/// The message of a test that failed.
pub struct Fail(std::string::String);

impl<E: Debug> From<E> for Fail {
    fn from(error: E) -> Fail {
        Fail(format!("{error:?}"))
    }
}

/// What a test returns.
pub trait Outcome {
    fn check(self);
}

impl Outcome for () {
    fn check(self) {}
}

impl<E: Into<Fail>> Outcome for Result<(), E> {
    fn check(self) {
        if let Err(error) = self {
            let Fail(message) = error.into();
            panic!("{message}");
        }
    }
}

/// Runs a test; panics if it fails.
pub fn run<T: Outcome>(test: fn(HostRuntime) -> T) {
    test(HostRuntime).check();
}
