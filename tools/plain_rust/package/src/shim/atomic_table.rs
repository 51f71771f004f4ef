//! Words that threads change by atomic steps. A seat is the right to take steps; what it knows is for contracts only.

use super::alloc::{AllocError, Global};
use std::marker::PhantomData;
use std::sync::atomic::{AtomicU64, Ordering};

pub trait TableRule<S, V, K> {}
pub trait Play<S, V> {}
pub trait Split<V> {}
pub trait Join<V> {}

pub struct Seat<S, V> {
    marker: PhantomData<fn() -> (S, V)>,
}

pub struct Shared<S, V, K, P> {
    words: Box<[AtomicU64]>,
    marker: PhantomData<fn() -> (S, V, K, P)>,
}

pub struct Table<S, V, K, P, A> {
    pub shared: Shared<S, V, K, P>,
    alloc: PhantomData<A>,
}

pub struct Closed<S, A> {
    words: Box<[AtomicU64]>,
    marker: PhantomData<(S, A)>,
}

impl<S, V> Seat<S, V> {
    const fn new() -> Seat<S, V> {
        Seat { marker: PhantomData }
    }
}

impl<S, V, K, P> Shared<S, V, K, P> {
    pub fn fetch_add<M>(&self, _seat: &mut Seat<S, V>, word: usize, number: u64) -> u64 {
        self.words[word].fetch_add(number, Ordering::SeqCst)
    }

    pub fn split_seat<M>(&self, _seat: &mut Seat<S, V>) -> Seat<S, V> {
        Seat::new()
    }

    pub fn join_seat<M>(&self, _seat: &mut Seat<S, V>, _other: Seat<S, V>) {}
}

impl<S, V, K, P, A> Table<S, V, K, P, A> {
    pub fn of_words(_: A, words: &[u64], _about: &K) -> Result<(Self, Seat<S, V>), AllocError> {
        let mut made = Vec::new();
        made.try_reserve_exact(words.len()).map_err(|_| AllocError)?;
        made.extend(words.iter().map(|word| AtomicU64::new(*word)));
        let shared = Shared { words: made.into_boxed_slice(), marker: PhantomData };
        Ok((Table { shared, alloc: PhantomData }, Seat::new()))
    }

    pub fn close_with(self, _seat: Seat<S, V>) -> Closed<S, A> {
        Closed { words: self.shared.words, marker: PhantomData }
    }
}

impl<S> Closed<S, Global> {
    pub fn word(&self, index: usize) -> u64 {
        self.words[index].load(Ordering::SeqCst)
    }

    pub fn free(self) {}
}
