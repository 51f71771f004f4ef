//! The arguments of the program as texts.

use super::string::String;
use std::io;
use std::marker::PhantomData;

/// The arguments, the program's name first.
pub struct Args<A> {
    rest: std::vec::IntoIter<String>,
    alloc: PhantomData<A>,
}

impl<A> Iterator for Args<A> {
    type Item = String;

    fn next(&mut self) -> Option<String> {
        self.rest.next()
    }
}

/// The arguments; an error if one is not valid text.
pub fn args<A>() -> io::Result<Args<A>> {
    let mut all = Vec::new();
    for word in std::env::args_os() {
        let word = word.into_string().map_err(|_| io::ErrorKind::InvalidInput)?;
        all.push(String::from(word));
    }
    Ok(Args { rest: all.into_iter(), alloc: PhantomData })
}
