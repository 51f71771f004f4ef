//! The program: `link W`, `make N W`, `verify`, `relink W`, `place W`, `space`, `explain ..` and `needs`, as the proved programs have them.

use std::fs::File;
use std::io;
use std::os::fd::AsFd;
use std::process::ExitCode;
use wild_image_writer::shim::alloc::Global;
use wild_image_writer::shim::env;
use wild_image_writer::shim::thread::Process;
use wild_image_writer::wild_explain::explain;
use wild_image_writer::wild_program::{ReaderSource, WriterSink, run, status_of, words_of};

/// The same file without `std`'s buffer, which may hide that a write failed.
fn unbuffered(stream: impl AsFd) -> io::Result<File> {
    Ok(File::from(stream.as_fd().try_clone_to_owned()?))
}

fn main() -> io::Result<ExitCode> {
    let mut source = ReaderSource::new(unbuffered(io::stdin())?);
    let mut sink = WriterSink::new(unbuffered(io::stdout())?);
    let outcome = words_of(Global, env::args()).and_then(|words| {
        match words.first().map(|word| word.as_str()) {
            Some("explain" | "needs") => explain(&Process, Global, &words, &mut source, &mut sink),
            _ => run(&Process, Global, &words, &mut source, &mut sink),
        }
    });
    Ok(ExitCode::from(status_of(outcome)))
}
