//! What the crates use of Rattle's std and Rust's does not have in this form. Input is given; output is held to what is
//! expected, byte by byte, and the process ends with status 1 at the first one that differs.
use std::sync::Mutex;

struct Streams {
    given: &'static [u8],
    expected: &'static [u8],
}

static STREAMS: Mutex<Streams> = Mutex::new(Streams { given: b"", expected: b"" });

/// A program begins, with its files stdin and stdout; gives its handle.
pub fn begin(given: &'static [u8], expected: &'static [u8]) -> HostRuntime {
    *STREAMS.lock().unwrap() = Streams { given, expected };
    HostRuntime
}

/// A program has ended.
pub fn end() {
    if !STREAMS.lock().unwrap().expected.is_empty() {
        std::process::exit(1);
    }
}

/// The handle that `main` takes.
pub struct HostRuntime;

impl HostRuntime {
    pub fn alloc(&self) -> alloc::Global {
        alloc::Global
    }

    pub fn reader(&self) -> Input {
        Input
    }
}

pub mod alloc {
    /// The allocator, of which nothing is asked here.
    #[derive(Clone, Copy)]
    pub struct Global;

    #[derive(Debug)]
    pub struct AllocError;

    impl From<AllocError> for std::io::Error {
        fn from(_: AllocError) -> Self {
            std::io::ErrorKind::OutOfMemory.into()
        }
    }

    /// Iterators that collect on an allocator.
    pub trait Collected: Iterator + Sized {
        fn collect_in(self, _: Global) -> Result<Vec<Self::Item>, AllocError> {
            Ok(self.collect())
        }
    }

    impl<I: Iterator> Collected for I {}
}

pub struct Input;

impl std::io::Read for Input {
    fn read(&mut self, buf: &mut [u8]) -> std::io::Result<usize> {
        std::io::Read::read(&mut STREAMS.lock().unwrap().given, buf)
    }
}

pub struct Output;

impl std::io::Write for Output {
    fn write(&mut self, buf: &[u8]) -> std::io::Result<usize> {
        let mut streams = STREAMS.lock().unwrap();
        match streams.expected.strip_prefix(buf) {
            Some(rest) => streams.expected = rest,
            None => std::process::exit(1),
        }
        Ok(buf.len())
    }

    fn flush(&mut self) -> std::io::Result<()> {
        Ok(())
    }
}

pub mod io {
    pub use super::buffered::{BufRead, BufWriter};
    pub use std::io::{Read, Result, Write};

    pub fn writer(_: &super::HostRuntime) -> super::Output {
        super::Output
    }
}

mod buffered {
    pub struct BufRead;

    impl BufRead {
        pub fn split<R: std::io::BufRead>(from: R, _: super::alloc::Global, byte: u8) -> std::io::Split<R> {
            std::io::BufRead::split(from, byte)
        }
    }

    pub struct BufWriter;

    impl BufWriter {
        pub fn new<W: std::io::Write>(_: super::alloc::Global, to: W) -> std::io::Result<std::io::BufWriter<W>> {
            Ok(std::io::BufWriter::new(to))
        }
    }
}

pub mod num {
    pub fn wrapping_add_u8(a: u8, b: u8) -> u8 {
        a.wrapping_add(b)
    }

    pub fn wrapping_sub_usize(a: usize, b: usize) -> usize {
        a.wrapping_sub(b)
    }
}
