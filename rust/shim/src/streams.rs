//! The standard streams without a buffer: each read and each write is one call of the system.
//!
//! Rust's own `Stdin` and `Stdout` have buffers, and take a stream that is not open for an empty one. On Unix a second descriptor of
//! the stream has neither habit; elsewhere they are Rust's own.

use std::io::{self, Read, Write};

#[cfg(unix)]
mod raw {
    use std::fs::File;
    use std::io;
    use std::os::fd::{AsFd, BorrowedFd};

    pub type In = File;
    pub type Out = File;

    fn second(of: BorrowedFd<'_>) -> io::Result<File> {
        Ok(File::from(of.try_clone_to_owned()?))
    }

    pub fn input() -> io::Result<File> {
        second(io::stdin().as_fd())
    }

    pub fn output() -> io::Result<File> {
        second(io::stdout().as_fd())
    }
}

#[cfg(not(unix))]
mod raw {
    use std::io;

    pub type In = io::Stdin;
    pub type Out = io::Stdout;

    pub fn input() -> io::Result<In> {
        Ok(io::stdin())
    }

    pub fn output() -> io::Result<Out> {
        Ok(io::stdout())
    }
}

fn closed() -> io::Error {
    io::Error::from(io::ErrorKind::NotFound)
}

/// Standard input.
#[derive(Debug)]
pub struct Input(Option<raw::In>);

impl Input {
    pub(crate) fn standard() -> Input {
        Input(raw::input().ok())
    }
}

impl Read for Input {
    fn read(&mut self, buf: &mut [u8]) -> io::Result<usize> {
        self.0.as_mut().ok_or_else(closed)?.read(buf)
    }
}

/// Standard output.
#[derive(Debug)]
pub struct Output(Option<raw::Out>);

impl Output {
    pub(crate) fn standard() -> Output {
        Output(raw::output().ok())
    }
}

impl Write for Output {
    fn write(&mut self, buf: &[u8]) -> io::Result<usize> {
        self.0.as_mut().ok_or_else(closed)?.write(buf)
    }

    fn flush(&mut self) -> io::Result<()> {
        self.0.as_mut().ok_or_else(closed)?.flush()
    }
}
