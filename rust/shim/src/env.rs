//! The arguments of the program.

use crate::process::Abort;
use std::io;

/// The arguments of the program, each a text.
#[derive(Debug)]
pub struct Args(std::vec::IntoIter<String>);

impl Iterator for Args {
    type Item = String;

    fn next(&mut self) -> Option<String> {
        self.0.next()
    }
}

/// Returns the arguments, or an error of the kind `InvalidData` if one of them is not UTF-8.
pub fn args<R: Abort>(_rt: &R) -> io::Result<Args> {
    let texts: Result<Vec<String>, _> = std::env::args_os().map(|it| it.into_string()).collect();
    match texts {
        Ok(texts) => Ok(Args(texts.into_iter())),
        Err(_) => Err(io::Error::from(io::ErrorKind::InvalidData)),
    }
}
