//! Stands for Aiken's type errors: the one that the lookup of constructors can give.

use std::fmt;

/// Why a lookup failed.
#[derive(Debug)]
pub enum Error {
    UnknownType { name: String },
}

impl fmt::Display for Error {
    fn fmt(&self, f: &mut fmt::Formatter) -> fmt::Result {
        let Error::UnknownType { name } = self;
        write!(f, "type {name} of the table has no constructors")
    }
}
