//! A frame's bytes, read from the front. Nothing comes back where bytes are short or a field is outside its range.

use crate::names;
use std::ops::RangeInclusive;

pub struct Cursor<'a> {
    rest: &'a [u8],
}

impl<'a> Cursor<'a> {
    /// Stands before the first of these bytes.
    pub fn new(bytes: &'a [u8]) -> Self {
        Self { rest: bytes }
    }

    /// One byte.
    pub fn byte(&mut self) -> Option<u8> {
        let (&byte, rest) = self.rest.split_first()?;
        self.rest = rest;
        Some(byte)
    }

    /// One byte within a range, as a count.
    pub fn count(&mut self, range: RangeInclusive<usize>) -> Option<usize> {
        self.byte()
            .map(usize::from)
            .filter(|count| range.contains(count))
    }

    /// 00 or 01.
    pub fn flag(&mut self) -> Option<bool> {
        Some(self.count(0..=1)? == 1)
    }

    /// That many bytes.
    pub fn take(&mut self, count: usize) -> Option<&'a [u8]> {
        let (taken, rest) = self.rest.split_at_checked(count)?;
        self.rest = rest;
        Some(taken)
    }

    /// A length within a range, then that many bytes.
    pub fn text(&mut self, range: RangeInclusive<usize>) -> Option<&'a [u8]> {
        let length = self.count(range)?;
        self.take(length)
    }

    /// A constructor's name.
    pub fn constructor_name(&mut self) -> Option<&'a [u8]> {
        self.text(1..=32).filter(|name| names::is_constructor(name))
    }

    /// A label's or a variable's name.
    pub fn variable_name(&mut self) -> Option<&'a [u8]> {
        self.text(1..=32).filter(|name| names::is_variable(name))
    }

    /// The frame ends here.
    pub fn end(self) -> Option<()> {
        self.rest.is_empty().then_some(())
    }
}
