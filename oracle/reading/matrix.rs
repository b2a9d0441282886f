//! Rows of patterns, all of one length, and what becomes of them by their heads.

use crate::pattern::{Literal, Pattern, WILDCARD};
use crate::table::{Constructor, Type};
use std::iter;

pub type Row<'a> = Vec<&'a Pattern>;

/// The rows one after another, each of `width` patterns.
pub struct Matrix<'a> {
    pub rows: usize,
    pub width: usize,
    cells: Row<'a>,
}

/// The constructors at the head of a column: their type, and a bit for each that is seen.
pub struct Seen {
    pub of: u8,
    bits: u32,
}

impl Seen {
    /// The alternative of that number is seen.
    pub fn has(&self, number: usize) -> bool {
        self.bits >> number & 1 == 1
    }

    /// Every alternative of the type is seen.
    pub fn is_all_of(&self, one: &Type) -> bool {
        self.bits.count_ones() as usize == one.alternatives.len()
    }
}

impl<'a> Matrix<'a> {
    /// No rows, of a width.
    pub fn new(width: usize) -> Self {
        Self {
            rows: 0,
            width,
            cells: Vec::new(),
        }
    }

    /// One more row, of the matrix's width.
    pub fn push(&mut self, row: impl IntoIterator<Item = &'a Pattern>) {
        self.rows += 1;
        self.cells.extend(row);
    }

    /// The rows, none of which is empty.
    fn rows(&self) -> impl Iterator<Item = &[&'a Pattern]> {
        self.cells.chunks_exact(self.width)
    }

    /// The constructors that stand at the head of a row, if any does.
    pub fn seen(&self) -> Option<Seen> {
        let mut seen: Option<Seen> = None;
        for row in self.rows() {
            if let Pattern::Constructor(constructor, _) = row[0] {
                let seen = seen.get_or_insert(Seen {
                    of: constructor.of,
                    bits: 0,
                });
                seen.bits |= 1 << constructor.number;
            }
        }
        seen
    }

    /// Rows with this constructor or a wildcard, its arguments in its place.
    pub fn by_constructor(&self, constructor: Constructor, arity: usize) -> Self {
        let mut kept = Matrix::new(arity + self.width - 1);
        for row in self.rows() {
            match row[0] {
                Pattern::Constructor(head, arguments) if *head == constructor => {
                    kept.push(replaced(arguments, row))
                }
                Pattern::Wildcard => kept.push(widened(arity, row)),
                Pattern::Constructor(..) | Pattern::Literal(_) => {}
            }
        }
        kept
    }

    /// Rows with a wildcard, without it.
    pub fn by_wildcard(&self) -> Self {
        self.without_head(|head| matches!(head, Pattern::Wildcard))
    }

    /// Rows with this literal or a wildcard, without it.
    pub fn by_literal(&self, literal: &Literal) -> Self {
        self.without_head(|head| match head {
            Pattern::Literal(other) => other == literal,
            Pattern::Wildcard => true,
            Pattern::Constructor(..) => false,
        })
    }

    /// Rows whose head is kept, without it.
    fn without_head(&self, keeps: impl Fn(&Pattern) -> bool) -> Self {
        let mut kept = Matrix::new(self.width - 1);
        for row in self.rows().filter(|row| keeps(row[0])) {
            kept.push(row[1..].iter().copied());
        }
        kept
    }
}

/// The row with these arguments for its head.
pub fn replaced<'a>(
    arguments: &'a [Pattern],
    row: &[&'a Pattern],
) -> impl Iterator<Item = &'a Pattern> {
    arguments.iter().chain(row[1..].iter().copied())
}

/// The row with that many wildcards for its head.
pub fn widened<'a>(arity: usize, row: &[&'a Pattern]) -> impl Iterator<Item = &'a Pattern> {
    iter::repeat_n(&WILDCARD, arity).chain(row[1..].iter().copied())
}
