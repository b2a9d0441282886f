//! Simplified patterns, as trees.

use crate::table::Constructor;

#[derive(Clone)]
pub enum Pattern {
    Wildcard,
    Literal(Literal),
    Constructor(Constructor, Vec<Pattern>),
}

/// Equal texts are equal numbers.
#[derive(Clone, PartialEq)]
pub enum Literal {
    Integer(Vec<u8>),
    ByteString(Vec<u8>),
}

/// The wildcard that rows are filled with.
pub static WILDCARD: Pattern = Pattern::Wildcard;
