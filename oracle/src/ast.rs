//! Stand-ins for Aiken's syntax tree: what `simplify` reads of it, and no more.

use crate::tipo::{PatternConstructor, Type};
use std::rc::Rc;

/// Stands for the place in a source text; frames have none.
#[derive(Debug, Clone, Copy, PartialEq)]
pub struct Span;

impl Span {
    /// The place of what was never written.
    pub fn empty() -> Self {
        Span
    }
}

/// Stands for an argument of a constructor pattern, without its label.
#[derive(Clone)]
pub struct CallArg {
    pub value: TypedPattern,
}

/// Stands for a pattern after type inference, whose two parameters are filled in here.
pub type TypedPattern = Pattern;

/// Stands for the patterns of the language, without names and layout.
#[derive(Clone)]
pub enum Pattern {
    Int {
        value: String,
    },
    ByteArray {
        value: Vec<u8>,
    },
    Var,
    Assign {
        pattern: Box<Pattern>,
    },
    Discard,
    List {
        elements: Vec<Pattern>,
        tail: Option<Box<Pattern>>,
    },
    Constructor {
        location: Span,
        arguments: Vec<CallArg>,
        constructor: PatternConstructor,
        spread_location: Option<Span>,
        tipo: Rc<Type>,
    },
    Pair {
        location: Span,
        fst: Box<Pattern>,
        snd: Box<Pattern>,
    },
    Tuple {
        #[expect(dead_code, reason = "the module fills it in and never reads it")]
        location: Span,
        elems: Vec<Pattern>,
    },
}
