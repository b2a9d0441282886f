//! From a clause's pattern to its simplified form, where it suits its type.

use crate::pattern::{Literal, Pattern};
use crate::syntax::Syntax;
use crate::table::{Constructor, Kind, Table};
use std::iter;

const CONS: u8 = 0;
const NIL: u8 = 1;

/// Simplifies patterns of one table and counts the nodes that it makes.
pub struct Simplifier<'a> {
    table: &'a Table,
    pub nodes: usize,
}

impl<'a> Simplifier<'a> {
    /// No nodes yet.
    pub fn new(table: &'a Table) -> Self {
        Self { table, nodes: 0 }
    }

    /// The simplified pattern, or nothing where it does not suit the type.
    pub fn simplify(&mut self, syntax: &Syntax, of: u8) -> Option<Pattern> {
        let kind = self.table.at(of).kind;
        match syntax {
            Syntax::Wildcard => Some(self.wildcard()),
            Syntax::Integer(text) if kind == Kind::Integer => {
                Some(self.literal(Literal::Integer(text.to_vec())))
            }
            Syntax::ByteString(text) if kind == Kind::ByteString => {
                Some(self.literal(Literal::ByteString(text.to_vec())))
            }
            Syntax::List { elements, tail } if kind == Kind::List => {
                self.list(elements, tail.as_deref(), of)
            }
            Syntax::Constructor {
                number,
                spread,
                arguments,
            } if kind == Kind::Data => self.filled(
                Constructor {
                    of,
                    number: *number,
                },
                arguments,
                *spread,
            ),
            Syntax::Pair(parts) if kind == Kind::Pair => {
                self.filled(Constructor { of, number: 0 }, parts, false)
            }
            Syntax::Tuple(parts) if kind == Kind::Tuple => {
                self.filled(Constructor { of, number: 0 }, parts, false)
            }
            _ => None,
        }
    }

    /// One wildcard, counted.
    fn wildcard(&mut self) -> Pattern {
        self.nodes += 1;
        Pattern::Wildcard
    }

    /// One literal, counted.
    fn literal(&mut self, literal: Literal) -> Pattern {
        self.nodes += 1;
        Pattern::Literal(literal)
    }

    /// One constructor over its arguments, counted.
    fn constructor(&mut self, constructor: Constructor, arguments: Vec<Pattern>) -> Pattern {
        self.nodes += 1;
        Pattern::Constructor(constructor, arguments)
    }

    /// A list's elements, each a cell around what follows it.
    fn list(&mut self, elements: &[Syntax], tail: Option<&Syntax>, of: u8) -> Option<Pattern> {
        let element_type = self
            .table
            .alternative(Constructor { of, number: CONS })
            .fields[0];
        let mut whole = match tail {
            Some(tail) => self.simplify(tail, of)?,
            None => self.constructor(Constructor { of, number: NIL }, Vec::new()),
        };
        for element in elements.iter().rev() {
            let head = self.simplify(element, element_type)?;
            whole = self.constructor(Constructor { of, number: CONS }, vec![head, whole]);
        }
        Some(whole)
    }

    /// A constructor with its arguments, filled up with wildcards where it has a spread.
    fn filled(
        &mut self,
        constructor: Constructor,
        arguments: &[Syntax],
        spread: bool,
    ) -> Option<Pattern> {
        let table = self.table;
        let alternative = table
            .at(constructor.of)
            .alternatives
            .get(usize::from(constructor.number))?;
        let arity = alternative.arity();
        if arguments.len() > arity || arguments.len() < arity && !spread {
            return None;
        }
        let mut simplified = Vec::with_capacity(arity);
        for (argument, &field) in iter::zip(arguments, &alternative.fields) {
            simplified.push(self.simplify(argument, field)?);
        }
        simplified.resize_with(arity, || self.wildcard());
        Some(self.constructor(constructor, simplified))
    }
}
