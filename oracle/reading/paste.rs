//! A pattern's text for pasting, by its type's kind.

use crate::pattern::Pattern;
use crate::pretty::{joined, record};
use crate::table::{Kind, Table};

/// The paste text of a pattern.
pub fn paste(pattern: &Pattern, table: &Table, out: &mut Vec<u8>) {
    match pattern {
        Pattern::Wildcard => out.push(b'_'),
        Pattern::Literal(_) => unreachable!("a missing row holds no literal"),
        Pattern::Constructor(constructor, arguments) => match table.at(constructor.of).kind {
            Kind::List => list(arguments, table, out),
            Kind::Tuple | Kind::Pair => {
                out.push(b'(');
                joined(arguments, out, |argument, out| paste(argument, table, out));
                out.push(b')');
            }
            Kind::Data | Kind::Integer | Kind::ByteString | Kind::Opaque => {
                let alternative = table.alternative(*constructor);
                record(alternative, arguments, out, &mut |argument, out| {
                    paste(argument, table, out)
                });
            }
        },
    }
}

/// A list's elements, and two dots where a wildcard ends it.
fn list(arguments: &[Pattern], table: &Table, out: &mut Vec<u8>) {
    out.push(b'[');
    let mut cell = arguments;
    while let [element, tail] = cell {
        paste(element, table, out);
        cell = match tail {
            Pattern::Constructor(_, next) => next,
            Pattern::Wildcard | Pattern::Literal(_) => {
                out.extend(b", ..");
                &[]
            }
        };
        if !cell.is_empty() {
            out.extend(b", ");
        }
    }
    out.push(b']');
}
