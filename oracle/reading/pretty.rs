//! A pattern's text as the Rust writes it, by the constructor's name.

use crate::names;
use crate::pattern::Pattern;
use crate::table::{Alternative, Table};
use std::iter;

/// The text of a pattern.
pub fn pretty(pattern: &Pattern, table: &Table, out: &mut Vec<u8>) {
    match pattern {
        Pattern::Wildcard => out.push(b'_'),
        Pattern::Literal(_) => unreachable!("a missing row holds no literal"),
        Pattern::Constructor(constructor, arguments) => {
            let alternative = table.alternative(*constructor);
            if names::holds_tuple(&alternative.name) {
                out.push(b'(');
                joined(arguments, out, |argument, out| pretty(argument, table, out));
                out.push(b')');
            } else if alternative.name == names::CONS {
                list(arguments, table, out);
            } else {
                record(alternative, arguments, out, &mut |argument, out| {
                    pretty(argument, table, out)
                });
            }
        }
    }
}

/// A list from its first cell; "[]" is left out only as this cell's own tail.
fn list(cell: &[Pattern], table: &Table, out: &mut Vec<u8>) {
    out.push(b'[');
    pretty(&cell[0], table, out);
    if !is_named(&cell[1], names::NIL, table) {
        out.extend(b", ");
        pretty_tail(&cell[1], table, out);
    }
    out.push(b']');
}

/// What follows a list's element: elements, two dots, or the text of "[]".
fn pretty_tail(tail: &Pattern, table: &Table, out: &mut Vec<u8>) {
    match tail {
        Pattern::Wildcard => out.extend(b".."),
        Pattern::Constructor(_, cell) if is_named(tail, names::CONS, table) => {
            pretty(&cell[0], table, out);
            out.extend(b", ");
            pretty_tail(&cell[1], table, out);
        }
        rest => pretty(rest, table, out),
    }
}

/// The pattern is a constructor of that name.
fn is_named(pattern: &Pattern, name: &[u8], table: &Table) -> bool {
    matches!(pattern, Pattern::Constructor(constructor, _) if table.alternative(*constructor).name == name)
}

/// A constructor's name with its arguments, by label where it has labels.
pub fn record(
    alternative: &Alternative,
    arguments: &[Pattern],
    out: &mut Vec<u8>,
    text: &mut dyn FnMut(&Pattern, &mut Vec<u8>),
) {
    out.extend(&alternative.name);
    if !alternative.labels.is_empty() {
        out.extend(b" { ");
        joined(
            iter::zip(&alternative.labels, arguments),
            out,
            |(label, argument), out| {
                out.extend(label);
                if !matches!(argument, Pattern::Wildcard) {
                    out.extend(b": ");
                    text(argument, out);
                }
            },
        );
        out.extend(b" }");
    } else if !arguments.is_empty() {
        out.push(b'(');
        joined(arguments, out, text);
        out.push(b')');
    }
}

/// The texts of these, with a comma and a blank between two.
pub fn joined<T>(
    items: impl IntoIterator<Item = T>,
    out: &mut Vec<u8>,
    mut text: impl FnMut(T, &mut Vec<u8>),
) {
    for (place, item) in items.into_iter().enumerate() {
        if place > 0 {
            out.extend(b", ");
        }
        text(item, out);
    }
}
