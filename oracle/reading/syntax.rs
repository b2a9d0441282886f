//! A clause's pattern as the frame writes it.

use crate::cursor::Cursor;

/// A pattern of the file. A discard and a variable are one case, and an assign is its inner pattern.
pub enum Syntax<'a> {
    Wildcard,
    Integer(&'a [u8]),
    ByteString(&'a [u8]),
    List {
        elements: Vec<Syntax<'a>>,
        tail: Option<Box<Syntax<'a>>>,
    },
    Constructor {
        number: u8,
        spread: bool,
        arguments: Vec<Syntax<'a>>,
    },
    Pair(Vec<Syntax<'a>>),
    Tuple(Vec<Syntax<'a>>),
}

/// The one pattern that fills a clause frame.
pub fn clause(mut cursor: Cursor) -> Option<Syntax> {
    let syntax = pattern(&mut cursor)?;
    cursor.end()?;
    Some(syntax)
}

/// One pattern.
fn pattern<'a>(cursor: &mut Cursor<'a>) -> Option<Syntax<'a>> {
    match cursor.byte()? {
        0 => Some(Syntax::Wildcard),
        1 => cursor.variable_name().map(|_| Syntax::Wildcard),
        2 => cursor.variable_name().and_then(|_| pattern(cursor)),
        3 => cursor
            .text(1..=64)
            .filter(|text| crate::names::is_decimal(text))
            .map(Syntax::Integer),
        4 => cursor.text(0..=64).map(Syntax::ByteString),
        5 => list(cursor),
        6 => constructor(cursor),
        7 => patterns(cursor, 2).map(Syntax::Pair),
        8 => {
            let count = cursor.byte()?;
            patterns(cursor, count).map(Syntax::Tuple)
        }
        _ => None,
    }
}

/// So many patterns.
fn patterns<'a>(cursor: &mut Cursor<'a>, count: u8) -> Option<Vec<Syntax<'a>>> {
    (0..count).map(|_| pattern(cursor)).collect()
}

/// A list: count, tail or none, elements, tail.
fn list<'a>(cursor: &mut Cursor<'a>) -> Option<Syntax<'a>> {
    let count = cursor.byte()?;
    let tailed = cursor.flag()?;
    let elements = patterns(cursor, count)?;
    let tail = if tailed {
        Some(Box::new(pattern(cursor)?))
    } else {
        None
    };
    Some(Syntax::List { elements, tail })
}

/// A constructor: number, count, spread or none, arguments.
fn constructor<'a>(cursor: &mut Cursor<'a>) -> Option<Syntax<'a>> {
    let number = cursor.byte()?;
    let count = cursor.byte()?;
    let spread = cursor.flag()?;
    let arguments = patterns(cursor, count)?;
    Some(Syntax::Constructor {
        number,
        spread,
        arguments,
    })
}
