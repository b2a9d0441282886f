//! Patterns, read by the type that they are to suit.

use crate::{
    ast::{CallArg, Pattern, Span, TypedPattern},
    reader::{Fault, Reader},
    table::{Constructor, Table, TypeDef},
    tipo::{PatternConstructor, Type},
};

/// Reads a pattern for the type at a place of the table.
pub fn pattern(reader: &mut Reader, table: &Table, place: usize) -> Result<TypedPattern, Fault> {
    match (reader.number()?, table.get(place)?) {
        (0, _) => Ok(Pattern::Discard),
        (1, _) => reader.text().map(|_name| Pattern::Var),
        (2, _) => assign(reader, table, place),
        (3, TypeDef::Integer) => reader.text().map(|value| Pattern::Int { value }),
        (4, TypeDef::ByteString) => Ok(Pattern::ByteArray {
            value: reader.counted()?.to_vec(),
        }),
        (5, &TypeDef::List(element)) => list(reader, table, place, element),
        (6, TypeDef::Data(constructors)) => constructor(reader, table, place, constructors),
        (7, &TypeDef::Pair(first, second)) => Ok(Pattern::Pair {
            location: Span::empty(),
            fst: Box::new(pattern(reader, table, first)?),
            snd: Box::new(pattern(reader, table, second)?),
        }),
        (8, TypeDef::Tuple(parts)) => tuple(reader, table, parts),
        _ => Err("a pattern that does not suit its type, or of an unknown kind"),
    }
}

/// Reads a name and the pattern that it stands for.
fn assign(reader: &mut Reader, table: &Table, place: usize) -> Result<TypedPattern, Fault> {
    reader.text()?;
    Ok(Pattern::Assign {
        pattern: Box::new(pattern(reader, table, place)?),
    })
}

/// Reads the elements and the tail of a list.
fn list(
    reader: &mut Reader,
    table: &Table,
    place: usize,
    element: usize,
) -> Result<TypedPattern, Fault> {
    let count = reader.number()?;
    let has_tail = reader.flag()?;
    let elements = reader.items(count, |reader| pattern(reader, table, element))?;
    let tail = if has_tail {
        Some(Box::new(pattern(reader, table, place)?))
    } else {
        None
    };
    Ok(Pattern::List { elements, tail })
}

/// Reads a constructor's number and its arguments.
fn constructor(
    reader: &mut Reader,
    table: &Table,
    place: usize,
    constructors: &[Constructor],
) -> Result<TypedPattern, Fault> {
    let number = reader.number()?;
    let count = reader.number()?;
    let spread = reader.flag()?;
    let Constructor { name, fields, .. } = constructors
        .get(number)
        .ok_or("a constructor that the type lacks")?;
    if count > fields.len() || (count < fields.len() && !spread) {
        return Err("arguments that do not suit the constructor's arity");
    }
    let mut arguments = vec![];
    for &field in &fields[..count] {
        arguments.push(CallArg {
            value: pattern(reader, table, field)?,
        });
    }
    Ok(Pattern::Constructor {
        location: Span::empty(),
        arguments,
        constructor: PatternConstructor::Record { name: name.clone() },
        spread_location: spread.then(Span::empty),
        tipo: Type::of_constructor(place, fields),
    })
}

/// Reads the parts of a tuple.
fn tuple(reader: &mut Reader, table: &Table, parts: &[usize]) -> Result<TypedPattern, Fault> {
    if reader.number()? != parts.len() {
        return Err("a tuple without its full count");
    }
    let mut elems = vec![];
    for &part in parts {
        elems.push(pattern(reader, table, part)?);
    }
    Ok(Pattern::Tuple {
        location: Span::empty(),
        elems,
    })
}
