//! Type and constructor frames.

use crate::cursor::Cursor;
use crate::refusal::Fault;
use crate::table::{Alternative, Kind, Table, Type};

/// A type frame adds a type.
pub fn read_type(table: &mut Table, cursor: Cursor) -> Result<(), Fault> {
    let place = table.len() as u8;
    table.push(type_shape(place, cursor).ok_or(Fault::Frame)?);
    Ok(())
}

/// A constructor frame adds to the type just above.
pub fn read_constructor(table: &mut Table, cursor: Cursor) -> Result<(), Fault> {
    let new = constructor_shape(cursor).ok_or(Fault::Frame)?;
    if has_a_label_twice(&new) {
        return Err(Fault::Table);
    }
    table.add(new).ok_or(Fault::Table)
}

/// What a type frame says, for the type at a place.
fn type_shape(place: u8, mut cursor: Cursor) -> Option<Type> {
    let new = match cursor.byte()? {
        0 => Type::bare(Kind::Integer),
        1 => Type::bare(Kind::ByteString),
        2 => Type::bare(Kind::Opaque),
        3 => Type::list(place, cursor.byte()?),
        4 => Type::parts(Kind::Tuple, cursor.text(2..=16)?),
        5 => Type::parts(Kind::Pair, cursor.take(2)?),
        6 => Type::bare(Kind::Data),
        _ => return None,
    };
    cursor.end()?;
    Some(new)
}

/// What a constructor frame says.
fn constructor_shape(mut cursor: Cursor) -> Option<Alternative> {
    let name = cursor.constructor_name()?.to_vec();
    let labelled = cursor.flag()?;
    let arity = cursor.count(usize::from(labelled)..=16)?;
    let mut new = Alternative {
        name,
        fields: Vec::with_capacity(arity),
        labels: Vec::new(),
    };
    for _ in 0..arity {
        new.fields.push(cursor.byte()?);
        if labelled {
            new.labels.push(cursor.variable_name()?.to_vec());
        }
    }
    cursor.end()?;
    Some(new)
}

/// Two fields have one label.
fn has_a_label_twice(new: &Alternative) -> bool {
    new.labels
        .iter()
        .enumerate()
        .any(|(place, label)| new.labels[..place].contains(label))
}
