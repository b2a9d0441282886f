//! The type table: every type with its alternatives, those of lists, pairs and tuples built in.

use crate::names;

#[derive(Clone, Copy, PartialEq)]
pub enum Kind {
    Integer,
    ByteString,
    Opaque,
    List,
    Tuple,
    Pair,
    Data,
}

/// One constructor: its name, the types of its fields, and their labels where it has labels.
pub struct Alternative {
    pub name: Vec<u8>,
    pub fields: Vec<u8>,
    pub labels: Vec<Vec<u8>>,
}

/// A type and its alternatives in declared order.
pub struct Type {
    pub kind: Kind,
    pub alternatives: Vec<Alternative>,
}

/// A constructor: its type and its number within the type.
#[derive(Clone, Copy, PartialEq)]
pub struct Constructor {
    pub of: u8,
    pub number: u8,
}

#[derive(Default)]
pub struct Table {
    types: Vec<Type>,
}

impl Alternative {
    /// A constructor without labels.
    fn plain(name: &[u8], fields: Vec<u8>) -> Self {
        Self {
            name: name.to_vec(),
            fields,
            labels: Vec::new(),
        }
    }

    /// How many fields it has.
    pub fn arity(&self) -> usize {
        self.fields.len()
    }
}

impl Type {
    /// A type that has no constructors, or none yet.
    pub fn bare(kind: Kind) -> Self {
        Self {
            kind,
            alternatives: Vec::new(),
        }
    }

    /// A pair or a tuple with these parts.
    pub fn parts(kind: Kind, parts: &[u8]) -> Self {
        Self {
            kind,
            alternatives: vec![Alternative::plain(names::TUPLE, parts.to_vec())],
        }
    }

    /// The list type that stands at a place of the table.
    pub fn list(place: u8, element: u8) -> Self {
        let cons = Alternative::plain(names::CONS, vec![element, place]);
        Self {
            kind: Kind::List,
            alternatives: vec![cons, Alternative::plain(names::NIL, Vec::new())],
        }
    }
}

impl Table {
    /// How many types there are.
    pub fn len(&self) -> usize {
        self.types.len()
    }

    /// One more type.
    pub fn push(&mut self, new: Type) {
        self.types.push(new);
    }

    /// The type at a place that is known to hold one.
    pub fn at(&self, place: u8) -> &Type {
        &self.types[usize::from(place)]
    }

    /// The data type just above, if the last type is one.
    pub fn last_data(&self) -> Option<&Type> {
        self.types.last().filter(|last| last.kind == Kind::Data)
    }

    /// Gives the last type one more constructor, unless it has one of that name.
    pub fn add(&mut self, new: Alternative) -> Option<()> {
        let alternatives = &mut self.types.last_mut()?.alternatives;
        if alternatives.iter().any(|old| old.name == new.name) {
            return None;
        }
        alternatives.push(new);
        Some(())
    }

    /// A constructor's alternative.
    pub fn alternative(&self, constructor: Constructor) -> &Alternative {
        &self.at(constructor.of).alternatives[usize::from(constructor.number)]
    }

    /// Every reference is to a type, and every type has a finite value.
    pub fn is_sound(&self) -> bool {
        self.refers_within() && self.finite().into_iter().all(|finite| finite)
    }

    /// Every field's type is in the table.
    fn refers_within(&self) -> bool {
        let alternatives = self.types.iter().flat_map(|one| &one.alternatives);
        alternatives
            .flat_map(|one| &one.fields)
            .all(|&field| usize::from(field) < self.len())
    }

    /// Which types have a finite value: rounds over the table until one finds no more.
    fn finite(&self) -> Vec<bool> {
        let mut finite = vec![false; self.len()];
        loop {
            let mut more = false;
            for (place, one) in self.types.iter().enumerate() {
                if !finite[place] && has_value(one, &finite) {
                    finite[place] = true;
                    more = true;
                }
            }
            if !more {
                return finite;
            }
        }
    }
}

/// The type has a value whose fields are of types already found finite.
fn has_value(one: &Type, finite: &[bool]) -> bool {
    match one.kind {
        Kind::Integer | Kind::ByteString | Kind::Opaque => true,
        Kind::List | Kind::Tuple | Kind::Pair | Kind::Data => {
            let known = |alternative: &Alternative| {
                alternative
                    .fields
                    .iter()
                    .all(|&field| finite[usize::from(field)])
            };
            one.alternatives.iter().any(known)
        }
    }
}
