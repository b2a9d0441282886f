//! Type tables: what they hold, and random ones in which every type has a finite value.

use crate::limits;
use crate::names;
use crate::rng::Rng;

pub const INTEGER: u8 = 0;
pub const BYTE_STRING: u8 = 1;
pub const OPAQUE: u8 = 2;
pub const LIST: u8 = 3;
pub const TUPLE: u8 = 4;
pub const PAIR: u8 = 5;
pub const DATA: u8 = 6;

pub const MOST_FIELDS: usize = 16;

/// A constructor: its name, the places of its fields' types, a label for each or none; `flag` is damage.
#[derive(Clone)]
pub struct Constructor {
    pub name: Vec<u8>,
    pub fields: Vec<u8>,
    pub labels: Option<Vec<Vec<u8>>>,
    pub flag: Option<u8>,
}

/// A type: its kind, the places of the types inside, and a data type's constructors.
#[derive(Clone)]
pub struct Type {
    pub kind: u8,
    pub parts: Vec<u8>,
    pub constructors: Vec<Constructor>,
}

pub type Table = Vec<Type>;

impl Constructor {
    /// A constructor without labels.
    pub fn plain(name: &[u8], fields: Vec<u8>) -> Self {
        Self {
            name: name.to_vec(),
            fields,
            labels: None,
            flag: None,
        }
    }
}

impl Type {
    /// A type that has no constructors of its own.
    pub fn new(kind: u8, parts: Vec<u8>) -> Self {
        Self {
            kind,
            parts,
            constructors: Vec::new(),
        }
    }

    /// A data type.
    pub fn data(constructors: Vec<Constructor>) -> Self {
        Self {
            kind: DATA,
            parts: Vec::new(),
            constructors,
        }
    }

    /// A data type with one constructor of that name.
    pub fn record(name: &[u8], fields: Vec<u8>) -> Self {
        Self::data(vec![Constructor::plain(name, fields)])
    }
}

/// How many alternatives a type has; none for literals and opaque types.
pub fn alternatives(table: &Table, place: u8) -> usize {
    let one = &table[usize::from(place)];
    match one.kind {
        LIST => 2,
        TUPLE | PAIR => 1,
        _ => one.constructors.len(),
    }
}

/// The field types of an alternative; for lists "::" is 0 and "[]" is 1.
pub fn fields(table: &Table, place: u8, number: usize) -> Vec<u8> {
    let one = &table[usize::from(place)];
    match (one.kind, number) {
        (LIST, 0) => vec![one.parts[0], place],
        (LIST, _) => Vec::new(),
        (TUPLE | PAIR, _) => one.parts.clone(),
        _ => one.constructors[number].fields.clone(),
    }
}

/// The places of the types that have no finite value, in order.
fn endless(table: &Table) -> Vec<usize> {
    let mut finite: Vec<bool> = table.iter().map(|one| one.kind <= LIST).collect();
    loop {
        let mut more = false;
        for (place, one) in table.iter().enumerate() {
            let all = |parts: &[u8]| parts.iter().all(|&part| finite[usize::from(part)]);
            let found = match one.kind {
                DATA => one
                    .constructors
                    .iter()
                    .any(|constructor| all(&constructor.fields)),
                _ => all(&one.parts),
            };
            if !finite[place] && found {
                finite[place] = true;
                more = true;
            }
        }
        if !more {
            return (0..table.len()).filter(|&place| !finite[place]).collect();
        }
    }
}

/// Changes types until every type has a finite value.
pub fn mend(rng: &mut Rng, table: &mut Table) {
    loop {
        let endless = endless(table);
        if endless.is_empty() {
            return;
        }
        let one = &mut table[rng.pick(&endless)];
        if one.kind == DATA {
            let number = rng.below(one.constructors.len());
            one.constructors[number].fields.clear();
            one.constructors[number].labels = None;
        } else {
            *one = Type::new(rng.pick(&[INTEGER, BYTE_STRING, OPAQUE]), Vec::new());
        }
    }
}

/// A data type of so many constructors, each with the fields that `pick` gives, so many of a hundred with labels.
pub fn data(
    rng: &mut Rng,
    count: usize,
    labelled: usize,
    mut pick: impl FnMut(&mut Rng) -> Vec<u8>,
) -> Type {
    let names = names::distinct(rng, count, names::constructor);
    let constructor = |name: Vec<u8>| {
        let mut new = Constructor::plain(&name, pick(rng));
        if !new.fields.is_empty() && rng.percent(labelled) {
            new.labels = Some(names::distinct(rng, new.fields.len(), names::lower));
        }
        new
    };
    Type::data(names.into_iter().map(constructor).collect())
}

/// A data type of so many constructors without fields.
pub fn enumeration(rng: &mut Rng, count: usize) -> Type {
    data(rng, count, 0, |_| Vec::new())
}

/// What random tables look like: weights of the seven kinds, the greatest counts, labels in a hundred.
pub struct Shape {
    pub kinds: [usize; 7],
    pub constructors: usize,
    pub fields: usize,
    pub tuple: usize,
    pub labelled: usize,
}

pub const PLAIN: Shape = Shape {
    kinds: [3, 2, 1, 3, 3, 2, 6],
    constructors: 4,
    fields: 3,
    tuple: 4,
    labelled: 20,
};

/// A random type of a table of that size, with at most `room` constructors.
fn random(rng: &mut Rng, size: usize, shape: &Shape, room: usize) -> Type {
    let places = |rng: &mut Rng, count: usize| {
        (0..count)
            .map(|_| rng.below(size) as u8)
            .collect::<Vec<u8>>()
    };
    let mut kind = rng.weighted(shape.kinds.iter().copied()) as u8;
    if kind == DATA && room == 0 {
        kind = LIST;
    }
    let parts = match kind {
        LIST => 1,
        TUPLE => rng.between(2, shape.tuple),
        PAIR => 2,
        DATA => {
            let count = rng.between(1, shape.constructors).min(room);
            return data(rng, count, shape.labelled, |rng| {
                let arity = rng.between(0, shape.fields);
                places(rng, arity)
            });
        }
        _ => 0,
    };
    Type::new(kind, places(rng, parts))
}

/// A random table of so many types; references go forward, back and round.
pub fn table(rng: &mut Rng, size: usize, shape: &Shape) -> Table {
    let mut table = Table::new();
    let mut room = limits::CONSTRUCTORS;
    for _ in 0..size {
        let new = random(rng, size, shape, room);
        room -= new.constructors.len();
        table.push(new);
    }
    mend(rng, &mut table);
    table
}
