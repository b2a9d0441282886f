//! Damage to a block's type table; no pattern is written after it.

use super::forms::{BAD_CONSTRUCTOR_NAMES, BAD_LOWER_NAMES};
use crate::block::Block;
use crate::limits;
use crate::names;
use crate::rng::Rng;
use crate::types::{Constructor, MOST_FIELDS, OPAQUE, PAIR, TUPLE, Type, enumeration};

/// Where the wanted constructors stand: the place of the type, and the number within it.
fn constructors(block: &Block, wanted: impl Fn(&Constructor) -> bool) -> Vec<(usize, usize)> {
    let of_type = |(place, one): (usize, &Type)| {
        (0..one.constructors.len()).map(move |number| (place, number))
    };
    let all = block.table.iter().enumerate().flat_map(of_type);
    all.filter(|&(place, number)| wanted(&block.table[place].constructors[number]))
        .collect()
}

/// One of the wanted constructors; where there is none, a type is added with this one.
fn some(
    rng: &mut Rng,
    block: &mut Block,
    added: Constructor,
    wanted: impl Fn(&Constructor) -> bool,
) -> (usize, usize) {
    let found = constructors(block, wanted);
    if !found.is_empty() {
        return rng.pick(&found);
    }
    block.table.push(Type::data(vec![added]));
    (block.table.len() - 1, 0)
}

/// The constructor that stands there.
fn at(block: &mut Block, (place, number): (usize, usize)) -> &mut Constructor {
    &mut block.table[place].constructors[number]
}

/// A type, a constructor or the subject refers to no type.
pub fn bad_reference(rng: &mut Rng, block: &mut Block) {
    let size = block.table.len();
    let any = rng.between(size, 0xff);
    let nowhere = rng.pick(&[size, 0xff, any]) as u8;
    let fields = block.table.iter_mut().flat_map(|one| {
        one.parts.iter_mut().chain(
            one.constructors
                .iter_mut()
                .flat_map(|constructor| &mut constructor.fields),
        )
    });
    let mut fields: Vec<&mut u8> = fields.collect();
    if fields.is_empty() || rng.percent(20) {
        block.subject = nowhere;
    } else {
        let chosen = rng.below(fields.len());
        *fields[chosen] = nowhere;
    }
}

/// A type is added that has no finite value.
pub fn no_finite_value(rng: &mut Rng, block: &mut Block) {
    let own = block.table.len() as u8;
    block.table.push(match rng.below(5) {
        0 => Type::data(Vec::new()),
        1 => Type::new(PAIR, vec![own, 0]),
        2 => Type::new(TUPLE, vec![0, own, 0]),
        3 => Type::record(b"Self", vec![own]),
        _ => Type::data(vec![
            Constructor::plain(b"A", vec![0, own]),
            Constructor::plain(b"B", vec![own]),
        ]),
    });
}

/// A constructor's name stands twice in its type.
pub fn repeated_constructor(rng: &mut Rng, block: &mut Block) {
    let (place, number) = some(rng, block, Constructor::plain(b"Added", vec![0]), |_| true);
    let constructors = &mut block.table[place].constructors;
    let again = Constructor::plain(&constructors[number].name, Vec::new());
    constructors.insert(rng.between(0, constructors.len()), again);
}

/// A label stands twice in a constructor.
pub fn repeated_label(rng: &mut Rng, block: &mut Block) {
    let chosen = some(rng, block, Constructor::plain(b"P", vec![0, 0]), |one| {
        one.fields.len() >= 2
    });
    let count = at(block, chosen).fields.len();
    let mut labels = names::distinct(rng, count - 1, names::lower);
    let again = rng.pick(&labels);
    labels.insert(rng.between(0, labels.len()), again);
    at(block, chosen).labels = Some(labels);
}

/// A constructor of arity 0 says that it has labels.
pub fn labels_without_fields(rng: &mut Rng, block: &mut Block) {
    let chosen = some(rng, block, Constructor::plain(b"Bare", Vec::new()), |one| {
        one.fields.is_empty()
    });
    at(block, chosen).labels = Some(Vec::new());
}

/// A constructor's or a label's name has another form.
pub fn bad_name(rng: &mut Rng, block: &mut Block) {
    let is_labelled =
        |one: &Constructor| one.labels.as_ref().is_some_and(|labels| !labels.is_empty());
    let labelled = constructors(block, is_labelled);
    if !labelled.is_empty() && rng.percent(50) {
        let chosen = rng.pick(&labelled);
        let labels = at(block, chosen).labels.as_mut().expect("it has labels");
        let place = rng.below(labels.len());
        labels[place] = rng.pick(&BAD_LOWER_NAMES).to_vec();
    } else {
        let chosen = some(rng, block, Constructor::plain(b"Added", vec![0]), |_| true);
        at(block, chosen).name = rng.pick(&BAD_CONSTRUCTOR_NAMES).to_vec();
    }
}

/// A constructor's word about labels is turned round, or is neither yes nor no.
pub fn wrong_flag(rng: &mut Rng, block: &mut Block) {
    let chosen = some(rng, block, Constructor::plain(b"Added", vec![0]), |_| true);
    let one = at(block, chosen);
    one.flag = Some(rng.pick(&[u8::from(one.labels.is_none()), 2, 0xff]));
}

/// A type of an unknown kind, a tuple of too few or too many, or a constructor of 17 fields.
pub fn bad_type(rng: &mut Rng, block: &mut Block) {
    let bad = match rng.below(3) {
        0 => Type::new(rng.between(7, 0xff) as u8, Vec::new()),
        1 => Type::new(TUPLE, vec![0; rng.pick(&[0, 1, MOST_FIELDS + 1, 200])]),
        _ => Type::record(b"W", vec![0; MOST_FIELDS + 1]),
    };
    block.table.insert(rng.between(0, block.table.len()), bad);
}

/// 65 or 66 types.
pub fn too_many_types(rng: &mut Rng, block: &mut Block) {
    let count = limits::TYPES + rng.between(1, 2);
    while block.table.len() < count {
        block.table.push(Type::new(OPAQUE, Vec::new()));
    }
}

/// 257 constructors and more over several types.
pub fn too_many_constructors(rng: &mut Rng, block: &mut Block) {
    while constructors(block, |_| true).len() <= limits::CONSTRUCTORS {
        let count = rng.between(8, limits::CONSTRUCTORS_OF_A_TYPE);
        block.table.push(enumeration(rng, count));
    }
}

/// 33 constructors in one type.
pub fn too_many_in_one_type(rng: &mut Rng, block: &mut Block) {
    block
        .table
        .push(enumeration(rng, limits::CONSTRUCTORS_OF_A_TYPE + 1));
}
