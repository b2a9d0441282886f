//! Families of well formed blocks, each after one shape. For none of them do refusals 1 to 9 apply.

use crate::block::Block;
use crate::building::{cover, cover_or_fill, few_parts, fill, on_top, partly_filled, start};
use crate::limits;
use crate::names;
use crate::rng::Rng;
use crate::trees::{self, Tree};
use crate::types::{LIST, MOST_FIELDS, PAIR, PLAIN, Shape, TUPLE, Table, Type, enumeration, table};
use crate::writer::Forms;

/// A block on a random table of so many types.
fn random_start(rng: &mut Rng, least: usize, most: usize, shape: &Shape) -> Block {
    let size = rng.between(least, most);
    let table = table(rng, size, shape);
    start(rng, table)
}

/// Any table, and nothing matched.
pub fn no_clauses(rng: &mut Rng) -> Block {
    random_start(rng, 1, 6, &PLAIN)
}

/// One to three types, up to four clauses.
pub fn tiny(rng: &mut Rng) -> Block {
    let block = random_start(rng, 1, 3, &PLAIN);
    let count = rng.between(0, 4);
    fill(rng, block, count, 5)
}

/// Types of all kinds in one table, up to a dozen clauses.
pub fn all_kinds(rng: &mut Rng) -> Block {
    let block = random_start(rng, 2, 9, &PLAIN);
    let count = rng.between(1, 12);
    fill(rng, block, count, 12)
}

/// Wide types and many clauses.
pub fn large(rng: &mut Rng) -> Block {
    let block = random_start(
        rng,
        5,
        30,
        &Shape {
            constructors: 12,
            fields: 6,
            tuple: MOST_FIELDS,
            ..PLAIN
        },
    );
    let (count, size) = (rng.between(10, limits::CLAUSES), rng.pick(&[8, 25, 60]));
    fill(rng, block, count, size)
}

/// Any table; the clauses come from splitting wildcards, so that few gaps are left or none.
pub fn covered(rng: &mut Rng) -> Block {
    let block = random_start(rng, 1, 6, &PLAIN);
    let rows = rng.pick(&[2, 4, 8, 16]);
    cover(rng, block, rows)
}

/// Constructors without fields, matched alone or in a pair.
pub fn enumerations(rng: &mut Rng) -> Block {
    let (first, second) = (rng.between(1, 6), rng.between(1, 4));
    let table = vec![enumeration(rng, first), enumeration(rng, second)];
    let pair = Type::new(PAIR, vec![rng.below(2) as u8, rng.below(2) as u8]);
    let block = if rng.percent(70) {
        on_top(table, pair)
    } else {
        start(rng, table)
    };
    let count = rng.between(1, 10);
    fill(rng, block, count, 4)
}

/// Data types whose fields are the types themselves: numbers, trees, types round in a ring.
pub fn recursive(rng: &mut Rng) -> Block {
    let shape = Shape {
        kinds: [1, 0, 0, 1, 1, 1, 9],
        constructors: 3,
        fields: 3,
        ..PLAIN
    };
    let block = random_start(rng, 1, 4, &shape);
    let size = rng.pick(&[4, 4, 10, 10, 30]);
    cover_or_fill(rng, block, 12, size)
}

/// Lists, and lists of lists.
pub fn lists(rng: &mut Rng) -> Block {
    let mut table = few_parts(rng);
    for _ in 0..rng.between(0, 2) {
        table.push(Type::new(LIST, vec![table.len() as u8 - 1]));
    }
    let element = table.len() as u8 - 1;
    let mut block = on_top(table, Type::new(LIST, vec![element]));
    block.forms = Forms {
        tails: 20,
        ..block.forms
    };
    let size = rng.pick(&[4, 4, 12, 30]);
    cover_or_fill(rng, block, 12, size)
}

/// Long lists, open and closed, with wildcards for most elements.
pub fn deep_lists(rng: &mut Rng) -> Block {
    let element = rng.pick(&[0, 1, 3]);
    let mut block = on_top(few_parts(rng), Type::new(LIST, vec![element]));
    block.forms = Forms {
        variables: 0,
        ..block.forms
    };
    let (longest, most) = rng.pick(&[
        (10, 12),
        (30, 12),
        (30, 8),
        (60, 6),
        (120, 3),
        (250, 2),
        (400, 2),
    ]);
    for _ in 0..rng.between(1, most) {
        let mut elements = vec![Tree::Wild(element); rng.between(1, longest)];
        for _ in 0..rng.pick(&[0, 1, 3]) {
            let place = rng.below(elements.len());
            elements[place] = trees::filled(rng, &block.table, element);
        }
        let end = trees::list_end(rng, block.subject);
        block.add(rng, trees::list(block.subject, elements, end));
    }
    block
}

/// Pairs in pairs, on either side.
pub fn pairs(rng: &mut Rng) -> Block {
    let mut table = few_parts(rng);
    for _ in 0..rng.between(1, 5) {
        let mut parts = vec![table.len() as u8 - 1, rng.between(0, 4) as u8];
        rng.shuffle(&mut parts);
        table.push(Type::new(PAIR, parts));
    }
    let subject = table.len() as u8 - 1;
    let block = Block::new(table, subject, crate::writer::MIXED);
    cover_or_fill(rng, block, 10, 10)
}

/// A block on a tuple of that width over small types.
fn tuple_block(rng: &mut Rng, width: usize) -> Block {
    let small = rng.pick(&[&[3][..], &[3, 4], &[0, 3], &[0, 1, 2, 3, 4]]);
    let parts = (0..width).map(|_| rng.pick(small)).collect();
    on_top(few_parts(rng), Type::new(TUPLE, parts))
}

/// Adds so many clauses, each with some parts of a tuple filled.
fn partly_filled_clauses(
    rng: &mut Rng,
    mut block: Block,
    count: usize,
    least: usize,
    most: usize,
) -> Block {
    for _ in 0..count {
        let filled = rng.between(least, most);
        let tree = partly_filled(rng, &block.table, block.subject, filled);
        block.add(rng, tree);
    }
    block
}

/// Tuples of 2 to 16, a few parts filled in each clause.
pub fn tuples(rng: &mut Rng) -> Block {
    let width = rng.pick(&[2, 2, 3, 3, 4, 5, 8, 12, MOST_FIELDS]);
    let block = tuple_block(rng, width);
    if rng.percent(30) {
        let rows = rng.between(2, 12);
        return cover(rng, block, rows);
    }
    let (count, most) = (rng.between(1, 10), rng.between(1, 4));
    partly_filled_clauses(rng, block, count, 1, most)
}

/// Tuples of eight with many clauses.
pub fn tuples_of_eight(rng: &mut Rng) -> Block {
    let block = tuple_block(rng, 8);
    let count = rng.pick(&[8, 16, 32, limits::CLAUSES]);
    partly_filled_clauses(rng, block, count, 2, 8)
}

/// Wide tuples of which each clause fills two or three parts: the calls double with each.
pub fn many_calls(rng: &mut Rng) -> Block {
    let (count, width, clauses) = (
        rng.between(2, 3),
        rng.between(8, MOST_FIELDS),
        rng.between(8, 40),
    );
    let block = on_top(
        vec![enumeration(rng, count)],
        Type::new(TUPLE, vec![0; width]),
    );
    partly_filled_clauses(rng, block, clauses, 2, 3)
}

/// Integers and byte strings, alone and inside other types.
pub fn literals(rng: &mut Rng) -> Block {
    let block = random_start(
        rng,
        1,
        4,
        &Shape {
            kinds: [4, 4, 0, 2, 2, 2, 1],
            ..PLAIN
        },
    );
    let count = rng.between(1, 14);
    fill(rng, block, count, 6)
}

/// Constructors with labels, and names that hold `__Tuple`.
pub fn records(rng: &mut Rng) -> Block {
    let shape = Shape {
        kinds: [2, 1, 1, 1, 1, 1, 9],
        constructors: 3,
        fields: 4,
        labelled: 80,
        ..PLAIN
    };
    let size = rng.between(1, 4);
    let mut table = table(rng, size, &shape);
    rename_some(rng, &mut table);
    let block = start(rng, table);
    cover_or_fill(rng, block, 10, 8)
}

/// Gives every other constructor a name that holds `__Tuple` or nearly does, unless its type has it already.
fn rename_some(rng: &mut Rng, table: &mut Table) {
    for one in table {
        for number in 0..one.constructors.len() {
            let name = names::tuple_like(rng);
            if rng.percent(50) && one.constructors.iter().all(|other| other.name != name) {
                one.constructors[number].name = name;
            }
        }
    }
}
