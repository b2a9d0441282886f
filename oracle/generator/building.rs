//! What the families share: tables to build on, and ways to fill a block with clauses.

use crate::block::Block;
use crate::names::{self, LONGEST_NAME};
use crate::rng::Rng;
use crate::trees::{self, Tree};
use crate::types::{BYTE_STRING, INTEGER, LIST, OPAQUE, Table, Type, enumeration};
use crate::writer::{self, MIXED};

/// A block without clauses on a random type of the table, one with constructors if it can be.
pub fn start(rng: &mut Rng, table: Table) -> Block {
    let rich: Vec<u8> = (0..table.len())
        .filter(|&place| table[place].kind >= LIST)
        .map(|place| place as u8)
        .collect();
    let subject = if rich.is_empty() {
        rng.below(table.len()) as u8
    } else {
        rng.pick(&rich)
    };
    Block::new(table, subject, MIXED)
}

/// A block whose subject is a type put on top of a table.
pub fn on_top(mut table: Table, top: Type) -> Block {
    let subject = table.len() as u8;
    table.push(top);
    Block::new(table, subject, MIXED)
}

/// A small table to build on: integers, byte strings, an opaque type and two enumerations.
pub fn few_parts(rng: &mut Rng) -> Table {
    let count = rng.between(1, 4);
    let bare = |kind| Type::new(kind, Vec::new());
    vec![
        bare(INTEGER),
        bare(BYTE_STRING),
        bare(OPAQUE),
        enumeration(rng, 2),
        enumeration(rng, count),
    ]
}

/// Adds random clauses of up to `size` filled places, some of them close to an earlier one.
pub fn fill(rng: &mut Rng, mut block: Block, count: usize, size: usize) -> Block {
    let wild = rng.pick(&[0, 10, 30]);
    for _ in 0..count {
        let roll = rng.below(100);
        let tree = if roll < 2 {
            Tree::Wild(block.subject)
        } else if roll < 12 && !block.trees.is_empty() {
            let earlier = rng.below(block.trees.len());
            trees::loosened(rng, &block.trees[earlier])
        } else {
            let filled = rng.between(size.min(3), size);
            trees::random(rng, &block.table, block.subject, filled, wild)
        };
        block.add(rng, tree);
    }
    block
}

/// Adds clauses that leave no gap, disturbed a little: some added, some dropped, the order lost.
pub fn cover(rng: &mut Rng, mut block: Block, rows: usize) -> Block {
    let mut clauses = trees::cover(rng, &block.table, block.subject, rows);
    for _ in 0..rng.pick(&[0, 0, 1, 2]) {
        let earlier = rng.below(clauses.len());
        clauses.push(trees::loosened(rng, &clauses[earlier]));
    }
    if rng.percent(50) {
        rng.shuffle(&mut clauses);
    }
    let dropped = rng.pick(&[0, 0, 1, 2]).min(clauses.len());
    for tree in clauses.drain(dropped..) {
        block.add(rng, tree);
    }
    block
}

/// Adds clauses in the one way or the other.
pub fn cover_or_fill(rng: &mut Rng, block: Block, rows: usize, size: usize) -> Block {
    if rng.percent(50) {
        let rows = rng.between(2, rows);
        cover(rng, block, rows)
    } else {
        let count = rng.between(1, rows);
        fill(rng, block, count, size)
    }
}

/// The first constructor of a type with wildcards inside, so many of them filled.
pub fn partly_filled(rng: &mut Rng, table: &Table, place: u8, count: usize) -> Tree {
    let mut tree = trees::head(table, place, 0);
    if let Tree::Con(_, _, args) = &mut tree {
        for index in rng.sample(args.len(), count) {
            args[index] = trees::filled(rng, table, args[index].place());
        }
    }
    tree
}

/// A clause under so many names that it has that many bytes, or one or two less.
pub fn padded(rng: &mut Rng, clause: &[u8], length: usize) -> Vec<u8> {
    let longest = LONGEST_NAME + 2;
    let mut before = Vec::new();
    loop {
        let lacking = length.saturating_sub(before.len() + clause.len());
        if lacking <= 2 {
            return [&before, clause].concat();
        }
        let step = if lacking <= longest {
            lacking
        } else {
            longest.min(lacking - 3)
        };
        before.push(2);
        let letter = rng.pick(names::LOWER);
        writer::counted(&mut before, &vec![letter; step - 2]);
    }
}
