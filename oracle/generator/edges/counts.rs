//! Blocks with as many types, constructors, clauses, nodes, digits or bytes as there may be, or a few less.

use crate::block::{Block, LONGEST_FRAME};
use crate::building::{few_parts, fill, padded, start};
use crate::families::tiny;
use crate::limits;
use crate::rng::Rng;
use crate::trees::{self, Tree};
use crate::types::{
    self, INTEGER, LIST, MOST_FIELDS, OPAQUE, PAIR, PLAIN, Shape, Type, enumeration,
};
use crate::writer::{MIXED, SHORT};

/// 63 or 64 clauses without depth.
pub fn flat_clauses(rng: &mut Rng) -> Block {
    let mut table = few_parts(rng);
    table.push(enumeration(rng, limits::CONSTRUCTORS_OF_A_TYPE));
    let mut block = Block::new(table, rng.pick(&[0, 1, 4, 5]), MIXED);
    for _ in 0..limits::CLAUSES - rng.below(2) {
        let tree = if rng.percent(2) {
            Tree::Wild(block.subject)
        } else {
            trees::filled(rng, &block.table, block.subject)
        };
        block.add(rng, tree);
    }
    block
}

/// 63 or 64 types.
pub fn many_types(rng: &mut Rng) -> Block {
    let shape = Shape {
        constructors: 2,
        fields: 2,
        tuple: 3,
        ..PLAIN
    };
    let count = limits::TYPES - rng.below(2);
    let table = types::table(rng, count, &shape);
    let (block, clauses) = (start(rng, table), rng.between(0, 8));
    fill(rng, block, clauses, 8)
}

/// 255 or 256 constructors over several types.
pub fn many_constructors(rng: &mut Rng) -> Block {
    let mut left = limits::CONSTRUCTORS - rng.below(2);
    let mut table = few_parts(rng);
    table.truncate(3);
    while left > 0 {
        let count = rng.between(8, limits::CONSTRUCTORS_OF_A_TYPE).min(left);
        table.push(types::data(rng, count, 0, |rng| {
            vec![0; rng.pick(&[0, 0, 0, 1, 2])]
        }));
        left -= count;
    }
    let (block, clauses) = (start(rng, table), rng.between(0, 8));
    fill(rng, block, clauses, 6)
}

/// A type of 31 or 32 constructors; one, nearly all or all of them are matched.
pub fn wide_type(rng: &mut Rng) -> Block {
    let count = limits::CONSTRUCTORS_OF_A_TYPE - rng.below(2);
    let arity = |rng: &mut Rng| {
        if rng.percent(20) {
            rng.between(0, MOST_FIELDS)
        } else {
            rng.pick(&[0, 0, 0, 1])
        }
    };
    let wide = types::data(rng, count, 20, |rng| vec![1; arity(rng)]);
    let mut block = Block::new(vec![wide, Type::new(OPAQUE, Vec::new())], 0, MIXED);
    let matched = rng.pick(&[1, count - 2, count]);
    for number in rng.sample(count, matched) {
        let tree = trees::head(&block.table, 0, number);
        block.add(rng, tree);
    }
    block
}

/// A small block with a clause of 1,278 or 1,280 digits.
pub fn longest_line(rng: &mut Rng) -> Block {
    let mut block = tiny(rng);
    let tree = trees::random(rng, &block.table, block.subject, 6, 30);
    let clause = block.written(rng, &tree);
    let length = LONGEST_FRAME - 1 - rng.below(2);
    let clause = padded(rng, &clause, length);
    block.add_written(tree, clause);
    block
}

/// A file of 49,152 bytes, or a few less.
pub fn longest_file(rng: &mut Rng) -> Block {
    let length = limits::FILE_BYTES - rng.below(3);
    block_of_bytes(rng, length)
}

/// A file of that many bytes: wildcards under long names fill it up.
pub fn block_of_bytes(rng: &mut Rng, length: usize) -> Block {
    let mut block = tiny(rng);
    let (longest, shortest) = (2 * LONGEST_FRAME + 1, 11);
    while block.size < length {
        let lacking = length - block.size;
        let line = if lacking <= longest && lacking % 2 == 1 {
            lacking
        } else if lacking > longest + 3 * shortest {
            longest
        } else {
            shortest
        };
        let clause = padded(rng, &[0], line.max(5) / 2 - 1);
        block.append(Tree::Wild(block.subject), clause);
    }
    block
}

/// 4,093 to 4,096 nodes in some 64 clauses that are cheap to tell apart.
pub fn most_nodes(rng: &mut Rng) -> Block {
    let total = limits::CLAUSE_NODES - rng.below(4);
    block_of_nodes(rng, total)
}

/// So many nodes in all, in 64 clauses or 63: each is an integer beside a list, an odd number of nodes.
pub fn block_of_nodes(rng: &mut Rng, total: usize) -> Block {
    let bare = |kind| Type::new(kind, Vec::new());
    let table = vec![
        bare(INTEGER),
        bare(OPAQUE),
        Type::new(LIST, vec![1]),
        Type::new(PAIR, vec![0, 2]),
    ];
    let mut block = Block::new(table, 3, SHORT);
    let clauses = limits::CLAUSES - total % 2;
    let mut cells = (total - 3 * clauses) / 2;
    for number in 0..clauses {
        let count = cells / (clauses - number);
        cells -= count;
        let end = trees::list_end(rng, 2);
        let items = trees::list(2, vec![Tree::Wild(1); count], end);
        let tree = Tree::Con(
            3,
            0,
            vec![Tree::Literal(0, number.to_string().into_bytes()), items],
        );
        let clause = block.written(rng, &tree);
        block.append(tree, clause);
    }
    block
}
