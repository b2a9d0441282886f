//! Blocks whose open calls hold as many cells as they may, or one more, and blocks that hold many.

use crate::block::Block;
use crate::limits;
use crate::rng::Rng;
use crate::trees::{self, Tree};
use crate::types::{Constructor, INTEGER, LIST, MOST_FIELDS, OPAQUE, PAIR, TUPLE, Table, Type};
use crate::writer::{Forms, MIXED, SHORT};

const UNARY: u8 = 2;
const SMALL: usize = 8;
const LIST_BYTES: usize = 633;

/// The cells of one row over the calls that walk straight through it: the patterns left, before each one.
fn held(tree: &Tree) -> usize {
    fn add(tree: &Tree, after: usize) -> usize {
        let args = tree.args();
        let inside = args
            .iter()
            .enumerate()
            .map(|(place, arg)| add(arg, after + args.len() - 1 - place));
        after + 1 + inside.sum::<usize>()
    }
    add(tree, 0)
}

/// 16,383 to 16,386 cells of the first kind: a clause repeated. An integer in front ends the other walk at once.
pub fn first_kind(rng: &mut Rng) -> Block {
    let (cells, rows) = rng.pick(&[
        (16_384, 2),
        (16_384, 4),
        (16_384, 8),
        (16_384, 16),
        (16_385, 5),
        (16_385, 29),
        (16_383, 3),
        (16_386, 3),
    ]);
    let front = if rng.percent(70) {
        Some(Tree::Literal(0, b"7".to_vec()))
    } else {
        None
    };
    repeated(rng, cells / rows, rows, front)
}

/// 16,383 to 16,385 cells of the second kind: one clause, walked straight through.
pub fn second_kind(rng: &mut Rng) -> Block {
    let cells = limits::CELLS + 1 - rng.pick(&[0, 1, 1, 2]);
    repeated(rng, cells, 1, None)
}

/// So many times a clause whose row holds that many cells; one that no line holds is made anew.
fn repeated(rng: &mut Rng, cells: usize, times: usize, front: Option<Tree>) -> Block {
    loop {
        let mut block = wide_block(rng, front.is_some());
        let mut tree = trees::head(&block.table, block.subject, 0);
        if let Some(front) = &front {
            *tree.part(1) = front.clone();
        }
        grow(rng, &block, &mut tree, cells);
        fit(&mut tree, cells);
        let clause = block.written(rng, &tree);
        let is_added = (0..times).all(|_| block.add_written(tree.clone(), clause.clone()));
        if is_added && held(&tree) == cells {
            return block;
        }
    }
}

/// A block on a tuple: an integer in front where it is asked for, wide records inside one another, small records last.
fn wide_block(rng: &mut Rng, front: bool) -> Block {
    let bare = |kind| Type::new(kind, Vec::new());
    let wide = |rng: &mut Rng, of: u8| Type::record(b"W", vec![of; rng.between(10, MOST_FIELDS)]);
    let mut table = vec![
        bare(INTEGER),
        bare(OPAQUE),
        Type::record(b"U", vec![1]),
        wide(rng, UNARY),
        wide(rng, 3),
    ];
    let large = rng.between(5, MOST_FIELDS - SMALL - usize::from(front));
    let mut parts = vec![0; usize::from(front)];
    parts.extend((0..large).map(|_| rng.pick(&[3, 4, 4])));
    parts.extend([UNARY; SMALL]);
    table.push(Type::new(TUPLE, parts));
    Block::new(table, 5, SHORT)
}

/// Opens wildcards at random while the row holds few enough cells: wide ones, then small ones but for the last.
fn grow(rng: &mut Rng, block: &Block, tree: &mut Tree, cells: usize) {
    let most_left = SMALL * (SMALL + 1) / 2;
    for least in [UNARY + 1, UNARY] {
        let kept = if least == UNARY { SMALL } else { 0 };
        let mut failed = 0;
        while held(tree) + most_left < cells && failed < 20 {
            let wild = tree.parts(&|part| part.is_wild() && part.place() >= least);
            if wild.len() <= kept {
                break;
            }
            let number = wild[rng.below(wild.len() - kept)];
            let place = tree.part(number).place();
            *tree.part(number) = trees::head(&block.table, place, 0);
            if held(tree) > cells {
                *tree.part(number) = Tree::Wild(place);
                failed += 1;
            }
        }
    }
}

/// Opens some of the last small ones: the one before which so many patterns are left adds as many cells.
fn fit(tree: &mut Tree, cells: usize) {
    let mut lacking = cells.saturating_sub(held(tree));
    let Tree::Con(_, _, args) = tree else {
        return;
    };
    let width = args.len();
    for left in (1..=SMALL).rev() {
        if left <= lacking {
            args[width - left] = Tree::Con(UNARY, 0, vec![Tree::Wild(1)]);
            lacking -= left;
        }
    }
}

/// Wide records inside one another: rows grow with each open call.
pub fn nested_records(rng: &mut Rng) -> Block {
    let width = rng.between(4, MOST_FIELDS);
    let constructors = vec![
        Constructor::plain(b"R", vec![0; width]),
        Constructor::plain(b"E", Vec::new()),
    ];
    let mut block = Block::new(
        vec![Type::data(constructors)],
        0,
        Forms {
            variables: 0,
            spreads: 100,
            ..MIXED
        },
    );
    for _ in 0..rng.between(1, 4) {
        let mut tree = Tree::Wild(0);
        for _ in 0..rng.between(10, 100) {
            tree = Tree::Con(0, 0, [vec![tree], vec![Tree::Wild(0); width - 1]].concat());
        }
        block.add(rng, tree);
    }
    block
}

/// The calls of the first kind go deep: a list, twice, of records that a spread fills and of wildcards.
pub fn deep_first(rng: &mut Rng) -> Block {
    let arity = rng.between(8, 14);
    let of_record = 2 + (arity + 1) * (arity + 2) / 2;
    let most = (limits::CELLS / 2 - 3 * LIST_BYTES) / (of_record - 12);
    let records = (most + rng.pick(&[0, 0, 1]) - rng.pick(&[0, 0, 1, 5])).min(LIST_BYTES / 4);
    deep_list(rng, arity, records, LIST_BYTES - 4 * records)
}

/// Two equal clauses: a closed list of so many records of an arity and of wildcards, in any order.
fn deep_list(rng: &mut Rng, arity: usize, records: usize, wildcards: usize) -> Block {
    let record = Type::record(b"R", vec![0; arity]);
    let table = vec![
        Type::new(OPAQUE, Vec::new()),
        record,
        Type::new(LIST, vec![1]),
    ];
    let mut block = Block::new(table, 2, SHORT);
    let record = trees::head(&block.table, 1, 0);
    let mut elements = [vec![record; records], vec![Tree::Wild(1); wildcards]].concat();
    rng.shuffle(&mut elements);
    let tree = trees::list(2, elements, Tree::Con(2, 1, Vec::new()));
    block.add(rng, tree.clone());
    block.add(rng, tree);
    block
}

/// The calls of the second kind go deep: tuples of two records and the next tuple, each record filled by a spread.
pub fn deep_second(rng: &mut Rng) -> Block {
    let arity = rng.between(12, MOST_FIELDS);
    let of_tuple = 6 + 3 * arity + arity * (arity + 1);
    let most = (limits::CELLS / of_tuple + rng.pick(&[0, 0, 1])).min(limits::TYPES - 2);
    let count = most - rng.pick(&[0, 0, 1, 5]);
    let (table, tree) = deep_tuples(&[arity], &vec![&[1, 1][..]; count]);
    one_clause(rng, table, tree)
}

/// 1,954 calls of the second kind are open at a time: no other mix of such tuples was found to have more.
pub fn deepest_second(rng: &mut Rng) -> Block {
    let mut tuples = [vec![&[0, 1, 1][..]; 28], vec![&[1, 2][..]; 33]].concat();
    rng.shuffle(&mut tuples);
    let (table, tree) = deep_tuples(&[14, 15], &tuples);
    one_clause(rng, table, tree)
}

/// 2,316 calls of the first kind are open at a time: the walk goes through the tuples of the first clause and then
/// through the list of the second.
pub fn deepest_first(rng: &mut Rng) -> Block {
    let mut tuples = [vec![&[0, 1, 1][..]; 36], vec![&[1, 1][..]; 24]].concat();
    rng.shuffle(&mut tuples);
    let (mut table, tree) = deep_tuples(&[7], &tuples);
    let place = table.len() as u8;
    table.push(Type::new(LIST, vec![0]));
    table.push(Type::new(PAIR, vec![place - 1, place]));
    let list = trees::list(
        place,
        vec![Tree::Wild(0); 628],
        Tree::Con(place, 1, Vec::new()),
    );
    let mut block = Block::new(table, place + 1, SHORT);
    block.add(rng, Tree::Con(place + 1, 0, vec![tree, Tree::Wild(place)]));
    block.add(
        rng,
        Tree::Con(place + 1, 0, vec![Tree::Wild(place - 1), list]),
    );
    block
}

/// Tuples, each the last part of the next; the other parts are wildcards, 0, or records of an arity, from 1.
fn deep_tuples(arities: &[usize], tuples: &[&[u8]]) -> (Table, Tree) {
    let mut table = vec![Type::new(OPAQUE, Vec::new())];
    table.extend(
        arities
            .iter()
            .map(|&arity| Type::record(b"R", vec![0; arity])),
    );
    let mut tree = Tree::Wild(0);
    for parts in tuples {
        let part = |&place: &u8| {
            if place == 0 {
                Tree::Wild(0)
            } else {
                trees::head(&table, place, 0)
            }
        };
        let args = parts.iter().map(part).chain([tree.clone()]).collect();
        table.push(Type::new(TUPLE, [parts, &[tree.place()][..]].concat()));
        tree = Tree::Con(table.len() as u8 - 1, 0, args);
    }
    (table, tree)
}

/// A block of this one clause.
fn one_clause(rng: &mut Rng, table: Table, tree: Tree) -> Block {
    let mut block = Block::new(table, tree.place(), SHORT);
    block.add(rng, tree);
    block
}
