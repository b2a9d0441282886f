//! Damage to a block's clauses.

use super::forms::{BAD_DECIMALS, BAD_LOWER_NAMES, FIRST_UNKNOWN_PATTERN};
use crate::block::{Block, LONGEST_FRAME};
use crate::building::padded;
use crate::edges;
use crate::limits;
use crate::names::LONGEST_LITERAL;
use crate::rng::Rng;
use crate::trees::{self, Tree};
use crate::types::{DATA, TUPLE};
use crate::writer::{self, counted};

/// The number of a clause, one being added where there is none.
fn some_clause(rng: &mut Rng, block: &mut Block) -> usize {
    if block.clauses.is_empty() {
        block.append(Tree::Wild(block.subject), vec![0]);
    }
    rng.below(block.clauses.len())
}

/// Replaces a wanted part of a clause, if it has one, by what `new` makes of it.
fn replace_part(
    rng: &mut Rng,
    block: &mut Block,
    wanted: impl Fn(&Block, &Tree) -> bool,
    new: impl Fn(&mut Rng, &Block, &Tree) -> Tree,
) {
    let number = some_clause(rng, block);
    let mut tree = block.trees[number].clone();
    let fitting = tree.parts(&|part| wanted(block, part));
    if !fitting.is_empty() {
        let part = tree.part(rng.pick(&fitting));
        *part = new(rng, block, part);
        block.clauses[number] = block.written(rng, &tree);
        block.trees[number] = tree;
    }
}

/// A part of a pattern gives way to bytes that are no pattern.
pub fn bad_part(rng: &mut Rng, block: &mut Block) {
    replace_part(
        rng,
        block,
        |_, _| true,
        |rng, _, _| Tree::Raw(no_pattern(rng)),
    );
}

/// Bytes that are no pattern.
fn no_pattern(rng: &mut Rng) -> Vec<u8> {
    let mut bytes = Vec::new();
    match rng.below(9) {
        0 => bytes.push(rng.between(FIRST_UNKNOWN_PATTERN, 0xff) as u8),
        1 => named(&mut bytes, 1, rng.pick(&BAD_LOWER_NAMES)),
        2 => {
            named(&mut bytes, 2, rng.pick(&BAD_LOWER_NAMES));
            bytes.push(0);
        }
        3 => named(&mut bytes, 3, rng.pick(&BAD_DECIMALS)),
        4 => named(&mut bytes, 4, &[0; LONGEST_LITERAL + 1]),
        5 => bytes.extend([5, 0, rng.between(2, 0xff) as u8]),
        6 => bytes.extend([6, 0, 0, rng.between(2, 0xff) as u8]),
        7 => bytes.extend(b"\x01\x05ab"),
        _ => {}
    }
    bytes
}

/// A kind and a counted text.
fn named(out: &mut Vec<u8>, kind: u8, text: &[u8]) {
    out.push(kind);
    counted(out, text);
}

const FOR_NO_TYPE: [&[u8]; 7] = [
    b"\x03\x010",
    b"\x04\0",
    b"\x05\0\0",
    b"\x06\0\0\x01",
    b"\x07\0\0",
    b"\x08\x02\0\0",
    b"\x08\0",
];

/// A part of a pattern gives way to a pattern for any type of the table, or for none of them.
pub fn unsuited_part(rng: &mut Rng, block: &mut Block) {
    let other = |rng: &mut Rng, block: &Block, _: &Tree| {
        if rng.percent(40) {
            return Tree::Raw(rng.pick(&FOR_NO_TYPE).to_vec());
        }
        let place = rng.below(block.table.len()) as u8;
        trees::filled(rng, &block.table, place)
    };
    replace_part(rng, block, |_, _| true, other);
}

/// A pattern has an argument more or less than its type, or a constructor that the type lacks.
pub fn wrong_count(rng: &mut Rng, block: &mut Block) {
    let has_count = |block: &Block, part: &Tree| matches!(part, Tree::Con(place, _, _) if matches!(block.table[usize::from(*place)].kind, TUPLE | DATA));
    replace_part(rng, block, has_count, recounted);
}

/// The part with a count or a number that is wrong.
fn recounted(rng: &mut Rng, block: &Block, part: &Tree) -> Tree {
    let Tree::Con(place, number, args) = part else {
        return part.clone();
    };
    let one = &block.table[usize::from(*place)];
    let mut args = args.clone();
    if !args.is_empty() && rng.percent(50) {
        args.pop();
    } else {
        args.push(Tree::Wild(block.subject));
    }
    if one.kind == TUPLE {
        return Tree::Con(*place, *number, args);
    }
    let number = if rng.percent(70) {
        *number
    } else {
        rng.pick(&[one.constructors.len() as u8, 0xff])
    };
    let mut bytes = vec![6, number, args.len() as u8, u8::from(rng.percent(30))];
    writer::each(rng, &block.table, &block.forms, &args, &mut bytes);
    Tree::Raw(bytes)
}

/// A clause of 1,282 digits and more.
pub fn long_clause(rng: &mut Rng, block: &mut Block) {
    let number = some_clause(rng, block);
    let length = LONGEST_FRAME + rng.pick(&[0, 0, 1, 60]);
    block.clauses[number] = padded(rng, &block.clauses[number], length);
}

/// 65 or 66 clauses.
pub fn too_many_clauses(rng: &mut Rng, block: &mut Block) {
    let count = limits::CLAUSES + rng.between(1, 2);
    while block.clauses.len() < count {
        block.append(Tree::Wild(block.subject), vec![0]);
    }
}

/// The block gives way to one of 4,097 nodes or a few more.
pub fn too_many_nodes(rng: &mut Rng, block: &mut Block) {
    let over = rng.between(1, 4);
    *block = edges::counts::block_of_nodes(rng, limits::CLAUSE_NODES + over);
}

/// The block gives way to one whose file has 49,153 bytes or a few more.
pub fn too_many_bytes(rng: &mut Rng, block: &mut Block) {
    let over = rng.between(1, 3);
    *block = edges::counts::block_of_bytes(rng, limits::FILE_BYTES + over);
}
