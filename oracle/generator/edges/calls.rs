//! Blocks that make as many calls as there may be, or one more, of the one kind or the other.
//!
//! A constructor X has some enumerations for fields and an integer last. The first clauses are one for each constructor
//! of each field, wildcards in the other fields and an integer of its own in the last: each takes a few calls, and
//! together they make every field complete. A wildcard clause follows. From then on a clause is never reached, and a
//! wildcard at a field tries all of its constructors, in front of all that comes after it.

use crate::block::Block;
use crate::limits;
use crate::rng::Rng;
use crate::trees::Tree;
use crate::types::{Constructor, INTEGER, OPAQUE, TUPLE, Type, enumeration};
use crate::writer::SHORT;

const FIRST_FIELD: u8 = 4;
const WIDE: usize = 16;
const LEAST_SHARE: usize = 3 + WIDE;
const MOST_SHARE: usize = LEAST_SHARE + 8 * WIDE;

/// The calls past a limit that a block is made for: at the limit more often than one over it, and now and then below.
fn target(rng: &mut Rng) -> usize {
    limits::CALLS + 1 - rng.pick(&[0, 1, 1, 2])
}

/// The calls from the first field to the end of the row, where a field is tried in so many ways.
fn calls_over(ways: &[usize]) -> usize {
    let mut open = 1;
    let mut calls = 1;
    for way in ways {
        open *= way;
        calls += open;
    }
    calls + open
}

/// Types 0 to 3 (integer, opaque, a wide tuple, a wider one), the fields' enumerations, and the subject on top.
fn table(rng: &mut Rng, sizes: &[usize], others: Vec<Constructor>) -> Vec<Type> {
    let bare = |kind| Type::new(kind, Vec::new());
    let mut table = vec![
        bare(INTEGER),
        bare(OPAQUE),
        Type::new(TUPLE, vec![1; WIDE]),
        Type::new(TUPLE, vec![2; WIDE]),
    ];
    table.extend(sizes.iter().map(|&size| enumeration(rng, size)));
    let fields = (0..sizes.len())
        .map(|field| FIRST_FIELD + field as u8)
        .chain([0])
        .collect();
    table.push(Type::data(
        [vec![Constructor::plain(b"X", fields)], others].concat(),
    ));
    table
}

/// The constructor X over these fields.
fn row(subject: u8, fields: impl Iterator<Item = (u8, Option<u8>)>, last: Tree) -> Tree {
    let field = |(place, number): (u8, Option<u8>)| match number {
        Some(number) => Tree::Con(place, number, Vec::new()),
        None => Tree::Wild(place),
    };
    Tree::Con(subject, 0, fields.map(field).chain([last]).collect())
}

/// Adds the clauses that make every field complete.
fn make_complete(rng: &mut Rng, block: &mut Block, sizes: &[usize]) {
    let mut number = 0;
    for (field, &size) in sizes.iter().enumerate() {
        for seen in rng.sample(size, size) {
            let at = |place: usize| {
                (
                    FIRST_FIELD + place as u8,
                    (place == field).then_some(seen as u8),
                )
            };
            let last = Tree::Literal(0, format!("{number}").into_bytes());
            block.add(rng, row(block.subject, (0..sizes.len()).map(at), last));
            number += 1;
        }
    }
}

/// 65,535 to 65,537 calls of the first kind: clauses that are never reached, each of a known number of calls.
pub fn first_kind(rng: &mut Rng) -> Block {
    loop {
        let width = rng.between(9, 12);
        let sizes: Vec<usize> = (0..width).map(|_| rng.pick(&[2, 2, 2, 3])).collect();
        let rows: usize = sizes.iter().sum();
        let before = 1 + 3 * (sizes[0] - 1) + (width + 3) * (rows - sizes[0]) + width + 3;
        if calls_over(&sizes) + 1 > limits::CALLS || rows + 8 > limits::CLAUSES {
            continue;
        }
        let wanted = target(rng) - before;
        if let Some(chosen) = summands(rng, &sizes, wanted, limits::CLAUSES - rows - 1) {
            return block_of_first_kind(rng, &sizes, &chosen);
        }
    }
}

/// The clauses that make every field complete, a wildcard, and the chosen ones.
fn block_of_first_kind(rng: &mut Rng, sizes: &[usize], chosen: &[u32]) -> Block {
    let table = table(rng, sizes, Vec::new());
    let subject = table.len() as u8 - 1;
    let mut block = Block::new(table, subject, SHORT);
    make_complete(rng, &mut block, sizes);
    block.add(rng, Tree::Wild(subject));
    for wild in chosen {
        let fields: Vec<(u8, Option<u8>)> = (0..sizes.len())
            .map(|field| {
                (
                    FIRST_FIELD + field as u8,
                    (wild >> field & 1 == 0).then(|| rng.below(sizes[field]) as u8),
                )
            })
            .collect();
        block.add(rng, row(subject, fields.into_iter(), Tree::Wild(0)));
    }
    block
}

/// The calls of a clause that is never reached, with wildcards at the fields of which the bits are set.
fn calls_of(sizes: &[usize], wild: u32) -> usize {
    let ways: Vec<usize> = (0..sizes.len())
        .map(|field| {
            if wild >> field & 1 == 1 {
                sizes[field]
            } else {
                1
            }
        })
        .collect();
    1 + calls_over(&ways)
}

/// At most so many clauses whose calls add up to what is wanted: large ones at random, then small ones to fit.
fn summands(rng: &mut Rng, sizes: &[usize], wanted: usize, most: usize) -> Option<Vec<u32>> {
    let spare = rng.between(400, 700);
    let mut chosen = Vec::new();
    let mut left = wanted;
    for _ in 0..200 {
        let wild = rng.below(1 << sizes.len()) as u32 | rng.below(1 << sizes.len()) as u32;
        let calls = calls_of(sizes, wild);
        if calls + spare <= left {
            chosen.push(wild);
            left -= calls;
        }
    }
    let small: Vec<u32> = (0..1 << 4).map(|bits| bits << (sizes.len() - 4)).collect();
    chosen.extend(exactly(&small, |wild| calls_of(sizes, wild), left)?);
    rng.shuffle(&mut chosen);
    (chosen.len() <= most).then_some(chosen)
}

/// The fewest of these, each as often as needed, whose calls add up to a number.
fn exactly(of: &[u32], calls: impl Fn(u32) -> usize, wanted: usize) -> Option<Vec<u32>> {
    let mut fewest: Vec<Option<(usize, u32)>> = vec![None; wanted + 1];
    let costs: Vec<(u32, usize)> = of.iter().map(|&one| (one, calls(one))).collect();
    for sum in 1..=wanted {
        for &(one, cost) in &costs {
            let before = match sum.checked_sub(cost) {
                Some(0) => Some(0),
                Some(rest) => fewest[rest].map(|(count, _)| count),
                None => None,
            };
            if let Some(count) = before
                && fewest[sum].is_none_or(|(least, _)| count + 1 < least)
            {
                fewest[sum] = Some((count + 1, one));
            }
        }
    }
    let mut chosen = Vec::new();
    let mut left = wanted;
    while left > 0 {
        let (_, one) = fewest[left]?;
        chosen.push(one);
        left -= calls(one);
    }
    Some(chosen)
}

/// 65,535 to 65,537 calls of the second kind: all ways through X, and records that are walked straight through.
pub fn second_kind(rng: &mut Rng) -> Block {
    let straight = rng.between(6, 12);
    let (least, most) = (straight * LEAST_SHARE, straight * MOST_SHARE);
    loop {
        let width = rng.between(9, 14);
        let sizes: Vec<usize> = (0..width).map(|_| rng.pick(&[2, 2, 2, 3, 3, 4])).collect();
        let left = target(rng).checked_sub(1 + calls_over(&sizes));
        if let Some(left) = left.filter(|left| (least..=most).contains(left))
            && sizes.iter().sum::<usize>() + straight < limits::CLAUSES
        {
            let shares = shared_out(rng, left, straight);
            return block_of_second_kind(rng, &sizes, &shares);
        }
    }
}

/// A number as that many shares, each of which a record can take.
fn shared_out(rng: &mut Rng, total: usize, count: usize) -> Vec<usize> {
    let mut shares = vec![LEAST_SHARE; count];
    let mut left = total - LEAST_SHARE * count;
    while left > 0 {
        let one = rng.below(count);
        let more = left.min(MOST_SHARE - shares[one]).min(rng.between(1, 60));
        shares[one] += more;
        left -= more;
    }
    shares
}

/// Each share is the calls of one record: one, one for each field, 16 for its first field opened, 16 for each inside.
fn block_of_second_kind(rng: &mut Rng, sizes: &[usize], shares: &[usize]) -> Block {
    let arity = |share: usize| (share - 2) % WIDE + 1;
    let fields = |share: usize| [vec![3], vec![1; arity(share) - 1]].concat();
    let name = |number: usize| [b'Y', b'a' + number as u8];
    let records = shares
        .iter()
        .enumerate()
        .map(|(number, &share)| Constructor::plain(&name(number), fields(share)));
    let table = table(rng, sizes, records.collect());
    let subject = table.len() as u8 - 1;
    let mut block = Block::new(table, subject, SHORT);
    make_complete(rng, &mut block, sizes);
    for (number, &share) in shares.iter().enumerate() {
        let opened = (share - 1 - arity(share)) / WIDE - 1;
        let part = |place: usize| {
            if place < opened {
                Tree::Con(2, 0, vec![Tree::Wild(1); WIDE])
            } else {
                Tree::Wild(2)
            }
        };
        let first = Tree::Con(3, 0, (0..WIDE).map(part).collect());
        let others = vec![Tree::Wild(1); arity(share) - 1];
        block.add(
            rng,
            Tree::Con(subject, 1 + number as u8, [vec![first], others].concat()),
        );
    }
    block.add(rng, Tree::Wild(subject));
    block
}
