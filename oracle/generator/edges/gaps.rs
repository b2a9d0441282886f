//! Blocks whose missing rows have as many nodes as they may, or one more, and reports as long as they may be.

use crate::block::Block;
use crate::building::on_top;
use crate::limits;
use crate::names;
use crate::rng::Rng;
use crate::trees::{self, Tree};
use crate::types::{Constructor, MOST_FIELDS, OPAQUE, PAIR, TUPLE, Table, Type, enumeration};
use crate::writer::SHORT;

/// Wide enumerations beside one another, with one constructor of each seen.
pub fn many(rng: &mut Rng) -> Block {
    let width = rng.between(2, 3);
    let most = if width == 2 {
        limits::CONSTRUCTORS_OF_A_TYPE
    } else {
        16
    };
    let sizes: Vec<usize> = (0..width).map(|_| rng.between(most / 2, most)).collect();
    let table = sizes.iter().map(|&size| enumeration(rng, size)).collect();
    let mut block = on_top(table, Type::new(TUPLE, (0..width as u8).collect()));
    one_seen_of_each(rng, &mut block, width);
    block
}

/// One clause for each part, with a constructor there and wildcards elsewhere.
fn one_seen_of_each(rng: &mut Rng, block: &mut Block, width: usize) {
    for part in 0..width {
        let mut tree = trees::head(&block.table, block.subject, 0);
        *tree.part(1 + part) = Tree::Con(part as u8, 0, Vec::new());
        block.add(rng, tree);
    }
}

/// 4,095 to 4,097 nodes in the missing rows: each unseen constructor of the one type beside each of the other.
pub fn most_nodes(rng: &mut Rng) -> Block {
    let total = limits::MISSING_NODES + 1 - rng.pick(&[0, 1, 1, 2]);
    loop {
        let (first, second) = (rng.between(6, 18), rng.between(6, 18));
        let fields = total.saturating_sub(3 * first * second);
        let arities: Vec<usize> = (0..=(first * MOST_FIELDS).min(fields / second))
            .filter(|of_first| {
                let left = fields - of_first * second;
                left.is_multiple_of(first) && left / first <= second * MOST_FIELDS
            })
            .collect();
        if fields > 0 && !arities.is_empty() {
            let of_first = rng.pick(&arities);
            let of_second = (fields - of_first * second) / first;
            return block_of_gaps(rng, [(first, of_first), (second, of_second)]);
        }
    }
}

/// A pair of types, each with a constructor that is seen and so many others that have so many fields together.
fn block_of_gaps(rng: &mut Rng, sides: [(usize, usize); 2]) -> Block {
    let mut table: Table = sides
        .into_iter()
        .map(|(count, fields)| one_side(rng, count, fields))
        .collect();
    table.push(Type::new(OPAQUE, Vec::new()));
    let mut block = on_top(table, Type::new(PAIR, vec![0, 1]));
    block.forms = SHORT;
    one_seen_of_each(rng, &mut block, 2);
    block
}

/// One of the two types.
fn one_side(rng: &mut Rng, count: usize, fields: usize) -> Type {
    let mut arities = vec![0; count];
    let mut left = fields;
    while left > 0 {
        let one = rng.below(count);
        let more = left.min(MOST_FIELDS - arities[one]).min(rng.between(1, 8));
        arities[one] += more;
        left -= more;
    }
    let letter = |number: usize| [b'A' + number as u8];
    let unseen = arities
        .iter()
        .enumerate()
        .map(|(number, &arity)| Constructor::plain(&letter(number), vec![2; arity]));
    Type::data(
        [
            vec![Constructor::plain(b"Seen", Vec::new())],
            unseen.collect(),
        ]
        .concat(),
    )
}

/// A report of 32,767 to 32,770 bytes: records with long labels are missing, each printed twice.
pub fn longest_report(rng: &mut Rng) -> Block {
    let limit = limits::REPORT_BYTES;
    let (length, clauses) = rng.pick(&[
        (limit - 1, 1),
        (limit, 2),
        (limit, 2),
        (limit + 1, 1),
        (limit + 2, 2),
    ]);
    let unseen = rng.between(30, 31);
    let fixed = [63, 78][clauses - 1] + 16 * unseen;
    let labels = (length - fixed) / 2 - unseen * (2 + 3 + 2 * (MOST_FIELDS - 1) + 2);
    let lengths = label_lengths(rng, labels, unseen * MOST_FIELDS);
    let records = lengths
        .chunks(MOST_FIELDS)
        .enumerate()
        .map(|(number, lengths)| record(rng, number, lengths));
    let constructors = [
        vec![Constructor::plain(b"Seen", Vec::new())],
        records.collect(),
    ]
    .concat();
    let mut block = Block::new(
        vec![Type::data(constructors), Type::new(OPAQUE, Vec::new())],
        0,
        SHORT,
    );
    for _ in 0..clauses {
        block.add(rng, Tree::Con(0, 0, Vec::new()));
    }
    block
}

/// A constructor with a name of two letters and labels of these lengths.
fn record(rng: &mut Rng, number: usize, lengths: &[usize]) -> Constructor {
    let mut labels: Vec<Vec<u8>> = Vec::new();
    while let Some(&length) = lengths.get(labels.len()) {
        let label = names::lower_of(rng, length);
        if !labels.contains(&label) {
            labels.push(label);
        }
    }
    let name = [b'A' + (number / 8) as u8, b'a' + (number % 8) as u8];
    Constructor {
        labels: Some(labels),
        ..Constructor::plain(&name, vec![1; lengths.len()])
    }
}

/// So many lengths of labels that add up to a number.
fn label_lengths(rng: &mut Rng, total: usize, count: usize) -> Vec<usize> {
    let mut lengths = vec![names::LONGEST_NAME; count];
    let mut over = names::LONGEST_NAME * count - total;
    while over > 0 {
        let one = rng.below(count);
        let less = over.min(rng.between(1, 8)).min(lengths[one] - 8);
        lengths[one] -= less;
        over -= less;
    }
    lengths
}
