//! Simplified patterns as trees, and the ways to make them: at random, or by splitting wildcards.

use crate::names;
use crate::rng::Rng;
use crate::types::{self, BYTE_STRING, INTEGER, Table};

/// A pattern at the type of that place; `Raw` is bytes that stand as they are: damage.
#[derive(Clone)]
pub enum Tree {
    Wild(u8),
    Literal(u8, Vec<u8>),
    Con(u8, u8, Vec<Tree>),
    Raw(Vec<u8>),
}

impl Tree {
    /// The arguments, none but for a constructor.
    pub fn args(&self) -> &[Tree] {
        match self {
            Tree::Con(_, _, args) => args,
            _ => &[],
        }
    }

    /// The place of the pattern's type.
    pub fn place(&self) -> u8 {
        match self {
            Tree::Wild(place) | Tree::Literal(place, _) | Tree::Con(place, _, _) => *place,
            Tree::Raw(_) => 0,
        }
    }

    /// It is a wildcard.
    pub fn is_wild(&self) -> bool {
        matches!(self, Tree::Wild(_))
    }

    /// How many constructors, literals and wildcards there are.
    pub fn nodes(&self) -> usize {
        1 + self.args().iter().map(Tree::nodes).sum::<usize>()
    }

    /// The numbers of the wanted parts, counted from the root, which is 0, each before its arguments.
    pub fn parts(&self, wanted: &dyn Fn(&Tree) -> bool) -> Vec<usize> {
        fn collect(
            tree: &Tree,
            wanted: &dyn Fn(&Tree) -> bool,
            next: &mut usize,
            found: &mut Vec<usize>,
        ) {
            if wanted(tree) {
                found.push(*next);
            }
            *next += 1;
            for arg in tree.args() {
                collect(arg, wanted, next, found);
            }
        }
        let mut found = Vec::new();
        collect(self, wanted, &mut 0, &mut found);
        found
    }

    /// The part of that number.
    pub fn part(&mut self, number: usize) -> &mut Tree {
        fn find<'a>(tree: &'a mut Tree, left: &mut usize) -> Option<&'a mut Tree> {
            if *left == 0 {
                return Some(tree);
            }
            *left -= 1;
            match tree {
                Tree::Con(_, _, args) => args.iter_mut().find_map(|arg| find(arg, left)),
                _ => None,
            }
        }
        find(self, &mut { number }).expect("the tree has that part")
    }
}

/// A constructor with a wildcard in each field.
pub fn head(table: &Table, place: u8, number: usize) -> Tree {
    Tree::Con(
        place,
        number as u8,
        types::fields(table, place, number)
            .into_iter()
            .map(Tree::Wild)
            .collect(),
    )
}

/// The type's patterns are literals.
fn is_literal(table: &Table, place: u8) -> bool {
    matches!(table[usize::from(place)].kind, INTEGER | BYTE_STRING)
}

/// A literal at an integer or byte string type.
fn literal(rng: &mut Rng, table: &Table, place: u8) -> Tree {
    let is_integer = table[usize::from(place)].kind == INTEGER;
    Tree::Literal(
        place,
        if is_integer {
            names::decimal(rng)
        } else {
            names::byte_string(rng)
        },
    )
}

/// A literal or constructor at a type, or a wildcard where it has neither.
pub fn filled(rng: &mut Rng, table: &Table, place: u8) -> Tree {
    if is_literal(table, place) {
        return literal(rng, table, place);
    }
    match types::alternatives(table, place) {
        0 => Tree::Wild(place),
        count => head(table, place, rng.below(count)),
    }
}

/// A random tree: so many wildcards are filled, one after another, each left alone so many times in a hundred.
pub fn random(rng: &mut Rng, table: &Table, place: u8, count: usize, wild: usize) -> Tree {
    let mut made = vec![(Tree::Wild(place), 0)];
    let mut open = vec![0];
    for _ in 0..count {
        if open.is_empty() {
            break;
        }
        let chosen = open.swap_remove(rng.below(open.len()));
        if chosen > 0 && rng.percent(wild) {
            continue;
        }
        let new = filled(rng, table, made[chosen].0.place());
        let first = made.len();
        for arg in new.args() {
            open.push(made.len());
            made.push((arg.clone(), 0));
        }
        made[chosen] = (new, first);
    }
    joined(&made, 0)
}

/// The tree of a part whose arguments stand together from a place on.
fn joined(made: &[(Tree, usize)], number: usize) -> Tree {
    match &made[number] {
        (Tree::Con(place, alternative, args), first) => Tree::Con(
            *place,
            *alternative,
            (0..args.len())
                .map(|index| joined(made, first + index))
                .collect(),
        ),
        (tree, _) => tree.clone(),
    }
}

/// The trees that take the place of a wildcard without losing a value.
fn split(rng: &mut Rng, table: &Table, place: u8) -> Vec<Tree> {
    if is_literal(table, place) {
        let count = rng.between(1, 3);
        return (0..count)
            .map(|_| literal(rng, table, place))
            .chain([Tree::Wild(place)])
            .collect();
    }
    match types::alternatives(table, place) {
        0 => vec![Tree::Wild(place)],
        count => (0..count)
            .map(|number| head(table, place, number))
            .collect(),
    }
}

/// Trees that together leave no gap: wildcards are split until about so many rows stand.
pub fn cover(rng: &mut Rng, table: &Table, place: u8, rows: usize) -> Vec<Tree> {
    let mut cover = vec![Tree::Wild(place)];
    for _ in 0..4 * rows {
        if cover.len() >= rows {
            break;
        }
        let mut row = cover.swap_remove(rng.below(cover.len()));
        let wild = row.parts(&Tree::is_wild);
        if wild.is_empty() {
            cover.push(row);
            continue;
        }
        let number = rng.pick(&wild);
        for new in split(rng, table, row.part(number).place()) {
            let mut next = row.clone();
            *next.part(number) = new;
            cover.push(next);
        }
    }
    cover
}

/// The tree with one of its parts made a wildcard, the root only where there is no other.
pub fn loosened(rng: &mut Rng, tree: &Tree) -> Tree {
    let mut loose = tree.clone();
    let nodes = tree.nodes();
    let part = loose.part(if nodes == 1 {
        0
    } else {
        rng.between(1, nodes - 1)
    });
    *part = Tree::Wild(part.place());
    loose
}

/// A list: cells around a tail.
pub fn list(place: u8, elements: Vec<Tree>, tail: Tree) -> Tree {
    elements.into_iter().rev().fold(tail, |tail, element| {
        Tree::Con(place, 0, vec![element, tail])
    })
}

/// A list's tail: anything, or nothing.
pub fn list_end(rng: &mut Rng, place: u8) -> Tree {
    if rng.percent(50) {
        Tree::Wild(place)
    } else {
        Tree::Con(place, 1, Vec::new())
    }
}
