//! Trees as pattern bytes; among the forms that mean the same one is chosen.

use crate::names;
use crate::rng::Rng;
use crate::trees::Tree;
use crate::types::{DATA, INTEGER, LIST, PAIR, Table};

/// How many times in a hundred each form is chosen.
#[derive(Clone, Copy)]
pub struct Forms {
    pub variables: usize,
    pub assigns: usize,
    pub spreads: usize,
    pub tails: usize,
}

pub const MIXED: Forms = Forms {
    variables: 30,
    assigns: 4,
    spreads: 50,
    tails: 8,
};
pub const SHORT: Forms = Forms {
    variables: 0,
    assigns: 0,
    spreads: 100,
    tails: 0,
};

/// A length byte, then the bytes.
pub fn counted(out: &mut Vec<u8>, bytes: &[u8]) {
    out.push(bytes.len() as u8);
    out.extend(bytes);
}

/// Writes a tree at the end of `out`, at times under a name.
pub fn pattern(rng: &mut Rng, table: &Table, forms: &Forms, tree: &Tree, out: &mut Vec<u8>) {
    while rng.percent(forms.assigns) {
        out.push(2);
        counted(out, &names::lower(rng));
    }
    match tree {
        Tree::Raw(bytes) => out.extend(bytes),
        Tree::Wild(place) => wildcard(rng, table, forms, *place, out),
        Tree::Literal(place, text) => {
            out.push(if table[usize::from(*place)].kind == INTEGER {
                3
            } else {
                4
            });
            counted(out, text);
        }
        Tree::Con(place, number, args) => match table[usize::from(*place)].kind {
            LIST => list(rng, table, forms, tree, out),
            DATA => constructor(rng, table, forms, *number, args, out),
            kind => {
                if kind == PAIR {
                    out.push(7);
                } else {
                    out.extend([8, args.len() as u8]);
                }
                each(rng, table, forms, args, out);
            }
        },
    }
}

/// Several trees, one after another.
pub fn each(rng: &mut Rng, table: &Table, forms: &Forms, args: &[Tree], out: &mut Vec<u8>) {
    for arg in args {
        pattern(rng, table, forms, arg, out);
    }
}

/// A discard, a variable, or a list of nothing but a tail.
fn wildcard(rng: &mut Rng, table: &Table, forms: &Forms, place: u8, out: &mut Vec<u8>) {
    while table[usize::from(place)].kind == LIST && rng.percent(forms.tails / 4) {
        out.extend([5, 0, 1]);
    }
    if rng.percent(forms.variables) {
        out.push(1);
        counted(out, &names::lower(rng));
    } else {
        out.push(0);
    }
}

/// A list's elements, then its tail where it is not plainly closed.
fn list(rng: &mut Rng, table: &Table, forms: &Forms, tree: &Tree, out: &mut Vec<u8>) {
    let place = tree.place();
    let mut elements = Vec::new();
    let mut rest = tree;
    while let Tree::Con(at, 0, args) = rest {
        let is_cut = elements.len() == 255 || !elements.is_empty() && rng.percent(forms.tails);
        if *at != place || is_cut {
            break;
        }
        elements.push(&args[0]);
        rest = &args[1];
    }
    let closed = matches!(rest, Tree::Con(at, 1, _) if *at == place) && !rng.percent(forms.tails);
    out.extend([5, elements.len() as u8, u8::from(!closed)]);
    for element in elements {
        pattern(rng, table, forms, element, out);
    }
    if !closed {
        pattern(rng, table, forms, rest, out);
    }
}

/// A constructor's arguments, the last wildcards at times left to a spread.
fn constructor(
    rng: &mut Rng,
    table: &Table,
    forms: &Forms,
    number: u8,
    args: &[Tree],
    out: &mut Vec<u8>,
) {
    let ends_wild = args.last().is_some_and(Tree::is_wild);
    let spread = rng.percent(if ends_wild {
        forms.spreads
    } else {
        forms.spreads / 10
    });
    let mut args = args;
    while let [rest @ .., Tree::Wild(_)] = args {
        if !spread || forms.spreads < 100 && rng.percent(20) {
            break;
        }
        args = rest;
    }
    out.extend([6, number, args.len() as u8, u8::from(spread)]);
    each(rng, table, forms, args, out);
}
