//! Random names and literals. Short ones come often, so that they meet each other.

use crate::rng::Rng;

const UPPER: &[u8] = b"ABCDEFGHIJKLMNOPQRSTUVWXYZ";
pub const LOWER: &[u8] = b"abcdefghijklmnopqrstuvwxyz";
const WORD: &[u8] = b"abcdefghijklmnopqrstuvwxyz0123456789_ABCDEFGHIJKLMNOPQRSTUVWXYZ";
const DIGITS: &[u8] = b"0123456789";
pub const LONGEST_NAME: usize = 32;
pub const LONGEST_LITERAL: usize = 64;

const TUPLE_LIKE: [&[u8]; 7] = [
    b"My__Tuple",
    b"A__Tuple",
    b"A___Tuple2",
    b"X__TupleX__Tuple",
    b"Q__Tupl",
    b"W_Tuple",
    b"V__tuple",
];

/// Mostly small lengths, at times the greatest.
fn a_length(rng: &mut Rng) -> usize {
    match rng.below(7) {
        0..=2 => 1,
        3 => 2,
        4 => 3,
        5 => rng.between(1, 8),
        _ => rng.pick(&[8, 31, LONGEST_NAME]),
    }
}

/// That many bytes, the first and the later ones each of the given ones.
fn text(rng: &mut Rng, length: usize, first: &[u8], rest: &[u8]) -> Vec<u8> {
    (0..length)
        .map(|place| {
            if place == 0 {
                rng.pick(first)
            } else {
                rng.pick(rest)
            }
        })
        .collect()
}

/// A constructor's name, at times one that holds `__Tuple` or nearly does.
pub fn constructor(rng: &mut Rng) -> Vec<u8> {
    if rng.percent(8) {
        return tuple_like(rng);
    }
    let length = a_length(rng);
    text(rng, length, UPPER, WORD)
}

/// A constructor's name that holds `__Tuple` or nearly does.
pub fn tuple_like(rng: &mut Rng) -> Vec<u8> {
    rng.pick(&TUPLE_LIKE).to_vec()
}

/// A label's or a variable's name.
pub fn lower(rng: &mut Rng) -> Vec<u8> {
    let length = a_length(rng);
    lower_of(rng, length)
}

/// A label's or a variable's name of that length.
pub fn lower_of(rng: &mut Rng, length: usize) -> Vec<u8> {
    text(rng, length, LOWER, &WORD[..37])
}

/// So many names, no two equal.
pub fn distinct(rng: &mut Rng, count: usize, name: impl Fn(&mut Rng) -> Vec<u8>) -> Vec<Vec<u8>> {
    let mut taken: Vec<Vec<u8>> = Vec::new();
    while taken.len() < count {
        let new = name(rng);
        if !taken.contains(&new) {
            taken.push(new);
        }
    }
    taken
}

/// Decimal text without needless zeros; some long ones differ from each other in one digit only.
pub fn decimal(rng: &mut Rng) -> Vec<u8> {
    match rng.below(20) {
        0 => near(
            rng,
            b"1234567890123456789012345678901234567890123456789012345678901234",
            DIGITS,
        ),
        1 => rng
            .pick(&[
                &b"1"[..],
                b"-1",
                b"11",
                b"10",
                b"100",
                b"-10",
                b"18446744073709551616",
            ])
            .to_vec(),
        2 => {
            let length = rng.pick(&[2, 20, LONGEST_LITERAL - 1]);
            [
                &b"-"[..rng.below(2)],
                &text(rng, length, &DIGITS[1..], DIGITS),
            ]
            .concat()
        }
        _ => (rng.below(10) as i32 - 3).to_string().into_bytes(),
    }
}

/// A byte string's bytes, none included; some long ones differ from each other in one byte only.
pub fn byte_string(rng: &mut Rng) -> Vec<u8> {
    match rng.below(20) {
        0 => near(rng, &[0xa5; LONGEST_LITERAL], b"\0\xff\xa4"),
        1 => {
            let length = rng.pick(&[3, 32, LONGEST_LITERAL]);
            (0..length).map(|_| rng.below(256) as u8).collect()
        }
        _ => rng
            .pick(&[&b""[..], b"\0", b"a", b"b", b"ab", b"0", b"\xff", b"\0\0"])
            .to_vec(),
    }
}

/// The text cut short at times, with at most one byte after the first changed.
fn near(rng: &mut Rng, text: &[u8], others: &[u8]) -> Vec<u8> {
    let mut near = text[..rng.pick(&[text.len(), text.len(), text.len() - 1])].to_vec();
    if rng.percent(70) {
        let place = rng.pick(&[1, near.len() / 2, near.len() - 1]);
        near[place] = rng.pick(others);
    }
    near
}
