//! Damage to a file's lines of hexadecimal.

use super::forms::{BAD_CHARACTERS, FIRST_UNKNOWN_FRAME, LATER_FRAMES, LATER_PATTERNS};
use crate::rng::Rng;

type Lines = Vec<Vec<u8>>;

/// Some line; none is ever left without one.
fn some_line<'a>(rng: &mut Rng, lines: &'a mut Lines) -> &'a mut Vec<u8> {
    let number = rng.below(lines.len());
    &mut lines[number]
}

/// A place within a line.
fn some_place(rng: &mut Rng, line: &[u8]) -> usize {
    rng.below(line.len().max(1)).min(line.len())
}

/// A byte gets another value.
pub fn change_byte(rng: &mut Rng, lines: &mut Lines) {
    let line = some_line(rng, lines);
    let place = 2 * rng.below((line.len() / 2).max(1));
    let kept_back = if place == 0 {
        &LATER_FRAMES[..]
    } else {
        &LATER_PATTERNS
    };
    let any = rng.below(0x100) as u8;
    let values: Vec<u8> = (0..0x10)
        .chain([0x41, 0x61, any])
        .filter(|value| !kept_back.contains(value))
        .collect();
    let digits = format!("{:02x}", rng.pick(&values)).into_bytes();
    let end = line.len().min(place + 2);
    line.splice(place.min(end)..end, digits);
}

/// A digit gives way to some other character.
pub fn change_character(rng: &mut Rng, lines: &mut Lines) {
    let line = some_line(rng, lines);
    let place = some_place(rng, line);
    let end = line.len().min(place + 1);
    line.splice(place..end, [rng.pick(&BAD_CHARACTERS)]);
}

/// One to four digits go.
pub fn drop_digits(rng: &mut Rng, lines: &mut Lines) {
    let line = some_line(rng, lines);
    let place = some_place(rng, line);
    let end = line.len().min(place + rng.pick(&[1, 2, 2, 4]));
    line.drain(place..end);
}

/// Digits are put in, at the end or anywhere.
pub fn add_digits(rng: &mut Rng, lines: &mut Lines) {
    let line = some_line(rng, lines);
    let place = if rng.percent(50) {
        line.len()
    } else {
        rng.between(0, line.len())
    };
    line.splice(
        place..place,
        rng.pick(&[&b"00"[..], b"0", b"01", b"ff", b"0000"])
            .to_vec(),
    );
}

/// Two lines change places.
pub fn swap_lines(rng: &mut Rng, lines: &mut Lines) {
    let (first, second) = (rng.below(lines.len()), rng.below(lines.len()));
    lines.swap(first, second);
}

/// A line goes elsewhere.
pub fn move_line(rng: &mut Rng, lines: &mut Lines) {
    let line = lines.remove(rng.below(lines.len()));
    lines.insert(rng.between(0, lines.len()), line);
}

/// A line stands twice.
pub fn repeat_line(rng: &mut Rng, lines: &mut Lines) {
    let number = rng.below(lines.len());
    lines.insert(number, lines[number].clone());
}

/// A line goes.
pub fn remove_line(rng: &mut Rng, lines: &mut Lines) {
    lines.remove(rng.below(lines.len()));
}

/// A line's letters become large.
pub fn upper_case(rng: &mut Rng, lines: &mut Lines) {
    let has_letters = |line: &&mut Vec<u8>| line.iter().any(u8::is_ascii_lowercase);
    let mut lettered: Vec<&mut Vec<u8>> = lines.iter_mut().filter(has_letters).collect();
    if !lettered.is_empty() {
        let number = rng.below(lettered.len());
        lettered[number].make_ascii_uppercase();
    }
}

/// An empty line is put in.
pub fn empty_line(rng: &mut Rng, lines: &mut Lines) {
    lines.insert(rng.between(0, lines.len()), Vec::new());
}

/// The digits of a kind that no frame has.
fn unknown_kind(rng: &mut Rng) -> Vec<u8> {
    format!("{:02x}", rng.between(FIRST_UNKNOWN_FRAME, 0xff)).into_bytes()
}

/// A frame of an unknown kind is put in, or a frame's kind becomes unknown.
pub fn unknown_frame(rng: &mut Rng, lines: &mut Lines) {
    let mut line = unknown_kind(rng);
    let number = rng.below(lines.len());
    if rng.percent(50) {
        line.extend(lines[number].iter().skip(2));
        lines[number] = line;
    } else {
        line.extend(rng.pick(&[&b""[..], b"00"]));
        lines.insert(number, line);
    }
}

/// The last line goes, or the last two.
pub fn no_end(rng: &mut Rng, lines: &mut Lines) {
    lines.truncate(lines.len().saturating_sub(rng.pick(&[1, 1, 1, 2])));
}

/// Something follows the end.
pub fn after_end(rng: &mut Rng, lines: &mut Lines) {
    let (unknown, again) = (unknown_kind(rng), rng.pick(lines));
    lines.push(rng.pick(&[
        again,
        b"05".to_vec(),
        Vec::new(),
        b"0".to_vec(),
        b"zz".to_vec(),
        unknown,
    ]));
}
