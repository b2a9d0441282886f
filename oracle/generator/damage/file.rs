//! Damage to a file's bytes.

use crate::limits;
use crate::rng::Rng;

/// The last line feed goes.
pub fn no_last_feed(_: &mut Rng, file: &mut Vec<u8>) {
    file.pop();
}

/// Every line, or one of them, ends as on other systems.
pub fn carriage_returns(rng: &mut Rng, file: &mut Vec<u8>) {
    let count = file.iter().filter(|byte| **byte == b'\n').count();
    let only = if rng.percent(50) || count == 0 {
        None
    } else {
        Some(rng.below(count))
    };
    let mut number = 0;
    let mut ended = Vec::with_capacity(file.len() + count);
    for &byte in &*file {
        if byte == b'\n' {
            if only.is_none_or(|only| only == number) {
                ended.push(b'\r');
            }
            number += 1;
        }
        ended.push(byte);
    }
    *file = ended;
}

/// The file ends anywhere.
pub fn cut(rng: &mut Rng, file: &mut Vec<u8>) {
    file.truncate(rng.between(0, file.len()));
}

/// The file has 49,153 bytes, or more.
pub fn too_long(rng: &mut Rng, file: &mut Vec<u8>) {
    let length = limits::FILE_BYTES + rng.pick(&[1, 1, 2, 5_000]);
    let more = rng.pick(&[&b"0"[..], b"\n", b"05\n", b"\0"]);
    file.extend(more.iter().cycle().take(length.saturating_sub(file.len())));
    file.truncate(length);
}

/// Something stands before the first line.
pub fn odd_start(rng: &mut Rng, file: &mut Vec<u8>) {
    file.splice(
        ..0,
        rng.pick(&[&b"\xef\xbb\xbf"[..], b" ", b"\n", b"0x", b"#\n"])
            .to_vec(),
    );
}
