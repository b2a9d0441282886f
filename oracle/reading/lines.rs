//! Lines of lower-case hexadecimal.

use crate::limits;

/// The first line's bytes go into `frame`; the rest of the file comes back, or nothing where the line is at fault.
pub fn next<'a>(file: &'a [u8], frame: &mut Vec<u8>) -> Option<&'a [u8]> {
    let end = file.iter().position(|&byte| byte == b'\n')?;
    decode(&file[..end], frame)?;
    Some(&file[end + 1..])
}

/// The bytes that the digits write: some, two digits each, not too many.
fn decode(digits: &[u8], frame: &mut Vec<u8>) -> Option<()> {
    let (pairs, odd) = digits.as_chunks::<2>();
    if pairs.is_empty() || !odd.is_empty() || digits.len() > limits::LINE_DIGITS {
        return None;
    }
    frame.clear();
    for [high, low] in pairs {
        frame.push(value(*high)? * 16 + value(*low)?);
    }
    Some(())
}

/// A digit's value.
fn value(digit: u8) -> Option<u8> {
    match digit {
        b'0'..=b'9' => Some(digit - b'0'),
        b'a'..=b'f' => Some(digit - b'a' + 10),
        _ => None,
    }
}
