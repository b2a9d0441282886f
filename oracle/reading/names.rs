//! The forms of names and of decimal text, and the fixed names.

pub const NIL: &[u8] = b"[]";
pub const CONS: &[u8] = b"::";
pub const TUPLE: &[u8] = b"__Tuple";

/// A to Z, then letters, digits or underscore.
pub fn is_constructor(name: &[u8]) -> bool {
    matches!(name, [b'A'..=b'Z', rest @ ..] if rest.iter().all(|&byte| byte.is_ascii_alphanumeric() || byte == b'_'))
}

/// a to z, then a to z, digits or underscore.
pub fn is_variable(name: &[u8]) -> bool {
    matches!(name, [b'a'..=b'z', rest @ ..] if rest.iter().all(|byte| matches!(byte, b'a'..=b'z' | b'0'..=b'9' | b'_')))
}

/// An optional minus and digits without a needless zero.
pub fn is_decimal(text: &[u8]) -> bool {
    match text {
        b"0" => true,
        [b'-', digits @ ..] | digits => {
            matches!(digits, [b'1'..=b'9', rest @ ..] if rest.iter().all(u8::is_ascii_digit))
        }
    }
}

/// The name holds the tuple's name.
pub fn holds_tuple(name: &[u8]) -> bool {
    name.windows(TUPLE.len()).any(|part| part == TUPLE)
}
