//! What damage puts in place of good bytes.
//!
//! Bytes meant to be unknown are frame kinds from 09 and pattern kinds from 0b on: the ones below may get a meaning later.

pub const FIRST_UNKNOWN_FRAME: usize = 0x09;
pub const FIRST_UNKNOWN_PATTERN: usize = 0x0b;
pub const LATER_FRAMES: [u8; 4] = [0x00, 0x06, 0x07, 0x08];
pub const LATER_PATTERNS: [u8; 2] = [0x09, 0x0a];

pub const BAD_LOWER_NAMES: [&[u8]; 10] = [
    b"",
    b"A",
    b"_",
    b"0a",
    b"aB",
    b"a-",
    b"a`",
    b"a{",
    b"\xc3\xa9",
    &[b'a'; 33],
];
pub const BAD_CONSTRUCTOR_NAMES: [&[u8]; 10] = [
    b"",
    b"a",
    b"_A",
    b"0",
    b"A ",
    b"A@",
    b"A[",
    b"A\0",
    b"\xc3\x89",
    &[b'A'; 33],
];
pub const BAD_DECIMALS: [&[u8]; 13] = [
    b"",
    b"-",
    b"00",
    b"007",
    b"-0",
    b"-07",
    b"+1",
    b" 1",
    b"1 ",
    b"0x1",
    b"1a",
    b"--1",
    &[b'9'; 65],
];
pub const BAD_CHARACTERS: [u8; 10] = *b"g/:`GA \0\xff\r";
