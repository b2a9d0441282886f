//! The bytes of one line, read from the front.

/// Why a line cannot be read.
pub type Fault = &'static str;

/// What is left of a frame's bytes.
pub struct Reader<'a> {
    rest: &'a [u8],
}

impl<'a> Reader<'a> {
    /// A reader standing at the front of a frame.
    pub fn new(frame: &'a [u8]) -> Self {
        Reader { rest: frame }
    }

    /// The next bytes, as many as asked for.
    pub fn bytes(&mut self, count: usize) -> Result<&'a [u8], Fault> {
        let (taken, rest) = self.rest.split_at_checked(count).ok_or("bytes short")?;
        self.rest = rest;
        Ok(taken)
    }

    /// The next byte, as a number.
    pub fn number(&mut self) -> Result<usize, Fault> {
        Ok(usize::from(self.bytes(1)?[0]))
    }

    /// The next byte, which says no or yes.
    pub fn flag(&mut self) -> Result<bool, Fault> {
        match self.number()? {
            0 => Ok(false),
            1 => Ok(true),
            _ => Err("a flag other than 00 and 01"),
        }
    }

    /// A length byte, then that many bytes.
    pub fn counted(&mut self) -> Result<&'a [u8], Fault> {
        let length = self.number()?;
        self.bytes(length)
    }

    /// A length byte, then that many bytes of text.
    pub fn text(&mut self) -> Result<String, Fault> {
        let bytes = self.counted()?.to_vec();
        String::from_utf8(bytes).map_err(|_| "bytes that are no text")
    }

    /// As many items as asked for, each read by the same function.
    pub fn items<T>(
        &mut self,
        count: usize,
        mut item: impl FnMut(&mut Self) -> Result<T, Fault>,
    ) -> Result<Vec<T>, Fault> {
        (0..count).map(|_| item(self)).collect()
    }

    /// Nothing may be left at a frame's end.
    pub fn end(self) -> Result<(), Fault> {
        if self.rest.is_empty() {
            Ok(())
        } else {
            Err("bytes over")
        }
    }
}

/// The bytes that a line of hexadecimal stands for.
pub fn decode(line: &[u8]) -> Result<Vec<u8>, Fault> {
    if line.len() % 2 == 1 {
        return Err("an odd number of digits");
    }
    line.chunks(2)
        .map(|pair| Ok(digit(pair[0])? * 16 + digit(pair[1])?))
        .collect()
}

/// The value of one lower-case hexadecimal digit.
fn digit(character: u8) -> Result<u8, Fault> {
    match character {
        b'0'..=b'9' => Ok(character - b'0'),
        b'a'..=b'f' => Ok(character - b'a' + 10),
        _ => Err("a character that is no lower-case hexadecimal digit"),
    }
}
