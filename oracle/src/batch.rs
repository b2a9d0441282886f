//! Many files in one run: a file and an answer are each preceded by their length and a line feed.

use crate::answer::answer;
use std::io::{self, BufRead, Read, Write};

/// Answers every file of the input in turn. A file that cannot be read gets one line, `unreadable` and why.
pub fn run(input: &mut impl BufRead, output: &mut impl Write) -> io::Result<()> {
    while let Some(file) = next_file(input)? {
        let text = answer(file).unwrap_or_else(|why| format!("unreadable {why}\n"));
        write!(output, "{}\n{text}", text.len())?;
        output.flush()?;
    }
    Ok(())
}

/// The next file of the stream, or nothing at its end.
fn next_file(input: &mut impl BufRead) -> io::Result<Option<Vec<u8>>> {
    let mut length = String::new();
    if input.read_line(&mut length)? == 0 {
        return Ok(None);
    }
    let length: u64 = length
        .trim_end()
        .parse()
        .map_err(|_| io::Error::other(format!("not a length: {}", length.trim_end())))?;
    let mut file = vec![];
    input.take(length).read_to_end(&mut file)?;
    if (file.len() as u64) < length {
        return Err(io::Error::other("the last file is cut short"));
    }
    Ok(Some(file))
}
