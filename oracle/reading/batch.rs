//! Many files in one run, each after its length in decimal and a line feed; the answers in the same form.

use std::io::{self, BufRead, Write};

/// Answers every file of the input in turn.
pub fn answer_all(
    mut input: impl BufRead,
    mut output: impl Write,
    answer: impl Fn(&[u8]) -> Vec<u8>,
) -> io::Result<()> {
    let mut file = Vec::new();
    while let Some(length) = length(&mut input)? {
        file.resize(length, 0);
        input.read_exact(&mut file)?;
        let text = answer(&file);
        writeln!(output, "{}", text.len())?;
        output.write_all(&text)?;
    }
    output.flush()
}

/// The length before a file, or nothing at the end of the input.
fn length(input: &mut impl BufRead) -> io::Result<Option<usize>> {
    let mut line = String::new();
    if input.read_line(&mut line)? == 0 {
        return Ok(None);
    }
    let length = line.trim_end_matches('\n').parse();
    length
        .map(Some)
        .map_err(|_| io::Error::new(io::ErrorKind::InvalidData, format!("no length: {line:?}")))
}
