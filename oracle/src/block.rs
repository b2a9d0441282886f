//! A file of frames, read whole. It is taken to be well formed; only what cannot be read is turned away.

use crate::{
    ast::TypedPattern,
    pattern::pattern,
    reader::{Fault, Reader, decode},
    table::Table,
};

/// Longer files are refused by the definition; the bound also keeps the recursion over patterns shallow.
const LONGEST_FILE: usize = 49_152;

/// A file's type table and clauses.
#[derive(Default)]
pub struct Block {
    pub table: Table,
    pub clauses: Vec<TypedPattern>,
    subject: Option<usize>,
    ended: bool,
}

impl Block {
    /// Reads a file, or says which line cannot be read and why.
    pub fn read(file: &[u8]) -> Result<Block, String> {
        if file.len() > LONGEST_FILE {
            return Err(format!("more than {LONGEST_FILE} bytes"));
        }
        let mut block = Block::default();
        let text = file.strip_suffix(b"\n").ok_or("no line feed at the end")?;
        for (index, line) in text.split(|&byte| byte == b'\n').enumerate() {
            block
                .line(line)
                .map_err(|fault| format!("line {}: {fault}", index + 1))?;
        }
        if block.ended {
            Ok(block)
        } else {
            Err("no end frame".to_string())
        }
    }

    /// Reads one line and adds its frame.
    fn line(&mut self, line: &[u8]) -> Result<(), Fault> {
        if self.ended {
            return Err("a line after the end");
        }
        let frame = decode(line)?;
        let mut reader = Reader::new(&frame);
        match reader.number()? {
            1 => self.table.read_type(&mut reader)?,
            2 => self.table.read_constructor(&mut reader)?,
            3 => self.subject = Some(reader.number()?),
            4 => {
                let subject = self.subject.ok_or("a clause before the subject")?;
                self.clauses
                    .push(pattern(&mut reader, &self.table, subject)?);
            }
            5 => self.ended = true,
            _ => return Err("an unknown kind of frame"),
        }
        reader.end()
    }
}
