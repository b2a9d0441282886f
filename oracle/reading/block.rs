//! A file's frames in their order, line by line, to the block that they describe.

use crate::cursor::Cursor;
use crate::pattern::Pattern;
use crate::refusal::{Fault, Refusal};
use crate::simplify::Simplifier;
use crate::table::Table;
use crate::{declaration, limits, lines, syntax};

/// What a file says: its types, its subject's type, its simplified clauses and how many nodes these have.
#[derive(Default)]
pub struct Block {
    pub table: Table,
    pub subject: u8,
    pub clauses: Vec<Pattern>,
    pub nodes: usize,
}

/// The kinds of frames.
#[derive(Clone, Copy, PartialEq)]
enum Frame {
    Type,
    Constructor,
    Subject,
    Clause,
    End,
}

/// How far the file has come.
#[derive(Clone, Copy, Default, PartialEq)]
enum Stage {
    #[default]
    Types,
    Clauses,
    Ended,
}

#[derive(Default)]
struct Reader {
    stage: Stage,
    constructors: usize,
    block: Block,
}

/// The block of a file, or its first fault.
pub fn read(file: &[u8]) -> Result<Block, Refusal> {
    if file.len() > limits::FILE_BYTES {
        return Err(Refusal::of_the_whole(Fault::LongFile));
    }
    let mut reader = Reader::default();
    let mut frame = Vec::with_capacity(limits::LINE_DIGITS / 2);
    let mut rest = file;
    let mut line = 1;
    while !rest.is_empty() {
        rest = lines::next(rest, &mut frame).ok_or(Refusal {
            fault: Fault::Line,
            line,
        })?;
        reader
            .frame(&frame)
            .map_err(|fault| Refusal { fault, line })?;
        line += 1;
    }
    match reader.stage {
        Stage::Ended => Ok(reader.block),
        Stage::Types | Stage::Clauses => Err(Refusal {
            fault: Fault::Place,
            line,
        }),
    }
}

impl Frame {
    /// The frame that a first byte begins, if any.
    fn of_kind(kind: u8) -> Option<Self> {
        match kind {
            1 => Some(Self::Type),
            2 => Some(Self::Constructor),
            3 => Some(Self::Subject),
            4 => Some(Self::Clause),
            5 => Some(Self::End),
            _ => None,
        }
    }
}

impl Reader {
    /// One frame, its faults in the document's order.
    fn frame(&mut self, bytes: &[u8]) -> Result<(), Fault> {
        let frame = Frame::of_kind(bytes[0]).ok_or(Fault::Frame)?;
        if !self.in_place(frame) {
            return Err(Fault::Place);
        }
        if self.full(frame) {
            return Err(Fault::Count);
        }
        let cursor = Cursor::new(&bytes[1..]);
        match frame {
            Frame::Type => declaration::read_type(&mut self.block.table, cursor),
            Frame::Constructor => self.constructor(cursor),
            Frame::Subject => self.subject(cursor),
            Frame::Clause => self.clause(cursor),
            Frame::End => self.end(cursor),
        }
    }

    /// The frame may stand here.
    fn in_place(&self, frame: Frame) -> bool {
        match frame {
            Frame::Type | Frame::Subject => self.stage == Stage::Types,
            Frame::Constructor => {
                self.stage == Stage::Types && self.block.table.last_data().is_some()
            }
            Frame::Clause | Frame::End => self.stage == Stage::Clauses,
        }
    }

    /// There are as many of the frame's kind as there may be.
    fn full(&self, frame: Frame) -> bool {
        match frame {
            Frame::Type => self.block.table.len() == limits::TYPES,
            Frame::Constructor => {
                let of_this_type = self
                    .block
                    .table
                    .last_data()
                    .map_or(0, |data| data.alternatives.len());
                self.constructors == limits::CONSTRUCTORS
                    || of_this_type == limits::CONSTRUCTORS_OF_A_TYPE
            }
            Frame::Clause => self.block.clauses.len() == limits::CLAUSES,
            Frame::Subject | Frame::End => false,
        }
    }

    /// A constructor counts for the whole table as well as for its type.
    fn constructor(&mut self, cursor: Cursor) -> Result<(), Fault> {
        self.constructors += 1;
        declaration::read_constructor(&mut self.block.table, cursor)
    }

    /// The subject closes the table, so that references and finite values are judged here.
    fn subject(&mut self, mut cursor: Cursor) -> Result<(), Fault> {
        self.block.subject = cursor.byte().ok_or(Fault::Frame)?;
        cursor.end().ok_or(Fault::Frame)?;
        self.stage = Stage::Clauses;
        if usize::from(self.block.subject) < self.block.table.len() && self.block.table.is_sound() {
            Ok(())
        } else {
            Err(Fault::Table)
        }
    }

    /// A clause: its shape, then what suits the subject, then its nodes.
    fn clause(&mut self, cursor: Cursor) -> Result<(), Fault> {
        let written = syntax::clause(cursor).ok_or(Fault::Frame)?;
        let mut simplifier = Simplifier::new(&self.block.table);
        let simplified = simplifier
            .simplify(&written, self.block.subject)
            .ok_or(Fault::Suit)?;
        self.block.nodes += simplifier.nodes;
        self.block.clauses.push(simplified);
        if self.block.nodes > limits::CLAUSE_NODES {
            Err(Fault::Nodes)
        } else {
            Ok(())
        }
    }

    /// The end holds nothing.
    fn end(&mut self, cursor: Cursor) -> Result<(), Fault> {
        self.stage = Stage::Ended;
        cursor.end().ok_or(Fault::Frame)
    }
}
