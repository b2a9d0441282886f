//! A block of types, a subject and clauses, and its frames. Nothing here checks what it writes but `Block::add`.

use crate::limits;
use crate::rng::Rng;
use crate::trees::Tree;
use crate::types::{Constructor, TUPLE, Table, Type};
use crate::writer::{self, Forms, counted};

pub const LONGEST_FRAME: usize = limits::LINE_DIGITS / 2;

/// A type table, a subject, and clauses both as trees and as pattern bytes, with their nodes and the file's bytes.
pub struct Block {
    pub table: Table,
    pub subject: u8,
    pub forms: Forms,
    pub clauses: Vec<Vec<u8>>,
    pub trees: Vec<Tree>,
    nodes: usize,
    pub size: usize,
}

/// The frame of a type.
fn type_frame(one: &Type) -> Vec<u8> {
    let mut frame = vec![1, one.kind];
    if one.kind == TUPLE {
        frame.push(one.parts.len() as u8);
    }
    frame.extend(&one.parts);
    frame
}

/// The frame of a constructor.
fn constructor_frame(one: &Constructor) -> Vec<u8> {
    let mut frame = vec![2];
    counted(&mut frame, &one.name);
    frame.push(one.flag.unwrap_or(u8::from(one.labels.is_some())));
    frame.push(one.fields.len() as u8);
    for (index, field) in one.fields.iter().enumerate() {
        frame.push(*field);
        if let Some(label) = one.labels.as_ref().and_then(|labels| labels.get(index)) {
            counted(&mut frame, label);
        }
    }
    frame
}

/// The bytes of a frame's line.
fn line_size(frame: &[u8]) -> usize {
    2 * frame.len() + 1
}

impl Block {
    /// A block without clauses.
    pub fn new(table: Table, subject: u8, forms: Forms) -> Self {
        let mut block = Self {
            table,
            subject,
            forms,
            clauses: Vec::new(),
            trees: Vec::new(),
            nodes: 0,
            size: 0,
        };
        block.size = block.frames().iter().map(|frame| line_size(frame)).sum();
        block
    }

    /// The block's frames in order.
    pub fn frames(&self) -> Vec<Vec<u8>> {
        let mut frames = Vec::new();
        for one in &self.table {
            frames.push(type_frame(one));
            frames.extend(one.constructors.iter().map(constructor_frame));
        }
        frames.push(vec![3, self.subject]);
        frames.extend(
            self.clauses
                .iter()
                .map(|clause| [&[4], &clause[..]].concat()),
        );
        frames.push(vec![5]);
        frames
    }

    /// Adds a clause, whatever it is.
    pub fn append(&mut self, tree: Tree, clause: Vec<u8>) {
        self.nodes += tree.nodes();
        self.size += line_size(&clause) + 2;
        self.trees.push(tree);
        self.clauses.push(clause);
    }

    /// Adds a clause where no limit is passed; says whether it did.
    pub fn add(&mut self, rng: &mut Rng, tree: Tree) -> bool {
        let clause = self.written(rng, &tree);
        self.add_written(tree, clause)
    }

    /// Adds a clause with its bytes where no limit is passed; says whether it did.
    pub fn add_written(&mut self, tree: Tree, clause: Vec<u8>) -> bool {
        let fits = self.clauses.len() < limits::CLAUSES
            && clause.len() < LONGEST_FRAME
            && self.nodes + tree.nodes() <= limits::CLAUSE_NODES
            && self.size + line_size(&clause) + 2 <= limits::FILE_BYTES;
        if fits {
            self.append(tree, clause);
        }
        fits
    }

    /// A tree's pattern bytes.
    pub fn written(&self, rng: &mut Rng, tree: &Tree) -> Vec<u8> {
        let mut clause = Vec::new();
        writer::pattern(rng, &self.table, &self.forms, tree, &mut clause);
        clause
    }
}

/// Frames as lines of hexadecimal, without line feeds.
pub fn hex_lines(frames: &[Vec<u8>]) -> Vec<Vec<u8>> {
    let digit = |value: u8| b"0123456789abcdef"[usize::from(value)];
    frames
        .iter()
        .map(|frame| {
            frame
                .iter()
                .flat_map(|byte| [digit(byte >> 4), digit(byte & 15)])
                .collect()
        })
        .collect()
}

/// Lines as a file, each ended by one line feed.
pub fn file_of(lines: &[Vec<u8>]) -> Vec<u8> {
    let mut file = Vec::with_capacity(lines.iter().map(|line| line.len() + 1).sum());
    for line in lines {
        file.extend(line);
        file.push(b'\n');
    }
    file
}
