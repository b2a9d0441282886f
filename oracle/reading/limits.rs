//! The numbers of the scope document.

pub const FILE_BYTES: usize = 49_152;
pub const LINE_DIGITS: usize = 1_280;
pub const TYPES: usize = 64;
pub const CONSTRUCTORS: usize = 256;
pub const CONSTRUCTORS_OF_A_TYPE: usize = 32;
pub const CLAUSES: usize = 64;
pub const CLAUSE_NODES: usize = 4_096;
pub const CALLS: usize = 65_536;
pub const CELLS: usize = 16_384;
pub const MISSING_NODES: usize = 4_096;
pub const REPORT_BYTES: usize = 32_768;
