//! What can be wrong with a file, by where it goes wrong.

pub mod clauses;
pub mod file;
mod forms;
pub mod lines;
pub mod table;
