//! Families of well formed blocks that stand at a limit or next to it, on either side where refusals 10 and 11 are met.

pub mod calls;
pub mod cells;
pub mod counts;
pub mod gaps;
