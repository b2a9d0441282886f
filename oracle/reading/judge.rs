//! The driver: every clause against all before it, then the missing rows of all of them.

use crate::block::Block;
use crate::matrix::Matrix;
use crate::meter::Meter;
use crate::missing::collect_missing_patterns;
use crate::pattern::Pattern;
use crate::refusal::Fault;
use crate::useful::is_useful;

/// What both walks cost, as far as they went.
#[derive(Default)]
pub struct Work {
    pub first: Meter,
    pub second: Meter,
    pub missing_nodes: usize,
}

/// The verdict on each clause, the calls that it took, and the missing rows.
pub struct Findings {
    pub reached: Vec<bool>,
    pub calls: Vec<usize>,
    pub missing: Vec<Pattern>,
}

/// Both walks, or refusal 10 where they are too much work.
pub fn judge(block: &Block, work: &mut Work) -> Result<Findings, Fault> {
    let mut matrix = Matrix::new(1);
    let mut reached = Vec::with_capacity(block.clauses.len());
    let mut calls = Vec::with_capacity(block.clauses.len());
    for clause in &block.clauses {
        let so_far = work.first.calls;
        reached.push(is_useful(
            &matrix,
            &[clause],
            &block.table,
            &mut work.first,
        )?);
        calls.push(work.first.calls - so_far);
        matrix.push([clause]);
    }
    let missing = collect_missing_patterns(&matrix, &block.table, &mut work.second)?;
    work.missing_nodes = missing.nodes;
    Ok(Findings {
        reached,
        calls,
        missing: missing.rows.into_iter().flatten().collect(),
    })
}
