//! Document 01's driver over the module's functions, which are visible inside `tipo` only.

use super::{
    environment::Environment,
    error::Error,
    exhaustive::{Matrix, Pattern, PatternStack, simplify},
};
use crate::ast::TypedPattern;

/// What the module decides of a block.
pub struct Verdicts {
    /// For each clause, whether it is reached.
    pub reached: Vec<bool>,
    /// The missing rows in the module's text.
    pub missing: Vec<String>,
}

/// Judges each clause against all before it, reached or not, and takes the missing rows from all.
pub fn judge(environment: &mut Environment, clauses: &[TypedPattern]) -> Result<Verdicts, Error> {
    let mut matrix = Matrix::new();
    let mut reached = vec![];
    for clause in clauses {
        let row = PatternStack::from(simplify(environment, clause)?);
        reached.push(matrix.is_useful(&row));
        matrix.push(row);
    }
    let missing_rows = matrix.collect_missing_patterns(1).flatten();
    Ok(Verdicts {
        reached,
        missing: missing_rows.into_iter().map(Pattern::pretty).collect(),
    })
}
