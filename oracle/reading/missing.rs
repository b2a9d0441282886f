//! `collect_missing_patterns`: rows that no row of the matrix covers.

use crate::limits;
use crate::matrix::{Matrix, Seen};
use crate::meter::Meter;
use crate::pattern::Pattern;
use crate::refusal::Fault;
use crate::table::{Constructor, Table};

/// Missing rows, each held from its last pattern to its first, and how many nodes they have together.
/// Rows only grow and multiply on the way out, so too many nodes at any place are too many in the end.
#[derive(Default)]
pub struct Missing {
    pub rows: Vec<Vec<Pattern>>,
    pub nodes: usize,
}

/// One call, counted, with the cells that it holds while it is open.
pub fn collect_missing_patterns(
    matrix: &Matrix,
    table: &Table,
    meter: &mut Meter,
) -> Result<Missing, Fault> {
    let cells = matrix.rows * matrix.width;
    meter.open(cells)?;
    let missing = collected(matrix, table, meter)?;
    meter.close(cells);
    Ok(missing)
}

/// The rows that a call gives back.
fn collected(matrix: &Matrix, table: &Table, meter: &mut Meter) -> Result<Missing, Fault> {
    if matrix.rows == 0 {
        return Missing::one_of_wildcards(matrix.width);
    }
    if matrix.width == 0 {
        return Ok(Missing::default());
    }
    match matrix.seen() {
        None => collect_missing_patterns(&matrix.by_wildcard(), table, meter)?.after_wildcard(),
        Some(seen) if seen.is_all_of(table.at(seen.of)) => {
            each_alternative(seen.of, matrix, table, meter)
        }
        Some(seen) => collect_missing_patterns(&matrix.by_wildcard(), table, meter)?
            .after_each(&unseen(&seen, table)),
    }
}

/// All constructors are seen: what each of them misses, in declared order.
fn each_alternative(
    of: u8,
    matrix: &Matrix,
    table: &Table,
    meter: &mut Meter,
) -> Result<Missing, Fault> {
    let mut all = Missing::default();
    for (number, alternative) in table.at(of).alternatives.iter().enumerate() {
        let constructor = Constructor {
            of,
            number: number as u8,
        };
        let matrix = matrix.by_constructor(constructor, alternative.arity());
        let missing = collect_missing_patterns(&matrix, table, meter)?;
        all.append(missing.recover(constructor, alternative.arity()))?;
    }
    Ok(all)
}

/// The unseen constructors over wildcards, with the nodes of each.
fn unseen(seen: &Seen, table: &Table) -> Vec<(Pattern, usize)> {
    let alternatives = table.at(seen.of).alternatives.iter().enumerate();
    alternatives
        .filter(|(number, _)| !seen.has(*number))
        .map(|(number, alternative)| {
            let constructor = Constructor {
                of: seen.of,
                number: number as u8,
            };
            let arguments = vec![Pattern::Wildcard; alternative.arity()];
            (
                Pattern::Constructor(constructor, arguments),
                1 + alternative.arity(),
            )
        })
        .collect()
}

impl Missing {
    /// One row of nothing but wildcards.
    fn one_of_wildcards(width: usize) -> Result<Self, Fault> {
        within(width)?;
        Ok(Self {
            rows: vec![vec![Pattern::Wildcard; width]],
            nodes: width,
        })
    }

    /// Each row with a wildcard before it.
    fn after_wildcard(mut self) -> Result<Self, Fault> {
        self.nodes += self.rows.len();
        within(self.nodes)?;
        for row in &mut self.rows {
            row.push(Pattern::Wildcard);
        }
        Ok(self)
    }

    /// Each row once for each of these patterns, with it before the row.
    fn after_each(self, patterns: &[(Pattern, usize)]) -> Result<Self, Fault> {
        let added: usize = patterns.iter().map(|(_, nodes)| nodes).sum();
        let nodes = self.nodes * patterns.len() + self.rows.len() * added;
        within(nodes)?;
        let with =
            |row: &Vec<Pattern>, pattern: &Pattern| row.iter().chain([pattern]).cloned().collect();
        let rows = self
            .rows
            .iter()
            .flat_map(|row| patterns.iter().map(move |(pattern, _)| with(row, pattern)));
        Ok(Self {
            rows: rows.collect(),
            nodes,
        })
    }

    /// Each row with its first patterns put back into the constructor that they are arguments of.
    fn recover(mut self, constructor: Constructor, arity: usize) -> Self {
        for row in &mut self.rows {
            let mut arguments = row.split_off(row.len() - arity);
            arguments.reverse();
            row.push(Pattern::Constructor(constructor, arguments));
        }
        self.nodes += self.rows.len();
        self
    }

    /// These rows, then the others.
    fn append(&mut self, other: Self) -> Result<(), Fault> {
        self.nodes += other.nodes;
        self.rows.extend(other.rows);
        within(self.nodes)
    }
}

/// No more nodes than there may be.
fn within(nodes: usize) -> Result<(), Fault> {
    if nodes > limits::MISSING_NODES {
        Err(Fault::Work)
    } else {
        Ok(())
    }
}
