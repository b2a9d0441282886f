//! `is_useful`: whether a row takes a value that no row of the matrix takes.

use crate::matrix::{Matrix, Row, replaced, widened};
use crate::meter::Meter;
use crate::pattern::Pattern;
use crate::refusal::Fault;
use crate::table::{Constructor, Table};

/// One call, counted, with the cells that it holds while it is open.
pub fn is_useful(
    matrix: &Matrix,
    row: &[&Pattern],
    table: &Table,
    meter: &mut Meter,
) -> Result<bool, Fault> {
    let cells = (matrix.rows + 1) * row.len();
    meter.open(cells)?;
    let useful = judged(matrix, row, table, meter)?;
    meter.close(cells);
    Ok(useful)
}

/// What a call answers.
fn judged(
    matrix: &Matrix,
    row: &[&Pattern],
    table: &Table,
    meter: &mut Meter,
) -> Result<bool, Fault> {
    if matrix.rows == 0 {
        return Ok(true);
    }
    let Some(head) = row.first() else {
        return Ok(false);
    };
    match head {
        Pattern::Constructor(constructor, arguments) => {
            let matrix = matrix.by_constructor(*constructor, arguments.len());
            is_useful(
                &matrix,
                &replaced(arguments, row).collect::<Row>(),
                table,
                meter,
            )
        }
        Pattern::Literal(literal) => {
            is_useful(&matrix.by_literal(literal), &row[1..], table, meter)
        }
        Pattern::Wildcard => match matrix.seen() {
            Some(seen) if seen.is_all_of(table.at(seen.of)) => {
                any_alternative(seen.of, matrix, row, table, meter)
            }
            _ => is_useful(&matrix.by_wildcard(), &row[1..], table, meter),
        },
    }
}

/// A wildcard where all constructors are seen: each in declared order, up to the first yes.
fn any_alternative(
    of: u8,
    matrix: &Matrix,
    row: &[&Pattern],
    table: &Table,
    meter: &mut Meter,
) -> Result<bool, Fault> {
    for (number, alternative) in table.at(of).alternatives.iter().enumerate() {
        let constructor = Constructor {
            of,
            number: number as u8,
        };
        let matrix = matrix.by_constructor(constructor, alternative.arity());
        let row: Row = widened(alternative.arity(), row).collect();
        if is_useful(&matrix, &row, table, meter)? {
            return Ok(true);
        }
    }
    Ok(false)
}
