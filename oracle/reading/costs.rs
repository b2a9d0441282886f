//! What the verdicts cost: the calls of the missing walk and of each clause, beside what bounds them.

use crate::block::Block;
use crate::judge::{Findings, Work};
use crate::pattern::Pattern;
use crate::table::{Kind, Type};
use std::iter;

/// A line for the subject: how many constructors it has if it is flat, and the calls of the missing walk. Then a line a
/// clause: its wildcards, its constructors and literals, its calls, and its verdict.
pub fn text(block: &Block, findings: &Findings, work: &Work) -> String {
    let constructors = flat(block.table.at(block.subject))
        .map_or_else(|| "-".to_string(), |count| count.to_string());
    let mut text = format!("{constructors} {}\n", work.second.calls);
    let verdicts = iter::zip(&findings.calls, &findings.reached);
    for (clause, (calls, reached)) in iter::zip(&block.clauses, verdicts) {
        let (wildcards, others) = nodes(clause);
        let verdict = if *reached { "reached" } else { "never" };
        text += &format!("{wildcards} {others} {calls} {verdict}\n");
    }
    text
}

/// The number of constructors of a data type, where all of them have arity 0.
fn flat(subject: &Type) -> Option<usize> {
    let is_flat =
        subject.kind == Kind::Data && subject.alternatives.iter().all(|one| one.arity() == 0);
    is_flat.then_some(subject.alternatives.len())
}

/// The wildcards of a pattern, and its constructors and literals.
fn nodes(pattern: &Pattern) -> (usize, usize) {
    match pattern {
        Pattern::Wildcard => (1, 0),
        Pattern::Literal(_) => (0, 1),
        Pattern::Constructor(_, arguments) => arguments
            .iter()
            .map(nodes)
            .fold((0, 1), |(wildcards, others), (more, other)| {
                (wildcards + more, others + other)
            }),
    }
}
