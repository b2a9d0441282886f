//! A file's bytes to its answer.

use crate::block::{self, Block};
use crate::costs;
use crate::judge::{Work, judge};
use crate::limits;
use crate::refusal::{Fault, Refusal};
use crate::report::report;

/// What is printed for a file.
pub fn printed(file: &[u8]) -> Vec<u8> {
    let text = block::read(file)
        .and_then(|block| whole(judged(&block, &mut Work::default()).and_then(within)));
    text.unwrap_or_else(Refusal::text)
}

/// The report of a block, however long.
fn judged(block: &Block, work: &mut Work) -> Result<Vec<u8>, Fault> {
    let findings = judge(block, work)?;
    Ok(report(block, &findings, work))
}

/// The report, where its buffer holds it.
fn within(text: Vec<u8>) -> Result<Vec<u8>, Fault> {
    if text.len() > limits::REPORT_BYTES {
        Err(Fault::LongReport)
    } else {
        Ok(text)
    }
}

/// A fault after the last line has no line.
fn whole<T>(result: Result<T, Fault>) -> Result<T, Refusal> {
    result.map_err(Refusal::of_the_whole)
}

/// The answer and its line; for a block also calls, cells and depth of both walks, nodes, and the report's length.
pub fn figures(file: &[u8]) -> String {
    let block = match block::read(file) {
        Ok(block) => block,
        Err(refusal) => return format!("{} {}", refusal.fault as usize, refusal.line),
    };
    let mut work = Work::default();
    let text = judged(&block, &mut work);
    let length = text.as_ref().map_or(0, Vec::len);
    let number = text
        .and_then(within)
        .err()
        .map_or(0, |fault| fault as usize);
    let Work {
        first,
        second,
        missing_nodes,
    } = work;
    format!(
        "{number} 0 calls {} {} cells {} {} depth {} {} nodes {} {missing_nodes} report {length}",
        first.calls,
        second.calls,
        first.most_cells,
        second.most_cells,
        first.most_open,
        second.most_open,
        block.nodes,
    )
}

/// For a file with a report, what its subject and each of its clauses cost.
pub fn costs(file: &[u8]) -> Vec<u8> {
    let text = block::read(file).and_then(|block| whole(counted(&block)));
    text.unwrap_or_else(Refusal::text)
}

/// The costs of a block that gets a report.
fn counted(block: &Block) -> Result<Vec<u8>, Fault> {
    let mut work = Work::default();
    let findings = judge(block, &mut work)?;
    within(report(block, &findings, &work))?;
    Ok(costs::text(block, &findings, &work).into_bytes())
}
