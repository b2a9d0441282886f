//! The report's lines.

use crate::block::Block;
use crate::judge::{Findings, Work};
use crate::paste::paste;
use crate::pretty::pretty;

/// The whole report, however long.
pub fn report(block: &Block, findings: &Findings, work: &Work) -> Vec<u8> {
    let mut out = Vec::new();
    verdicts(&findings.reached, &mut out);
    line(&mut out, format_args!("gaps {}", findings.missing.len()));
    for pattern in &findings.missing {
        out.extend(b"missing ");
        pretty(pattern, &block.table, &mut out);
        out.extend(b"\npaste ");
        paste(pattern, &block.table, &mut out);
        out.push(b'\n');
    }
    line(
        &mut out,
        format_args!("calls {} {}", work.first.calls, work.second.calls),
    );
    out
}

/// The count of both verdicts, then one line a clause.
fn verdicts(reached: &[bool], out: &mut Vec<u8>) {
    let count = reached.iter().filter(|reached| **reached).count();
    line(
        out,
        format_args!(
            "clauses {} reached {count} never {}",
            reached.len(),
            reached.len() - count
        ),
    );
    for (place, reached) in reached.iter().enumerate() {
        line(
            out,
            format_args!(
                "clause {} {}",
                place + 1,
                if *reached { "reached" } else { "never" }
            ),
        );
    }
}

/// One line.
fn line(out: &mut Vec<u8>, text: std::fmt::Arguments) {
    use std::io::Write;
    out.write_fmt(text).expect("a vector takes all bytes");
    out.push(b'\n');
}
