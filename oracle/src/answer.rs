//! From a file's bytes to the lines of its report that the module decides.

use crate::{
    block::Block,
    tipo::{
        environment::Environment,
        judge::{Verdicts, judge},
    },
};
use std::thread;

/// The walks and the patterns recurse; the deepest file that is not refused needs far less than this.
const STACK_BYTES: usize = 512 << 20;

/// The lines for a file, or why there are none. The work is done on a thread with a large stack.
pub fn answer(file: Vec<u8>) -> Result<String, String> {
    thread::Builder::new()
        .stack_size(STACK_BYTES)
        .spawn(move || lines_for(&file))
        .map_err(|error| format!("no thread: {error}"))?
        .join()
        .unwrap_or_else(|_| Err("the module panicked".to_string()))
}

/// Reads a file, asks the module, writes the lines.
fn lines_for(file: &[u8]) -> Result<String, String> {
    let block = Block::read(file)?;
    let mut environment = Environment::new(&block.table);
    let verdicts = judge(&mut environment, &block.clauses).map_err(|error| error.to_string())?;
    Ok(report(&verdicts))
}

/// The report without its `paste` and `calls` lines.
fn report(verdicts: &Verdicts) -> String {
    let clauses = verdicts.reached.len();
    let reached = verdicts.reached.iter().filter(|&&yes| yes).count();
    let never = clauses - reached;
    let mut lines = format!("clauses {clauses} reached {reached} never {never}\n");
    for (index, &yes) in verdicts.reached.iter().enumerate() {
        let verdict = if yes { "reached" } else { "never" };
        lines += &format!("clause {} {verdict}\n", index + 1);
    }
    lines += &format!("gaps {}\n", verdicts.missing.len());
    for text in &verdicts.missing {
        lines += &format!("missing {text}\n");
    }
    lines
}
