//! What a walk costs: its calls, the cells that open calls hold, and how deep it goes.

use crate::limits;
use crate::refusal::Fault;

#[derive(Default)]
pub struct Meter {
    pub calls: usize,
    pub most_cells: usize,
    pub most_open: usize,
    cells: usize,
    open: usize,
}

impl Meter {
    /// A call opens and holds these cells.
    pub fn open(&mut self, cells: usize) -> Result<(), Fault> {
        self.calls += 1;
        self.open += 1;
        self.cells += cells;
        self.most_open = self.most_open.max(self.open);
        self.most_cells = self.most_cells.max(self.cells);
        if self.calls > limits::CALLS || self.cells > limits::CELLS {
            Err(Fault::Work)
        } else {
            Ok(())
        }
    }

    /// A call closes and gives its cells back.
    pub fn close(&mut self, cells: usize) {
        self.open -= 1;
        self.cells -= cells;
    }
}
