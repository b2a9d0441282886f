//! Why a file is refused, by the numbers of the table.

#[derive(Clone, Copy, Debug, PartialEq)]
pub enum Fault {
    LongFile = 2,
    Line = 3,
    Frame = 4,
    Place = 5,
    Count = 6,
    Table = 7,
    Suit = 8,
    Nodes = 9,
    Work = 10,
    LongReport = 11,
}

/// A fault and its line, from 1, or 0 where no line is at fault.
#[derive(Clone, Copy, Debug)]
pub struct Refusal {
    pub fault: Fault,
    pub line: usize,
}

impl Refusal {
    /// A fault that no line has.
    pub fn of_the_whole(fault: Fault) -> Self {
        Self { fault, line: 0 }
    }

    /// What is printed for it.
    pub fn text(self) -> Vec<u8> {
        format!("refused {} line {}\n", self.fault as usize, self.line).into_bytes()
    }
}
