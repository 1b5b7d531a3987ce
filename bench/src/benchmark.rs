//! One line of the table: what both sides do.

use std::fmt::{Display, Formatter, Result};

/// How many inputs a benchmark has; they are taken in turn, so that no side learns one by heart.
pub const INPUTS: usize = 64;

/// Does the work once, on the input of this number, and gives a number made from the whole answer.
pub type Round = Box<dyn Fn(usize) -> u64>;

/// What one side does. What comes before each round is not timed; such a round does the same on every input.
pub struct Side {
    pub before: Option<Box<dyn Fn()>>,
    pub work: Round,
}

impl Side {
    pub fn new(work: impl Fn(usize) -> u64 + 'static) -> Self {
        Side { before: None, work: Box::new(work) }
    }

    pub fn prepared(before: impl Fn() + 'static, work: impl Fn(usize) -> u64 + 'static) -> Self {
        Side { before: Some(Box::new(before)), work: Box::new(work) }
    }

    /// The answer to the input of this number.
    pub fn answer(&self, input: usize) -> u64 {
        if let Some(before) = &self.before {
            before();
        }
        (self.work)(input)
    }
}

pub struct Benchmark {
    pub what: String,
    pub size: usize,
    pub input: &'static str,
    /// What stands beside ours.
    pub beside: &'static str,
    pub runs: usize,
    pub ours: Side,
    pub other: Side,
}

impl Benchmark {
    /// Whether both sides give the same on every input.
    pub fn agrees(&self) -> bool {
        let inputs = if self.ours.before.is_some() { 1 } else { INPUTS };
        (0..inputs).all(|input| self.ours.answer(input) == self.other.answer(input))
    }
}

impl Display for Benchmark {
    fn fmt(&self, f: &mut Formatter) -> Result {
        write!(f, "{}, {}, {}, beside {}", self.what, self.size, self.input, self.beside)
    }
}
