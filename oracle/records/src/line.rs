//! The records of an input that comes piece by piece.

use oracle::record::{Record, LONGEST, MARK};
use std::io::{BufRead, Read, Result};

/// Bytes of a record with its line end.
const MOST: usize = LONGEST + 2;

pub struct Lines<R> {
    input: R,
    line: Vec<u8>,
    /// Bytes that may come before the next record: the mark, at the very start.
    before: usize,
}

impl<R: BufRead> Lines<R> {
    pub fn new(input: R) -> Self {
        Lines { input, line: Vec::with_capacity(MARK.len() + MOST), before: MARK.len() }
    }

    /// The next record; nothing after the last line end.
    pub fn next(&mut self) -> Result<Option<Record<'_>>> {
        self.line.clear();
        let most = std::mem::take(&mut self.before) + MOST;
        self.input.by_ref().take(most as u64).read_until(b'\n', &mut self.line)?;
        let mut line = &self.line[..];
        if most > MOST {
            line = line.strip_prefix(MARK).unwrap_or(line);
        }
        if line.is_empty() {
            return Ok(None);
        }
        if !line.ends_with(b"\n") {
            self.input.skip_until(b'\n')?;
        }
        Ok(Some(Record::of(line)))
    }
}
