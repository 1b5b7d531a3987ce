//! The command program of document 01 over the Rust, as a plain and fast Rust program: it reads and writes by 64 KB,
//! keeps one record, and takes no memory for a record but what the Rust's trees take. Our speed is held against it.

mod command;
mod line;
mod program;

use line::Lines;
use oracle::space::Space;
use program::Program;
use std::io::{BufReader, Read, Result, Write};

/// Bytes that are read, and about as many that are written, at a time.
const ROOM: usize = 1 << 16;

/// Answers every record of the input.
pub fn run<S: Space>(input: impl Read, mut output: impl Write) -> Result<()> {
    let mut lines = Lines::new(BufReader::with_capacity(ROOM, input));
    let mut program = Program::<S>::new();
    let mut out = Vec::with_capacity(2 * ROOM);
    while let Some(record) = lines.next()? {
        program.answer(record, &mut out);
        if out.len() >= ROOM {
            output.write_all(&out)?;
            out.clear();
        }
    }
    output.write_all(&out)?;
    output.flush()
}
