//! The command program: one answer line for each record.

use crate::bits::hex;
use crate::calls::*;
use crate::record::{records, Command, Record};

/// A program with the tree that it holds, if any.
pub struct Program<C> {
    axes: usize,
    create: &'static str,
    pub held: Option<C>,
}

impl<C: Calls> Program<C> {
    pub fn new(axes: usize, create: &'static str) -> Self {
        Program { axes, create, held: None }
    }

    /// The command of a record as this program reads it.
    pub fn read(&self, record: &Record) -> Option<Command> {
        match record {
            Record::Line(line) => Command::read(line, self.axes, self.create),
            Record::Broken => None,
        }
    }

    /// The answer to one record, without its line end.
    pub fn answer(&mut self, record: &Record) -> String {
        let Some(command) = self.read(record) else {
            return NOT_UNDERSTOOD.to_string();
        };
        if let Command::Create(boundary, capacity) = &command {
            return match C::create(boundary, *capacity) {
                Ok(tree) => {
                    self.held = Some(tree);
                    DONE.to_string()
                }
                Err(reply) => reply.to_string(),
            };
        }
        match &mut self.held {
            Some(tree) => call(tree, &command),
            None => NO_TREE.to_string(),
        }
    }
}

/// The answer to a command that a held tree takes.
fn call<C: Calls>(tree: &mut C, command: &Command) -> String {
    match command {
        Command::Insert(point) => tree.insert(point).to_string(),
        Command::Delete(point) => tree.delete(point).to_string(),
        Command::Contains(point) => format!("{DONE},{}", u8::from(tree.contains(point))),
        Command::Range(centre, radius) => found(tree.range(centre, *radius)),
        Command::Nearest(centre, k) => found(tree.nearest(centre, *k)),
        Command::InBox(sides) => found(tree.in_box(sides)),
        Command::Len => format!("{DONE},{}", tree.count()),
        Command::Clear => {
            tree.clear();
            DONE.to_string()
        }
        Command::Create(..) => unreachable!("creation takes no held tree"),
    }
}

/// The line of a search.
fn found(points: Vec<Point>) -> String {
    let mut line = format!("{DONE},{}", points.len());
    for point in points {
        for x in point.at {
            line += ",";
            line += &hex(x);
        }
        line += &format!(",{}", point.payload);
    }
    line
}

/// All answers to a stream, each ended by CRLF.
pub fn answers<C: Calls>(axes: usize, create: &'static str, stream: &[u8]) -> Vec<u8> {
    let mut program = Program::<C>::new(axes, create);
    let mut out = Vec::new();
    for record in records(stream) {
        out.extend_from_slice(program.answer(&record).as_bytes());
        out.extend_from_slice(b"\r\n");
    }
    out
}
