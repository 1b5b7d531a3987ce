//! What the recorded streams reach, counted; each mark must be met at least once for each tree.

use super::marks::{self, Marks, Seen};
use super::report::{Outcome, Report};
use crate::calls::Calls;
use crate::program::Program;
use crate::record::{records, Record, MARK};
use crate::recorded::{read, PLAN};
use crate::room::Room;
use crate::space::{Plane, Solid, Space};
use spart::opened::Opened;
use std::path::Path;

pub fn run(report: &mut Report, folder: &Path) {
    report.test("coverage quad", of_space::<Plane>(folder));
    report.test("coverage oct", of_space::<Solid>(folder));
}

fn of_space<S: Space>(folder: &Path) -> Outcome {
    let mut marks = Marks::default();
    for (kind, _, _) in PLAN {
        let stream = read(folder, &format!("{}-{kind}", S::WORD), "csv")?;
        bytes(&mut marks, &stream);
        follow::<S>(&mut marks, &stream);
    }
    marks.outcome()
}

/// Marks of the bytes alone.
fn bytes(marks: &mut Marks, stream: &[u8]) {
    marks.mark("mark at the start", stream.starts_with(MARK));
    marks.mark("mark inside", stream.windows(3).skip(1).any(|three| three == MARK));
    for piece in stream.split_inclusive(|byte| *byte == b'\n') {
        let crlf = piece.ends_with(b"\r\n");
        let lf = !crlf && piece.ends_with(b"\n");
        let length = piece.len() - usize::from(lf) - 2 * usize::from(crlf);
        marks.mark("line end CRLF", crlf);
        marks.mark("line end LF", lf);
        marks.mark("no line end", !crlf && !lf);
        marks.mark("empty record", length == 0);
        marks.mark("record of 128 bytes", length == 128);
        marks.mark("record above 128 bytes", length > 128);
        marks.mark("quote", piece.contains(&b'"'));
        marks.mark("CR inside", piece[..length].contains(&b'\r'));
    }
}

/// Runs the stream and marks what each record does.
fn follow<S: Space>(marks: &mut Marks, stream: &[u8]) {
    let mut program = Program::<Room<S>>::new(S::AXES, S::WORD);
    let mut seen = Seen::default();
    for record in records(stream) {
        let before = program.held.as_ref().map(nodes_and_points);
        let command = program.read(&record);
        let answer = program.answer(&record);
        seen.answered(&answer);
        marks.reply(seen.reply);
        if let (Some(command), Record::Line(_)) = (command, record) {
            marks::command::<S>(marks, &mut seen, &command, before, program.held.as_ref());
        }
    }
}

fn nodes_and_points<S: Space>(room: &Room<S>) -> (usize, usize) {
    (room.shape().nodes(), room.count())
}
