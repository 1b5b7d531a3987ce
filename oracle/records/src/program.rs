//! The tree that is held, and the answer line to each record.

use crate::command::{Command, Word};
use oracle::calls::{DONE, NOT_UNDERSTOOD, NO_TREE};
use oracle::record::Record;
use oracle::room::Limited;
use oracle::space::Space;
use spart::index::SpatialIndex;

pub struct Program<S: Space> {
    held: Option<Limited<S>>,
}

impl<S: Space> Program<S> {
    pub fn new() -> Self {
        Program { held: None }
    }

    /// Writes the answer line: 9 before 10 before the call's own.
    pub fn answer(&mut self, record: Record, out: &mut Vec<u8>) {
        let command = match record {
            Record::Line(line) => Command::read::<S>(line),
            Record::Broken => None,
        };
        match command {
            None => reply(out, NOT_UNDERSTOOD),
            Some(Command { word: Word::Create, floats, whole }) => {
                reply(out, self.create(&floats[..2 * S::AXES], whole))
            }
            Some(command) => match &mut self.held {
                Some(tree) => call(tree, &command, out),
                None => reply(out, NO_TREE),
            },
        }
        out.extend_from_slice(b"\r\n");
    }

    /// "A refused quad keeps the earlier tree."
    fn create(&mut self, boundary: &[f64], capacity: u32) -> u8 {
        match Limited::create(boundary, capacity) {
            Ok(tree) => {
                self.held = Some(tree);
                DONE
            }
            Err(refused) => refused,
        }
    }
}

fn call<S: Space>(tree: &mut Limited<S>, command: &Command, out: &mut Vec<u8>) {
    let Command { word, floats, whole } = command;
    let item = S::item(floats, *whole);
    let shape = tree.shape();
    match word {
        Word::Insert => reply(out, tree.insert(item)),
        Word::Delete => reply(out, tree.delete(&item)),
        Word::Contains => figure(out, u32::from(shape.contains(&item))),
        Word::Range => found::<S>(out, &shape.range_search::<S::Metric>(&item, floats[S::AXES])),
        Word::Nearest => found::<S>(out, &shape.knn_search::<S::Metric>(&item, *whole as usize)),
        Word::InBox => found::<S>(out, &shape.range_search_bbox(&S::volume(floats))),
        Word::Len => figure(out, shape.len() as u32),
        Word::Clear => {
            tree.clear();
            reply(out, DONE);
        }
        Word::Create => unreachable!("creation takes no held tree"),
    }
}

fn reply(out: &mut Vec<u8>, number: u8) {
    decimal(out, u32::from(number));
}

/// 0 and a number.
fn figure(out: &mut Vec<u8>, number: u32) {
    out.extend_from_slice(b"0,");
    decimal(out, number);
}

/// "for searches 0, the count, then each point's coordinates and payload".
fn found<S: Space>(out: &mut Vec<u8>, points: &[&S::Item]) {
    figure(out, points.len() as u32);
    for point in points {
        S::coordinates(point, |x| hex(out, x));
        out.push(b',');
        decimal(out, S::payload(point));
    }
}

/// A comma and 16 digits.
fn hex(out: &mut Vec<u8>, x: f64) {
    let mut field = [b','; 17];
    let mut bits = x.to_bits();
    for digit in field[1..].iter_mut().rev() {
        *digit = b"0123456789ABCDEF"[(bits & 15) as usize];
        bits >>= 4;
    }
    out.extend_from_slice(&field);
}

fn decimal(out: &mut Vec<u8>, mut number: u32) {
    let mut digits = [0; 10];
    let mut first = digits.len();
    loop {
        first -= 1;
        digits[first] = b'0' + (number % 10) as u8;
        number /= 10;
        if number == 0 {
            break;
        }
    }
    out.extend_from_slice(&digits[first..]);
}
