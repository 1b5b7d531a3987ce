//! Records as document 01 has them: cutting a stream of bytes, and reading one command.

use crate::bits::hex;
use crate::calls::Point;

/// Bytes that may stand before a line end.
pub const LONGEST: usize = 128;
/// The three bytes that are skipped at the very start.
pub const MARK: &[u8] = b"\xef\xbb\xbf";

/// The bytes of one record, or that it is too long or has no line end.
pub enum Record<'a> {
    Line(&'a [u8]),
    Broken,
}

/// The records of a stream.
pub fn records(stream: &[u8]) -> impl Iterator<Item = Record<'_>> {
    let stream = stream.strip_prefix(MARK).unwrap_or(stream);
    stream.split_inclusive(|byte| *byte == b'\n').map(Record::of)
}

impl Record<'_> {
    /// A piece of a stream up to and with its line feed, if it has one.
    pub fn of(piece: &[u8]) -> Record<'_> {
        let Some(line) = piece.strip_suffix(b"\n") else {
            return Record::Broken;
        };
        let line = line.strip_suffix(b"\r").unwrap_or(line);
        if line.len() > LONGEST {
            Record::Broken
        } else {
            Record::Line(line)
        }
    }
}

/// A command with its numbers.
#[derive(Clone, Debug)]
pub enum Command {
    Create(Vec<f64>, u32),
    Insert(Point),
    Delete(Point),
    Contains(Point),
    Range(Vec<f64>, f64),
    Nearest(Vec<f64>, u32),
    InBox(Vec<f64>),
    Len,
    Clear,
}

impl Command {
    /// The command that a record says, in the program of a tree with this many axes and first word.
    pub fn read(line: &[u8], axes: usize, create: &str) -> Option<Command> {
        let fields: Vec<&[u8]> = line.split(|byte| *byte == b',').collect();
        let (word, fields) = fields.split_first()?;
        let floats = |many: usize, more: usize| -> Option<Vec<f64>> {
            if fields.len() != many + more {
                return None;
            }
            fields[..many].iter().map(|field| float(field)).collect()
        };
        let last = || whole(fields.last()?);
        let point = || Some(Point { at: floats(axes, 1)?, payload: last()? });
        Some(match *word {
            b"insert" => Command::Insert(point()?),
            b"delete" => Command::Delete(point()?),
            b"contains" => Command::Contains(point()?),
            b"range" => {
                let mut centre = floats(axes + 1, 0)?;
                let radius = centre.pop()?;
                Command::Range(centre, radius)
            }
            b"knn" => Command::Nearest(floats(axes, 1)?, last()?),
            b"box" => Command::InBox(floats(2 * axes, 0)?),
            b"len" if fields.is_empty() => Command::Len,
            b"clear" if fields.is_empty() => Command::Clear,
            word if word == create.as_bytes() => Command::Create(floats(2 * axes, 1)?, last()?),
            _ => return None,
        })
    }

    /// The record that says this command, without its line end.
    pub fn write(&self, create: &str) -> String {
        let line = |word: &str, floats: &[f64], whole: Option<u32>| {
            let floats = floats.iter().map(|x| hex(*x));
            let fields = floats.chain(whole.map(|n| n.to_string()));
            std::iter::once(word.to_string()).chain(fields).collect::<Vec<_>>().join(",")
        };
        match self {
            Command::Create(sides, capacity) => line(create, sides, Some(*capacity)),
            Command::Insert(point) => line("insert", &point.at, Some(point.payload)),
            Command::Delete(point) => line("delete", &point.at, Some(point.payload)),
            Command::Contains(point) => line("contains", &point.at, Some(point.payload)),
            Command::Range(centre, radius) => line("range", &[&centre[..], &[*radius]].concat(), None),
            Command::Nearest(centre, k) => line("knn", centre, Some(*k)),
            Command::InBox(sides) => line("box", sides, None),
            Command::Len => line("len", &[], None),
            Command::Clear => line("clear", &[], None),
        }
    }
}

/// A float: 16 hex digits, upper case.
fn float(field: &[u8]) -> Option<f64> {
    let digit = |byte: &u8| matches!(byte, b'0'..=b'9' | b'A'..=b'F');
    if field.len() != 16 || !field.iter().all(digit) {
        return None;
    }
    let bits = u64::from_str_radix(std::str::from_utf8(field).ok()?, 16).ok()?;
    Some(f64::from_bits(bits))
}

/// A whole number: decimal, no leading zero except 0 itself, at most 4294967295.
fn whole(field: &[u8]) -> Option<u32> {
    let leading_zero = field.len() > 1 && field[0] == b'0';
    if leading_zero || !field.iter().all(u8::is_ascii_digit) {
        return None;
    }
    std::str::from_utf8(field).ok()?.parse().ok()
}
