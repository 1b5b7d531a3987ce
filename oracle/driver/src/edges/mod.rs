//! The edges of the format, each in a stream of its own.

mod bytes;
mod ends;
mod fields;
mod lengths;
mod trees;

use crate::calls::Point;
use crate::record::{Command, MARK};
use crate::space::Space;

/// A stream with a name that may be that of a file.
pub struct Named {
    pub name: String,
    pub bytes: Vec<u8>,
}

/// Bytes of a stream that goes into a joined one.
const SMALL: usize = 9000;

/// Every stream of this sort.
pub fn all<S: Space>() -> Vec<Named> {
    let mut all = ends::starts::<S>();
    all.extend(ends::line_ends::<S>());
    all.extend(lengths::about_the_longest::<S>());
    all.extend(lengths::long::<S>());
    all.extend(lengths::shifted::<S>());
    all.extend(bytes::odd::<S>());
    all.extend(bytes::every::<S>());
    all.extend(fields::all::<S>());
    all.extend(trees::all::<S>());
    all
}

/// Many of them in one stream, with the mark before it and no line end behind its last record: those that are small, and
/// about neither the start nor the end of a stream.
pub fn joined<S: Space>() -> Vec<u8> {
    let within = |stream: &Named| {
        let at_the_start =
            ["mark-", "no-input", "line-end-"].iter().any(|word| stream.name.starts_with(word));
        !at_the_start && stream.bytes.ends_with(b"\n") && stream.bytes.len() < SMALL
    };
    let streams = all::<S>().into_iter().filter(within).flat_map(|stream| stream.bytes);
    MARK.iter().copied().chain(streams).chain(*b"len").collect()
}

fn named(name: &str, parts: &[&[u8]]) -> Named {
    Named { name: name.into(), bytes: parts.concat() }
}

/// A named stream of these lines, each ended by LF.
fn lined(name: &str, lines: impl IntoIterator<Item = impl AsRef<[u8]>>) -> Named {
    let ended = |line: &[u8]| [line, b"\n"].concat();
    Named { name: name.into(), bytes: lines.into_iter().flat_map(|line| ended(line.as_ref())).collect() }
}

/// A length that shows the tree in a line.
const LEN: &[u8] = b"len\n";

fn create<S: Space>(capacity: u32) -> String {
    let sides = [vec![0.0; S::AXES], vec![8.0; S::AXES]].concat();
    Command::Create(sides, capacity).write(S::WORD)
}

fn point<S: Space>(x: f64, payload: u32) -> Point {
    Point { at: vec![x; S::AXES], payload }
}

fn insert<S: Space>(x: f64, payload: u32) -> String {
    Command::Insert(point::<S>(x, payload)).write(S::WORD)
}

/// Records that make a tree with two points.
fn tree_lines<S: Space>() -> Vec<String> {
    vec![create::<S>(1), insert::<S>(1.0, 7), insert::<S>(5.0, 9)]
}

/// The same, ended by LF.
fn begun<S: Space>() -> Vec<u8> {
    (tree_lines::<S>().join("\n") + "\n").into_bytes()
}

/// A command of each word that such a tree takes, with the creation.
fn each<S: Space>() -> Vec<String> {
    let at = vec![1.0; S::AXES];
    let commands = [
        Command::Insert(point::<S>(3.0, 40)),
        Command::Delete(point::<S>(3.0, 40)),
        Command::Contains(point::<S>(1.0, 7)),
        Command::Range(at.clone(), 4.0),
        Command::Nearest(at.clone(), 3),
        Command::InBox([at.clone(), vec![4.0; S::AXES]].concat()),
        Command::Len,
        Command::Clear,
        Command::Create([vec![0.0; S::AXES], vec![4.0; S::AXES]].concat(), 20),
    ];
    commands.iter().map(|command| command.write(S::WORD)).collect()
}

fn word_of(line: &str) -> &str {
    line.split(',').next().unwrap_or("")
}
