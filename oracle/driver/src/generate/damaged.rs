//! Records that are not understood, between records that are.

use super::Stream;
use crate::calls::Point;
use crate::record::{Command, LONGEST, MARK};
use crate::space::Space;

/// Bad records of every sort; the stream begins with the mark and its last record has no line end.
pub fn damaged<S: Space>(stream: &mut Stream<S>) {
    if stream.at_start() {
        stream.prefix(MARK);
        stream.cut = true;
        before_any_tree(stream);
    }
    stream.create(0.0, 8.0, 1);
    odd_lines(stream);
    for _ in 0..60 {
        stream.line_end = *stream.random.pick(&[b"\n" as &[u8], b"\r\n"]);
        match stream.random.below(12) {
            0 => good(stream),
            1 => refused_creation(stream),
            _ => spoilt(stream),
        }
    }
}

/// Records longer than any buffer, between good ones.
pub fn long<S: Space>(stream: &mut Stream<S>) {
    stream.create(0.0, 8.0, 1);
    for _ in 0..3 {
        good(stream);
        let length = *stream.random.pick(&[4096, 65535, 65536, 65537, 140_000]);
        let line = vec![*stream.random.pick(b"0,n\r"); length];
        stream.raw(&line);
        stream.say(Command::Len);
    }
}

/// Every command is answered 10 while there is no tree, and 9 where it is not understood.
fn before_any_tree<S: Space>(stream: &mut Stream<S>) {
    stream.say(Command::Len);
    stream.raw(b"");
    let point = Point { at: vec![1.0; S::AXES], payload: 0 };
    stream.say(Command::Insert(point.clone()));
    stream.say(Command::Delete(point.clone()));
    stream.say(Command::Contains(point.clone()));
    stream.say(Command::Range(point.at.clone(), 1.0));
    stream.say(Command::Nearest(point.at.clone(), 1));
    stream.say(Command::InBox(vec![1.0; 2 * S::AXES]));
    stream.say(Command::Clear);
    stream.raw(b"insert,1,1,1");
    stream.create(0.0, -1.0, 1);
    stream.say(Command::Len);
}

fn good<S: Space>(stream: &mut Stream<S>) {
    let at = stream.uniform_place();
    stream.insert(at.clone());
    stream.say(Command::Nearest(at, 1));
}

/// A creation that is refused, and a search that shows the earlier tree.
fn refused_creation<S: Space>(stream: &mut Stream<S>) {
    let at = stream.uniform_place();
    stream.insert(at.clone());
    match stream.random.below(3) {
        0 => stream.create(0.0, 8.0, 0),
        1 => stream.create(f64::NAN, 8.0, 1),
        _ => stream.create(0.0, -8.0, 1),
    };
    stream.say(Command::Nearest(at, 2));
}

/// Lines that are no damaged command but something else, and those about as long as a record may be.
fn odd_lines<S: Space>(stream: &mut Stream<S>) {
    let wrong_tree: &[u8] = if S::AXES == 2 { b"oct,0,0,0,8,8,8,1" } else { b"quad,0,0,8,8,1" };
    let lines: [&[u8]; 13] = [
        b"",
        b"\r",
        b",",
        b",,,,",
        b"len,",
        b",len",
        b" len",
        b"len ",
        b"\"len\"",
        b"\xef\xbb\xbflen",
        b"len\r",
        b"clear,0",
        wrong_tree,
    ];
    for line in lines {
        stream.raw(line);
    }
    for length in LONGEST - 1..LONGEST + 3 {
        let mut line = b"insert,".to_vec();
        line.resize(length, b'0');
        stream.raw(&line);
    }
    good(stream);
}

/// A good command with one thing wrong.
fn spoilt<S: Space>(stream: &mut Stream<S>) {
    let at = stream.uniform_place();
    let point = Point { at: at.clone(), payload: 40 };
    let commands = [
        Command::Insert(point.clone()),
        Command::Delete(point),
        Command::Nearest(at.clone(), 3),
        Command::Range(at.clone(), 1.0),
        Command::InBox([at.clone(), at].concat()),
        Command::Create(stream.boundary.clone(), 20),
        Command::Len,
    ];
    let line = stream.random.pick(&commands).write(S::WORD);
    let bad = spoil(stream, &line);
    stream.raw(bad.as_bytes());
}

fn spoil<S: Space>(stream: &mut Stream<S>, line: &str) -> String {
    let mut fields: Vec<String> = line.split(',').map(String::from).collect();
    let which = stream.random.below(fields.len() as u64) as usize;
    let last = fields.len() - 1;
    match stream.random.below(14) {
        0 => fields[0] = fields[0].to_uppercase(),
        1 => fields[which] = fields[which].to_lowercase() + "g",
        2 => fields.push("0".into()),
        3 => drop(fields.pop()),
        4 => fields[last] = format!("0{}", fields[last]),
        5 => fields[last] = "4294967296".into(),
        6 => fields[which] = format!("\"{}\"", fields[which]),
        7 => fields[last] = "-1".into(),
        8 => fields[last] = "+1".into(),
        9 => fields[which].insert(0, ' '),
        10 => fields[which].push('\r'),
        11 => fields[which].clear(),
        12 => fields[0].push('s'),
        _ => fields.iter_mut().skip(1).for_each(|f| *f = f.to_lowercase()),
    }
    fields.join(",")
}
