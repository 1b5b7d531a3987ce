//! Examples in plain numbers: each step is a record and its answer, written with spaces.
//! Steps that begin with a question mark look into the opened tree.

use super::report::Outcome;
use crate::bits::{hex, moved};
use crate::program::Program;
use crate::record::Record;
use crate::room::Room;
use crate::space::Space;
use spart::index::SpatialIndex;
use spart::opened::Opened;

/// What is asked, and what is answered.
pub type Step<'a> = (&'a str, &'a str);

pub fn run<S: Space>(steps: &[Step]) -> Outcome {
    let mut program = Program::<Room<S>>::new(S::AXES, S::WORD);
    for (asked, wanted) in steps {
        let (answer, wanted) = if asked.starts_with('?') {
            let room = program.held.as_ref().ok_or("no tree to look into")?;
            (look(room, asked), wanted.to_string())
        } else {
            let line = record(asked);
            (program.answer(&Record::Line(line.as_bytes())), answer::<S>(wanted))
        };
        if answer != wanted {
            return Err(format!("{asked}: answered {answer}, wanted {wanted}"));
        }
    }
    Ok(format!("{} steps", steps.len()))
}

/// A number as the examples write it: 8.5, NaN, -0, 2^500, and with + behind it the next one outward.
fn number(word: &str) -> f64 {
    let (word, step) = word.strip_suffix('+').map_or((word, 0), |word| (word, 1));
    let size = |word: &str| match word.split_once('^') {
        Some((base, power)) => {
            let power = power.parse().expect("a whole power");
            base.parse::<f64>().expect("a base").powi(power)
        }
        None => word.parse().expect("a number"),
    };
    match word.strip_prefix('-') {
        Some(word) => -moved(size(word), step),
        None => moved(size(word), step),
    }
}

/// The records of the steps, ended by LF; steps that look into the tree have none.
pub fn records(steps: &[Step]) -> Vec<u8> {
    let asked = steps.iter().map(|(asked, _)| asked).filter(|asked| !asked.starts_with('?'));
    asked.flat_map(|asked| (record(asked) + "\n").into_bytes()).collect()
}

/// The record of a step: the last number is whole after these words, all others are floats.
fn record(step: &str) -> String {
    let words: Vec<&str> = step.split(' ').collect();
    let whole_last = matches!(words[0], "quad" | "oct" | "insert" | "delete" | "contains" | "knn");
    let floats = words.len() - usize::from(whole_last);
    let field = |(i, word): (usize, &&str)| {
        if i > 0 && i < floats {
            hex(number(word))
        } else {
            word.to_string()
        }
    };
    words.iter().enumerate().map(field).collect::<Vec<_>>().join(",")
}

/// The answer line of a step: after the first bar come points, coordinates and payload.
fn answer<S: Space>(step: &str) -> String {
    let mut groups = step.split(" | ");
    let mut fields: Vec<String> = groups.next().unwrap_or("").split(' ').map(String::from).collect();
    for group in groups {
        let words: Vec<&str> = group.split(' ').collect();
        let (at, payload) = words.split_at(S::AXES);
        fields.extend(at.iter().map(|word| hex(number(word))));
        fields.extend(payload.iter().map(|word| word.to_string()));
    }
    fields.join(",")
}

/// `?nodes`, `?lists`, `?would PLACE` (nodes after an insert with no Room) and `?route PLACE` (at the root).
fn look<S: Space>(room: &Room<S>, step: &str) -> String {
    let mut words = step.split(' ');
    let word = words.next();
    let at: Vec<f64> = words.map(number).collect();
    let shape = room.shape();
    match word {
        Some("?nodes") => shape.nodes().to_string(),
        Some("?lists") => lists::<S>(shape),
        Some("?would") => {
            let mut grown = shape.clone();
            let _ = grown.insert(S::item(&at, 0));
            grown.nodes().to_string()
        }
        Some("?route") => S::Shape::route(room.boundary(), &S::item(&at, 0)).to_string(),
        _ => format!("no look {step}"),
    }
}

/// Each node that has points, as depth@corner:payloads.
fn lists<S: Space>(shape: &S::Shape) -> String {
    let mut lists = Vec::new();
    shape.look(&mut |node| {
        if !node.points.is_empty() {
            let join = |list: Vec<String>| list.join(",");
            let corner = S::sides(node.boundary)[..S::AXES].iter().map(f64::to_string).collect();
            let payloads = node.points.iter().map(|item| S::point(item).payload.to_string()).collect();
            lists.push(format!("{}@{}:{}", node.depth, join(corner), join(payloads)));
        }
    });
    lists.join(" ")
}
