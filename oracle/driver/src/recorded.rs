//! The recorded streams: which there are, and how they are made.

use crate::check::joined_examples;
use crate::edges;
use crate::generate::generate;
use crate::program::answers;
use crate::questions;
use crate::room::Room;
use crate::space::{Plane, Solid, Space};
use std::path::{Path, PathBuf};

/// Kind, seed and count of each recorded stream; both trees have one of each.
pub const PLAN: [(&str, u64, usize); 13] = [
    ("uniform", 31, 120),
    ("clustered", 2, 120),
    ("grid", 3, 120),
    ("coincident", 4, 90),
    ("midplanes", 14, 150),
    ("full", 5, 526),
    ("nodes", 6, 160),
    ("merges", 7, 110),
    ("special", 8, 190),
    ("radii", 9, 75),
    ("nearest", 10, 75),
    ("spans", 11, 120),
    ("damaged", 12, 150),
];

/// Kind, seed and count of the streams that programs replay, besides the examples and the edges of the format.
const REPLAYED: [(&str, u64, usize); 5] = [
    ("grid", 103, 400),
    ("clustered", 102, 400),
    ("coincident", 104, 250),
    ("full", 105, 560),
    ("merges", 107, 400),
];

/// Where the inputs and outputs of programs stand, each in a folder with the name of a crate.
const PROGRAMS: &str = "records/";

/// The seed of the questions about geometry.
const QUESTIONS_SEED: u64 = 13;

/// A recorded file: its name without ending, what is asked and what is answered.
pub struct Recording {
    pub name: String,
    pub asked: Vec<u8>,
    pub answered: Vec<u8>,
}

/// Makes all recordings anew.
pub fn make() -> Result<Vec<Recording>, String> {
    let mut all = of_space::<Plane>()?;
    all.extend(of_space::<Solid>()?);
    let asked = questions::questions(QUESTIONS_SEED);
    let answered = questions::answers(&asked)?.into_bytes();
    all.push(Recording { name: "geometry".into(), asked: asked.into_bytes(), answered });
    Ok(all)
}

fn of_space<S: Space>() -> Result<Vec<Recording>, String> {
    let recording = |name: String, asked: Vec<u8>| {
        let answered = answers::<Room<S>>(S::AXES, S::WORD, &asked);
        Recording { name, asked, answered }
    };
    let made = |(kind, seed, count)| generate::<S>(kind, seed, count).ok_or(format!("no kind {kind}"));
    let mut all = Vec::new();
    for plan in PLAN {
        all.push(recording(format!("{}-{}", S::WORD, plan.0), made(plan)?));
    }
    all.push(recording(format!("{PROGRAMS}{}", S::WORD), joined_examples::<S>()));
    let replay = |name: &str| format!("{PROGRAMS}{}_{name}", S::WORD);
    for plan in REPLAYED {
        all.push(recording(replay(plan.0), made(plan)?));
    }
    all.push(recording(replay("edges"), edges::joined::<S>()));
    Ok(all)
}

/// Writes all recordings to a folder.
pub fn write(folder: &Path) -> Result<(), String> {
    for recording in make()? {
        for (ending, bytes) in [("csv", &recording.asked), ("answers", &recording.answered)] {
            let path = place(folder, &recording.name, ending);
            let parent = path.parent().unwrap_or(folder);
            std::fs::create_dir_all(parent).map_err(|e| format!("{}: {e}", parent.display()))?;
            std::fs::write(&path, bytes).map_err(|e| format!("{}: {e}", path.display()))?;
        }
    }
    Ok(())
}

/// Where a recorded file stands. What a program replays is its input, and the answers what it must write.
fn place(folder: &Path, name: &str, ending: &str) -> PathBuf {
    let crates = folder.join("../../crates");
    let stream = if ending == "csv" { "stdin" } else { "stdout" };
    match name {
        "geometry" => crates.join("replay_geometry").join(stream),
        "records/quad" => crates.join("quad").join(stream),
        "records/oct" => crates.join("oct").join(stream),
        _ if name.starts_with(PROGRAMS) => folder.join(name).join(stream),
        _ => folder.join(format!("{name}.{ending}")),
    }
}

/// Reads a recorded file.
pub fn read(folder: &Path, name: &str, ending: &str) -> Result<Vec<u8>, String> {
    let path = place(folder, name, ending);
    std::fs::read(&path).map_err(|e| format!("{}: {e}", path.display()))
}
