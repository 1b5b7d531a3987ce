//! The recorded files against what the generator and the Rust give now, byte by byte.

use super::report::{Outcome, Report};
use crate::recorded::{make, read, Recording};
use std::path::Path;

pub fn run(report: &mut Report, folder: &Path) {
    match make() {
        Ok(recordings) => {
            for recording in recordings {
                report.test(&format!("recorded {}", recording.name), one(folder, &recording));
            }
        }
        Err(error) => report.test("recorded", Err(error)),
    }
}

fn one(folder: &Path, recording: &Recording) -> Outcome {
    for (ending, now) in [("csv", &recording.asked), ("answers", &recording.answered)] {
        let recorded = read(folder, &recording.name, ending)?;
        if recorded != *now {
            return Err(format!("{ending}, line {}", first_difference(&recorded, now)));
        }
    }
    let lines = recording.answered.split_inclusive(|b| *b == b'\n').count();
    let bytes = recording.asked.len() + recording.answered.len();
    Ok(format!("{lines} answers, {bytes} bytes"))
}

/// The number of the first line that differs.
fn first_difference(a: &[u8], b: &[u8]) -> usize {
    let same = a.iter().zip(b).take_while(|(x, y)| x == y).count();
    1 + a[..same].iter().filter(|byte| **byte == b'\n').count()
}
