//! Bulk insert of the Rust against one insert after the other; no record says it.

use super::report::{Outcome, Report};
use crate::random::Random;
use crate::space::{Plane, Solid, Space};
use spart::index::SpatialIndex;

const LISTS: u64 = 500;

pub fn run(report: &mut Report) {
    report.test("bulk quad", of_space::<Plane>());
    report.test("bulk oct", of_space::<Solid>());
}

/// The same count is stored and the same tree is left, points outside being skipped.
fn of_space<S: Space>() -> Outcome {
    let boundary = S::volume(&[vec![0.0; S::AXES], vec![8.0; S::AXES]].concat());
    let mut points = 0;
    for seed in 0..LISTS {
        let mut random = Random::new(seed);
        let capacity = random.between(1, 8) as usize;
        let items = list::<S>(&mut random);
        let mut bulk = S::tree(&boundary, capacity).map_err(|e| e.to_string())?;
        let mut single = S::tree(&boundary, capacity).map_err(|e| e.to_string())?;
        let stored = bulk.insert_bulk(items.clone());
        let taken = items.iter().filter(|item| single.insert((*item).clone()) == Ok(true)).count();
        let alike = stored == Ok(taken) && format!("{bulk:?}") == format!("{single:?}");
        if !alike || bulk.is_empty() != (taken == 0) {
            return Err(format!("seed {seed}"));
        }
        points += items.len();
    }
    Ok(format!("{LISTS} lists, {points} points"))
}

/// Up to 60 points, some equal, some outside, some with NaN.
fn list<S: Space>(random: &mut Random) -> Vec<S::Item> {
    let coordinate = |random: &mut Random| match random.below(12) {
        0 => f64::NAN,
        1 => 8.5,
        2..=5 => random.between(0, 8) as f64,
        _ => 8.0 * random.unit(),
    };
    let many = random.below(60) as u32;
    let at = |random: &mut Random| (0..S::AXES).map(|_| coordinate(random)).collect::<Vec<_>>();
    (0..many).map(|payload| S::item(&at(random), payload)).collect()
}
