//! Searches at their edges: radii that just reach a point, and every k with ties.

use super::mixed::on_grid;
use super::Stream;
use crate::bits::moved;
use crate::random::Random;
use crate::record::Command;
use crate::rules::boxes;
use crate::space::Space;

/// Radii that are the root of the squared distance of a held point, and the doubles beside them.
pub fn radii<S: Space>(stream: &mut Stream<S>) {
    let capacity = *stream.random.pick(&[1, 2, 4]);
    let extent = *stream.random.pick(&[8.0, 1.0, 0.3, 1e-160, 1e100]);
    stream.create(-extent / 4.0, extent, capacity);
    fill(stream, 14);
    for _ in 0..12 {
        let reached = stream.any_held(vec![0.0; S::AXES]).at;
        let centre = if stream.random.once_in(3) { grid_place(stream) } else { stream.uniform_place() };
        let radius = boxes::squared(&reached, &centre).sqrt();
        let steps = stream.random.between(-1, 1);
        stream.say(Command::Range(centre.clone(), moved(radius, steps)));
        if stream.random.once_in(3) {
            stream.say(Command::Range(centre, radius));
        }
    }
    odd_radii(stream);
    corner(stream);
}

/// Radii of no size, and those that no distance can have.
fn odd_radii<S: Space>(stream: &mut Stream<S>) {
    let centre = stream.any_held(vec![0.0; S::AXES]).at;
    let tiny = f64::from_bits(1);
    for radius in [0.0, -0.0, -1.0, -tiny, tiny, f64::NAN, f64::NEG_INFINITY, 2f64.powi(-600)] {
        stream.say(Command::Range(centre.clone(), radius));
    }
    let close: Vec<f64> = centre.iter().map(|v| v + 2f64.powi(-540)).collect();
    stream.say(Command::Range(close, 2f64.powi(-600)));
}

/// Every k at the edge of what is held, from centres with many ties and from centres that are no place.
pub fn nearest<S: Space>(stream: &mut Stream<S>) {
    let capacity = *stream.random.pick(&[1, 2, 3, 5]);
    stream.create(0.0, 8.0, capacity);
    let many = stream.random.between(2, 14) as usize;
    fill(stream, many);
    let n = stream.count() as u32;
    for k in [0, 1, 2, n.saturating_sub(1), n, n + 1, 512, 513, u32::MAX] {
        let centre = any_centre(stream);
        stream.say(Command::Nearest(centre, k));
    }
    for _ in 0..6 {
        let centre = any_centre(stream);
        let k = stream.random.between(1, 4) as u32;
        stream.say(Command::Nearest(centre, k));
    }
    for _ in 0..3 {
        turned(stream);
    }
}

/// A point and its coordinates turned round: only rounding tells their distances from 0 apart.
fn turned<S: Space>(stream: &mut Stream<S>) {
    stream.create(-8.0, 16.0, 1);
    let mut at: Vec<f64> = (0..S::AXES).map(|_| 8.0 * stream.random.unit()).collect();
    for _ in 0..S::AXES {
        at.rotate_left(1);
        stream.insert(at.clone());
    }
    stream.say(Command::Nearest(vec![0.0; S::AXES], 3));
}

/// Radii that just reach the corner of the last child, where a point lies: node and point are equally
/// far, and on three axes the squares added in another order would be farther than the radius.
fn corner<S: Space>(stream: &mut Stream<S>) {
    stream.create(0.0, 8.0, 1);
    stream.insert(vec![4.0; S::AXES]);
    stream.insert(vec![1.0; S::AXES]);
    for _ in 0..4 {
        let mut centre = corner_centre::<S>(&mut stream.random);
        for _ in 0..1000 {
            let (radius, other_order) = corner_radius(&centre);
            if other_order > radius * radius {
                break;
            }
            centre = corner_centre::<S>(&mut stream.random);
        }
        let (radius, _) = corner_radius(&centre);
        stream.say(Command::Range(centre, radius));
    }
}

/// A centre below 4 on each axis, by 27 digits: exact differences, but squares that must be rounded.
fn corner_centre<S: Space>(random: &mut Random) -> Vec<f64> {
    (0..S::AXES).map(|_| 4.0 - (random.bits() >> 37) as f64 * 2f64.powi(-26)).collect()
}

/// The least radius that reaches the corner, and the squared distance added from the last axis on.
fn corner_radius(centre: &[f64]) -> (f64, f64) {
    let corner = vec![4.0; centre.len()];
    let turned: Vec<f64> = centre.iter().rev().copied().collect();
    (least_radius(boxes::squared(&corner, centre)), boxes::squared(&corner, &turned))
}

/// The least radius whose square reaches a squared distance.
fn least_radius(distance: f64) -> f64 {
    let near = moved(distance.sqrt(), -2);
    let reaches = |radius: &f64| radius * radius >= distance;
    (0..5).map(|steps| moved(near, steps)).find(reaches).unwrap_or(near)
}

/// A held point, a place on the grid, a place outside, or a place with NaN or an infinity.
fn any_centre<S: Space>(stream: &mut Stream<S>) -> Vec<f64> {
    let mut centre = grid_place(stream);
    let axis = stream.random.below(S::AXES as u64) as usize;
    match stream.random.below(6) {
        0 => centre = stream.any_held(centre).at,
        1 => centre[axis] = -2.0,
        2 => centre[axis] = f64::NAN,
        3 => centre[axis] = f64::INFINITY,
        4 => centre = vec![4.0; S::AXES],
        _ => {}
    }
    centre
}

/// Some points on the grid and some anywhere.
fn fill<S: Space>(stream: &mut Stream<S>, many: usize) {
    for _ in 0..many {
        let at = if stream.random.once_in(3) { stream.uniform_place() } else { grid_place(stream) };
        stream.insert(at);
    }
}

fn grid_place<S: Space>(stream: &mut Stream<S>) -> Vec<f64> {
    let side = |i: usize| boxes::side(&stream.boundary, i);
    (0..S::AXES).map(|i| on_grid(&mut stream.random, side(i), 2)).collect()
}
