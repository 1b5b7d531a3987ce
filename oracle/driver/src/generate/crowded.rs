//! Trees at the limits of Room.

use super::Stream;
use crate::calls::NODES_FULL;
use crate::record::Command;
use crate::room::MOST_POINTS;
use crate::space::Space;

/// A place that is the same on each axis but for x.
fn place<S: Space>(x: f64, others: f64) -> Vec<f64> {
    (0..S::AXES).map(|axis| if axis == 0 { x } else { others }).collect()
}

/// 512 points held: first as one deep bucket, where 5 stands against 6, then spread out.
pub fn full<S: Space>(stream: &mut Stream<S>) {
    bucket(stream);
    spread(stream);
}

/// Nearly all points in one place, so that 512 are held while nodes are free.
fn bucket<S: Space>(stream: &mut Stream<S>) {
    stream.create(0.0, 8.0, 1);
    let (a, b, c) = (place::<S>(1.0, 1.0), place::<S>(5.0, 5.0), place::<S>(5.0, 1.0));
    // In an octree a second bucket would pass the node limit, so b is there once only.
    let twice = if S::AXES == 2 { 2 } else { 1 };
    for _ in 0..MOST_POINTS - twice {
        stream.insert(a.clone());
    }
    for _ in 0..twice {
        stream.insert(b.clone());
    }
    let outside = place::<S>(8.0, 8.5);
    stream.insert(outside);
    let refused = if S::AXES == 2 { c.clone() } else { b.clone() };
    stream.insert(refused.clone());
    stream.say(Command::Range(a.clone(), f64::INFINITY));
    free_one_and_insert(stream, c.clone());
    stream.insert(refused.clone());
    free_one_and_insert(stream, refused.clone());
    free_one_and_insert(stream, refused);
    stream.say(Command::Len);
    let last = stream.any_held(b);
    stream.delete(&last);
    stream.insert(c);
}

fn free_one_and_insert<S: Space>(stream: &mut Stream<S>, at: Vec<f64>) {
    if let Some(first) = stream.held.first().cloned() {
        stream.delete(&first);
    }
    stream.insert(at);
}

/// Points spread out until 512 are held, then refusals, a delete and one more.
fn spread<S: Space>(stream: &mut Stream<S>) {
    let capacity = *stream.random.pick(&[8, 9, 16, 64, 511, 512, 513, u32::MAX]);
    stream.create(0.0, 8.0, capacity);
    for _ in 0..MOST_POINTS + 2 {
        let at = stream.uniform_place();
        stream.insert(at);
    }
    stream.insert(place::<S>(8.5, 1.0));
    let gone = stream.any_held(place::<S>(1.0, 1.0));
    stream.delete(&gone);
    stream.insert(gone.at.clone());
    stream.insert(gone.at.clone());
    for k in [3, 511, 512, 513] {
        stream.say(Command::Nearest(gone.at.clone(), k));
    }
    stream.say(Command::Nearest(place::<S>(f64::NAN, 1.0), 2));
    stream.say(Command::Clear);
    stream.say(Command::Len);
}

/// Trees at the node limit: refused inserts, deletes that free nodes, and the same inserts again.
pub fn nodes<S: Space>(stream: &mut Stream<S>) {
    pairs(stream);
    for _ in 0..2 {
        crowd(stream);
    }
}

/// Document 01's example: pairs of equal points until the next pair is refused.
fn pairs<S: Space>(stream: &mut Stream<S>) {
    stream.create(0.0, 8.0, 1);
    for at in [1.0, 1.0, 5.0, 5.0] {
        stream.insert(place::<S>(at, at));
    }
    stream.insert(place::<S>(5.0, 1.0));
    stream.insert(place::<S>(5.0, 1.0));
    stream.say(Command::Len);
    if let Some(point) = stream.held.iter().rev().find(|p| p.at[1] == 5.0).cloned() {
        stream.delete(&point);
    }
    stream.insert(place::<S>(5.0, 1.0));
    stream.show_all();
}

/// Clusters too large for a node until several inserts are refused, then deletes with the refused
/// points in between.
fn crowd<S: Space>(stream: &mut Stream<S>) {
    let capacity = stream.random.between(1, 3) as u32;
    stream.create(0.0, 8.0, capacity);
    let mut refused = Vec::new();
    for _ in 0..40 {
        if refused.len() < 8 {
            // Close ones at first; what is left then goes a split or two at a time.
            let closest = if refused.is_empty() { 34 } else { 3 };
            cluster(stream, capacity, closest, &mut refused);
        }
    }
    for again in refused.iter().cycle().take(2 * refused.len()).cloned() {
        let gone = stream.any_held(place::<S>(1.0, 1.0));
        stream.delete(&gone);
        stream.insert(again.clone());
        stream.say(Command::Nearest(again, 2));
    }
    let last = stream.any_held(place::<S>(1.0, 1.0));
    stream.say(Command::Contains(last));
}

/// One point more than a node holds, side by side on a diagonal; keeps those that got 6.
fn cluster<S: Space>(stream: &mut Stream<S>, capacity: u32, closest: i64, refused: &mut Vec<Vec<f64>>) {
    let at = stream.uniform_place();
    let apart = 8.0 * 2f64.powi(-(stream.random.between(1, closest) as i32)) / f64::from(capacity);
    for number in 0..=capacity {
        let point: Vec<f64> = at.iter().map(|v| v + apart * f64::from(number)).collect();
        if stream.insert(point.clone()) == NODES_FULL {
            refused.push(point);
        }
    }
}
