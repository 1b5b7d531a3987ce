//! Special values in every field: boundaries, points, centres, radii and boxes.

use super::Stream;
use crate::bits::{moved, special as special_value};
use crate::calls::Point;
use crate::record::Command;
use crate::space::Space;

pub fn special<S: Space>(stream: &mut Stream<S>) {
    for _ in 0..3 {
        odd_boundary(stream);
    }
    begin(stream);
    for _ in 0..40 {
        any_call(stream);
    }
    edges_of_room(stream);
    zeros(stream);
}

/// A good boundary with one number replaced by a special value, and capacity 0 now and then.
fn odd_boundary<S: Space>(stream: &mut Stream<S>) {
    let mut sides = [vec![0.0; S::AXES], vec![8.0; S::AXES]].concat();
    let place = stream.random.below(sides.len() as u64) as usize;
    sides[place] = special_value(stream.random.bits());
    let capacity = if stream.random.once_in(4) { 0 } else { 2 };
    stream.say(Command::Create(sides, capacity));
    stream.say(Command::Len);
}

/// The boundaries that Room just takes and just refuses.
fn edges_of_room<S: Space>(stream: &mut Stream<S>) {
    let most = 2f64.powi(500);
    for extent in [0.0, -0.0, -1.0, most, moved(most, 1), f64::NAN] {
        stream.create(0.0, extent, 1);
    }
    for corner in [-most, moved(-most, -1), f64::NEG_INFINITY] {
        stream.create(corner, most, 1);
    }
    stream.create(f64::NAN, 8.0, 0);
    stream.say(Command::Len);
}

/// A boundary that holds many special values.
fn begin<S: Space>(stream: &mut Stream<S>) {
    let most = 2f64.powi(500);
    let tiny = f64::from_bits(4);
    let boundaries =
        [(-most, most), (0.0, 0.0), (-8.0, 16.0), (-tiny, 2.0 * tiny), (-0.0, most), (1.0, 1e-20)];
    let (corner, extent) = *stream.random.pick(&boundaries);
    let capacity = stream.random.between(1, 3) as u32;
    stream.create(corner, extent, capacity);
}

/// A place of special values, mostly ones that lie in the boundary.
fn place<S: Space>(stream: &mut Stream<S>) -> Vec<f64> {
    let (corners, extents) = stream.boundary.split_at(S::AXES);
    let random = &mut stream.random;
    let mut coordinate = |corner: f64, far: f64| {
        if random.once_in(10) {
            return special_value(random.bits());
        }
        let mut drawn = (0..40).map(|_| special_value(random.bits()));
        drawn.find(|v| corner <= *v && *v <= far).unwrap_or(corner)
    };
    corners.iter().zip(extents).map(|(c, e)| coordinate(*c, c + e)).collect()
}

fn any_call<S: Space>(stream: &mut Stream<S>) {
    let at = place(stream);
    let number = special_value(stream.random.bits());
    match stream.random.below(12) {
        0..=3 => drop(stream.insert(at)),
        4 => {
            let gone = stream.any_held(at);
            stream.delete(&gone);
        }
        5 => other_zero(stream, at),
        6 => drop(stream.say(Command::Delete(Point { at, payload: 1 }))),
        7 | 8 => drop(stream.say(Command::Range(at, number))),
        9 => {
            let k = stream.random.between(0, 3) as u32;
            stream.say(Command::Nearest(at, k));
        }
        _ => {
            let extents = (0..S::AXES).map(|_| special_value(stream.random.bits()));
            let sides = at.iter().copied().chain(extents).collect();
            stream.say(Command::InBox(sides));
        }
    }
}

/// 0 and -0 are one place: each is found and deleted by the other, the first in the list going first.
fn zeros<S: Space>(stream: &mut Stream<S>) {
    stream.create(-8.0, 16.0, 1);
    let point = |zero: f64, payload: u32| Point { at: vec![zero; S::AXES], payload };
    for (zero, payload) in [(0.0, 1), (0.0, 2), (-0.0, 1)] {
        stream.say(Command::Insert(point(zero, payload)));
        stream.say(Command::Contains(point(-zero, payload)));
    }
    stream.say(Command::Contains(point(9.0, 1)));
    stream.say(Command::Delete(point(9.0, 1)));
    stream.say(Command::Delete(point(-0.0, 1)));
    stream.show_all();
    stream.say(Command::Range(vec![-0.0; S::AXES], 0.0));
}

/// A held point asked for with the other zero where it has one.
fn other_zero<S: Space>(stream: &mut Stream<S>, at: Vec<f64>) {
    let mut point = stream.any_held(at);
    for v in &mut point.at {
        *v = if *v == 0.0 { -*v } else { *v };
    }
    stream.say(Command::Contains(point));
}
