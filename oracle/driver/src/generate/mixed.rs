//! All calls mixed, over points that lie uniformly, in clusters, on a grid, or on each other.

use super::Stream;
use crate::bits::moved;
use crate::calls::Point;
use crate::random::Random;
use crate::record::Command;
use crate::rules::boxes;
use crate::space::Space;

const ROUND: usize = 60;

/// Draws a place from a boundary.
type Draw<'a> = &'a mut dyn FnMut(&mut Random, &[f64]) -> Vec<f64>;

/// Places anywhere in the boundary, a few just outside; records end with CRLF.
pub fn uniform<S: Space>(stream: &mut Stream<S>) {
    stream.line_end = b"\r\n";
    begin(stream);
    mix(stream, &mut |random, boundary| {
        let axes = boundary.len() / 2;
        let outside = if random.once_in(25) { 1.5 } else { 1.0 };
        (0..axes).map(|i| boundary[i] + boundary[i + axes] * outside * random.unit()).collect()
    });
}

/// Places near a few centres, closer and closer.
pub fn clustered<S: Space>(stream: &mut Stream<S>) {
    begin(stream);
    let centres: Vec<Vec<f64>> = (0..3).map(|_| stream.uniform_place()).collect();
    mix(stream, &mut |random, boundary| {
        let axes = boundary.len() / 2;
        let centre = random.pick(&centres).clone();
        let scale = 2f64.powi(-(random.between(1, 36) as i32));
        (0..axes).map(|i| centre[i] + boundary[i + axes] * scale * (random.unit() - 0.5)).collect()
    });
}

/// Places on corners, far edges and midplanes that a descent meets, or one or two doubles off.
pub fn grid<S: Space>(stream: &mut Stream<S>) {
    begin(stream);
    let deepest = *stream.random.pick(&[1, 2, 3, 33]);
    mix(stream, &mut |random, boundary| {
        let axes = boundary.len() / 2;
        (0..axes).map(|i| on_grid(random, boxes::side(boundary, i), deepest)).collect()
    });
}

/// A corner, midplane or far edge some levels down one side.
pub fn on_grid(random: &mut Random, mut side: (f64, f64), deepest: i64) -> f64 {
    for _ in 0..random.between(0, deepest) {
        side = boxes::half(side, random.once_in(2));
    }
    let edge = match random.below(3) {
        0 => side.0,
        1 => boxes::midplane(side),
        _ => boxes::far(side),
    };
    let off = [0, 0, 0, 0, 1, -1, 2, -2];
    moved(edge, *random.pick(&off))
}

/// One to three places, again and again: splits to the bottom and lists above capacity there.
pub fn coincident<S: Space>(stream: &mut Stream<S>) {
    begin(stream);
    let many = stream.random.between(1, 3);
    let places: Vec<Vec<f64>> = (0..many).map(|_| stream.uniform_place()).collect();
    mix(stream, &mut |random, _| random.pick(&places).clone());
}

/// Begins a tree with one of several boundaries and capacities.
fn begin<S: Space>(stream: &mut Stream<S>) {
    let capacity = *stream.random.pick(&[1, 2, 3, 4, 5, 6, 7, 8, 16, 100]);
    let side = |random: &mut Random| match random.below(5) {
        0 => (0.0, 8.0),
        1 => (-1.0, 2.0),
        2 => (0.1, 0.7),
        3 => (-0.0, 1.0),
        _ => (100.0 * (random.unit() - 0.5), 1000.0 * random.unit()),
    };
    let boundary = boxes::joined((0..S::AXES).map(|_| side(&mut stream.random)));
    stream.say(Command::Create(boundary, capacity));
}

/// A round of all calls: inserts first of all, then deletes, questions and searches.
fn mix<S: Space>(stream: &mut Stream<S>, draw: Draw) {
    for _ in 0..ROUND {
        let place = draw(&mut stream.random, &stream.boundary);
        match stream.random.below(40) {
            0..=15 => drop(stream.insert(place)),
            16 | 17 => copy(stream, place),
            18..=23 => delete(stream, place),
            24..=26 => contains(stream, place),
            27..=30 => range(stream, place),
            31..=34 => {
                let k = stream.any_k();
                stream.say(Command::Nearest(place, k));
            }
            35..=37 => in_box(stream, place, draw),
            38 => drop(stream.say(Command::Len)),
            _ if stream.random.once_in(6) => drop(stream.say(Command::Clear)),
            _ => drop(stream.show_all()),
        }
    }
}

/// Inserts a held point once more, payload and all.
fn copy<S: Space>(stream: &mut Stream<S>, place: Vec<f64>) {
    let point = stream.any_held(place);
    stream.say(Command::Insert(point));
}

/// Mostly a point that is held, else one with another payload, at another place, or outside.
fn known<S: Space>(stream: &mut Stream<S>, place: Vec<f64>) -> Point {
    let mut point = stream.any_held(place.clone());
    match stream.random.below(12) {
        0 => point.payload = point.payload.wrapping_add(1000),
        1 => point.at = place,
        2 => point.at[0] = stream.boundary[0] - 1.0,
        _ => {}
    }
    point
}

fn delete<S: Space>(stream: &mut Stream<S>, place: Vec<f64>) {
    let point = known(stream, place);
    stream.delete(&point);
}

fn contains<S: Space>(stream: &mut Stream<S>, place: Vec<f64>) {
    let point = known(stream, place);
    stream.say(Command::Contains(point));
}

/// A radius that is a small share of the boundary, or 0.
fn range<S: Space>(stream: &mut Stream<S>, place: Vec<f64>) {
    let extent = stream.boundary[S::AXES];
    let radius = match stream.random.below(4) {
        0 => 0.0,
        1 => extent / 4.0,
        _ => extent * 2f64.powi(-(stream.random.between(1, 30) as i32)),
    };
    stream.say(Command::Range(place, radius));
}

/// A box between two places, or the box of one place alone.
fn in_box<S: Space>(stream: &mut Stream<S>, place: Vec<f64>, draw: Draw) {
    let other = draw(&mut stream.random, &stream.boundary);
    let alone = stream.random.once_in(3);
    let extents = place.iter().zip(&other).map(|(a, b)| if alone { 0.0 } else { b - a });
    let sides = place.iter().copied().chain(extents).collect();
    stream.say(Command::InBox(sides));
}
