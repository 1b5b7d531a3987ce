//! Boundaries on which a child's extent is a step above the plain difference.

use super::mixed::on_grid;
use super::Stream;
use crate::bits::moved;
use crate::random::Random;
use crate::record::Command;
use crate::rules::boxes;
use crate::space::Space;

/// Points near the edges of such a boundary, each looked for with no slack at all.
pub fn spans<S: Space>(stream: &mut Stream<S>) {
    let first = (f64::from_bits(0xbcc5_0000_0000_0000), f64::from_bits(0x4000_0000_0000_0001));
    let sides: Vec<(f64, f64)> = (0..S::AXES)
        .map(|_| if stream.at_start() { first } else { stepped_side(&mut stream.random) })
        .collect();
    let capacity = stream.random.between(1, 2) as u32;
    stream.say(Command::Create(boxes::joined(sides.clone()), capacity));
    for _ in 0..8 {
        let at = sides.iter().map(|s| edge(&mut stream.random, *s)).collect();
        stream.insert(at);
    }
    for _ in 0..4 {
        let at = stream.any_held(vec![0.0; S::AXES]).at;
        stream.say(Command::Range(at.clone(), 0.0));
        stream.say(Command::InBox([at.clone(), vec![0.0; S::AXES]].concat()));
        stream.say(Command::Nearest(at, 1));
    }
    stream.show_all();
    let gone = stream.any_held(vec![0.0; S::AXES]);
    stream.delete(&gone);
    stream.say(Command::Contains(gone));
}

/// A side that takes a step when it is split, or when one of its halves is.
pub fn stepped_side(random: &mut Random) -> (f64, f64) {
    loop {
        let scale = 2f64.powi(random.between(-40, 40) as i32);
        let extent = moved(scale * random.between(1, 7) as f64, random.between(-3, 3));
        let corner = -scale * random.between(1, 31) as f64 * 2f64.powi(-(random.between(48, 58) as i32));
        let corner = if random.once_in(3) { -corner } else { corner };
        let side = (corner, extent);
        let high = random.once_in(2);
        if takes_a_step(side) || takes_a_step(boxes::half(side, high)) {
            return side;
        }
    }
}

/// Whether a split of this side needs `span` to step.
pub fn takes_a_step(side: (f64, f64)) -> bool {
    let middle = boxes::midplane(side);
    let short = |lo: f64, hi: f64| lo + (hi - lo) < hi;
    short(side.0, middle) || short(middle, boxes::far(side))
}

/// The far edge, the midplane, the corner, a double off them, or something deeper.
fn edge(random: &mut Random, side: (f64, f64)) -> f64 {
    match random.below(6) {
        0 => boxes::far(side),
        1 => moved(boxes::midplane(side), random.between(-2, 1)),
        2 => side.0,
        3 => moved(boxes::far(side), -1),
        _ => on_grid(random, side, 4),
    }
}
