//! Three points about the midplane of one node, so that the order of an answer tells how they were routed.

use super::spans::stepped_side;
use super::Stream;
use crate::random::Random;
use crate::record::Command;
use crate::rules::boxes;
use crate::space::Space;

/// A node some levels down gets a point on its midplane or just below, its corner, and a point on its
/// high side. It holds two, so it splits: what shares a list then comes in the order of insertion,
/// what does not in the order of the children.
pub fn midplanes<S: Space>(stream: &mut Stream<S>) {
    let mut sides: Vec<(f64, f64)> = (0..S::AXES).map(|_| any_side(&mut stream.random)).collect();
    stream.say(Command::Create(boxes::joined(sides.clone()), 2));
    let few = stream.random.between(0, 5);
    for _ in 0..*stream.random.pick(&[0, 1, 2, few, 30, 31, 31, 32, 32]) {
        for side in &mut sides {
            *side = boxes::half(*side, stream.random.once_in(2));
        }
    }
    let below = stream.random.once_in(2);
    let middle = |side: &(f64, f64)| {
        let middle = boxes::midplane(*side);
        if below {
            middle.next_down()
        } else {
            middle
        }
    };
    stream.insert(sides.iter().map(middle).collect());
    stream.insert(sides.iter().map(|side| side.0).collect());
    stream.insert(sides.iter().map(|side| boxes::midplane(*side) + side.1 / 4.0).collect());
    stream.show_all();
    let at = stream.any_held(vec![0.0; S::AXES]).at;
    stream.say(Command::Range(at, 0.0));
}

/// A side on which sums round, or one on which they do not.
fn any_side(random: &mut Random) -> (f64, f64) {
    match random.below(4) {
        0 => (0.0, 8.0),
        1 => stepped_side(random),
        2 => (random.unit() - 0.5, random.unit()),
        _ => (0.1, 0.7),
    }
}
