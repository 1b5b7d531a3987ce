//! Merges, with the order of the lists made visible by box search and by ties of k nearest.

use super::Stream;
use crate::calls::Point;
use crate::record::Command;
use crate::space::Space;

/// One point more than the capacity, each in a child of its own and in random order; the first delete
/// merges, and more follow.
pub fn merges<S: Space>(stream: &mut Stream<S>) {
    let mut children: Vec<usize> = (0..1 << S::AXES).collect();
    stream.random.shuffle(&mut children);
    let capacity = stream.random.between(1, children.len() as i64 - 1) as usize;
    children.truncate(capacity + 1);
    stream.create(0.0, 8.0, capacity as u32);
    // Half of the time the points lie one level down, so that two levels merge.
    let centre = if stream.random.once_in(2) { 4.0 } else { 2.0 };
    for child in &children {
        let at = (0..S::AXES).map(|axis| if child >> axis & 1 == 1 { centre + 1.0 } else { centre - 1.0 });
        stream.insert(at.collect());
    }
    for _ in 0..stream.random.between(1, 3) {
        let gone = stream.any_held(vec![centre; S::AXES]);
        stream.delete(&gone);
        show::<S>(stream, centre);
        again(stream, gone);
    }
}

/// Once in a while the deleted point comes back, behind the merged list.
fn again<S: Space>(stream: &mut Stream<S>, gone: Point) {
    if stream.random.once_in(4) {
        stream.say(Command::Insert(gone));
        stream.show_all();
    }
}

/// All lie equally far from the centre, so that the first visited is the nearest.
fn show<S: Space>(stream: &mut Stream<S>, centre: f64) {
    stream.show_all();
    let k = stream.random.between(1, 3) as u32;
    stream.say(Command::Nearest(vec![centre; S::AXES], k));
}
