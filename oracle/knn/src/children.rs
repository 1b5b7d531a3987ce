//! Children in the order of their node distances.

use crate::case::{Case, Entry};
use crate::lent::Lent;
use oracle::bits::special;
use oracle::inputs::plain;
use oracle::random::Random;
use oracle::rules::table::before;
use oracle::space::Space;
use spart::geometry::HasMinDistance;
use spart::opened::Opened;
use std::cmp::Ordering;

/// Node distances, each with its child's number.
fn numbered(case: &Case, many: usize) -> Vec<Entry> {
    (0..many).map(|i| (case.dist[i], i as u32)).collect()
}

/// As the Rust does: `ordered.sort_by(|a, b| a.0.total_cmp(&b.0))`.
pub fn by_rust(case: &Case) -> Vec<Entry> {
    let mut ordered = numbered(case, case.places());
    ordered.sort_by(|a, b| a.0.total_cmp(&b.0));
    ordered
}

/// At most eight "by node distance, ties in index order", in the table's own order.
pub fn by_rule(case: &Case) -> Vec<Entry> {
    let mut ordered = numbered(case, case.places().min(8));
    ordered.sort_by(|a, b| match (before(a.0, b.0), before(b.0, a.0)) {
        (true, _) => Ordering::Less,
        (_, true) => Ordering::Greater,
        _ => Ordering::Equal,
    });
    ordered
}

/// What ours makes of the distances, against what is wanted.
pub fn judge(case: &Case, wanted: fn(&Case) -> Vec<Entry>) -> Result<(), String> {
    let mut lent = Lent::new(case);
    let (dist, item) = lent.parts();
    ours::knn::order_children(dist, item);
    lent.holds(&wanted(case))
}

fn case(dist: Vec<f64>, items: usize) -> Case {
    Case { dist, item: vec![0x5555_5555; items], ..Case::default() }
}

/// Distances as nodes have them, so neither NaN nor below 0 nor −0: the children's of a random box by the
/// Rust's own functions, or numbers with many ties.
pub fn of_nodes<S: Space>(random: &mut Random) -> Case {
    let ways = 1 << S::AXES;
    if random.once_in(2) {
        let ties = [0.0, f64::from_bits(1), 1.0, 2.0, f64::MAX, f64::INFINITY];
        let values = 1 + random.below(6);
        let draw = |random: &mut Random| ties[random.below(values) as usize];
        return case((0..ways).map(|_| draw(random)).collect(), ways);
    }
    let place: Vec<f64> = (0..S::AXES).map(|_| coordinate(random)).collect();
    let corners = (0..S::AXES).map(|_| finite(random)).collect::<Vec<_>>();
    let extents = (0..S::AXES).map(|_| finite(random).abs()).collect();
    let volume = S::volume(&[corners, extents].concat());
    let parts = S::Shape::parts(&volume).into_iter();
    case(parts.map(|part| part.min_distance_sq(&S::item(&place, 0))).collect(), ways)
}

fn coordinate(random: &mut Random) -> f64 {
    if random.once_in(4) {
        special(random.bits())
    } else {
        plain(random)
    }
}

/// A number that a boundary may have.
fn finite(random: &mut Random) -> f64 {
    let number = coordinate(random);
    if number.abs() <= 2f64.powi(500) {
        number
    } else {
        1.0
    }
}

/// Any numbers, and any lengths up to twelve.
pub fn any(random: &mut Random) -> Case {
    let draw = random.pick(&crate::sequences::KINDS).1;
    let (dists, items) = (random.below(13) as usize, random.below(13) as usize);
    case(draw(random, dists), items)
}
