//! Short sequences, all of them.

use crate::call::{Call, Room};
use crate::kind::Kind;
use crate::run::Run;
use lent::layout::{even, ways};
use ralikudo::generic::{Library, Point, Volume};

const PLENTY: Room = Room { coords: 0, payloads: 0 };

fn plan<const N: usize>() -> Volume<N> {
    even(0.0, 8.0)
}

/// In this child, where a side is low or high.
fn in_child<const N: usize>(child: usize, low: f64, high: f64) -> [f64; N] {
    std::array::from_fn(|axis| if child >> axis & 1 == 1 { high } else { low })
}

/// Each child of the root, and each child of its first child, on the midplanes where they are high.
fn places<const N: usize>() -> Vec<[f64; N]> {
    let children = |low, high| (0..ways(N)).map(move |child| in_child(child, low, high));
    children(1.0, 5.0).chain(children(0.5, 2.0)).collect()
}

/// How many choices of four places there are, in order: 1680, or 43,680 with three axes.
pub fn choices(axes: usize) -> usize {
    let many = 2 * ways(axes);
    many * (many - 1) * (many - 2) * (many - 3)
}

/// Calls of all sequences of one choice: three capacities, all orders of four, nine calls.
pub const CALLS: usize = 3 * 24 * 9;

/// The choice of this number.
fn chosen<const N: usize>(mut number: usize) -> [Point<N>; 4] {
    let mut left: Vec<(usize, [f64; N])> = places().into_iter().enumerate().collect();
    [0; 4].map(|_| {
        let (payload, at) = left.remove(number % left.len());
        number /= left.len() + 1;
        Point { at, payload: payload as u32 }
    })
}

/// All orders of the numbers below `many`.
fn orders(many: usize) -> Vec<Vec<usize>> {
    if many == 0 {
        return vec![vec![]];
    }
    let shorter = orders(many - 1);
    let with = |order: &Vec<usize>, at: usize| {
        let mut longer = order.clone();
        longer.insert(at, many - 1);
        longer
    };
    shorter.iter().flat_map(|order| (0..many).map(|at| with(order, at)).collect::<Vec<_>>()).collect()
}

/// Four of these places come in any order and go in any order. Capacity 1 to 3; the lists are shown each time
/// by the whole shape. Of the choices only every `step`-th is taken.
pub fn merges<const N: usize>(run: &mut Run<N>, step: usize)
where
    Library: Kind<N>,
{
    for number in (0..choices(N)).step_by(step) {
        let points = chosen(number);
        for capacity in 1..=3 {
            for order in orders(4) {
                run.begin();
                run.say(Call::Create(plan(), capacity));
                for p in points {
                    run.say(Call::Insert(p));
                }
                for i in order {
                    run.say(Call::Delete(points[i]));
                }
                if run.failed.is_some() {
                    return;
                }
            }
        }
    }
}

/// These coordinates; every axis after x has y.
fn at<const N: usize>(x: f64, y: f64, payload: u32) -> Point<N> {
    Point { at: std::array::from_fn(|axis| if axis == 0 { x } else { y }), payload }
}

/// Four points, two of them in one place and one on all midplanes, each put in or taken out: all sequences of
/// so many steps, for capacities 1 and 2.
pub fn steps<const N: usize>(run: &mut Run<N>, length: u32)
where
    Library: Kind<N>,
{
    let points = [at(1.0, 1.0, 1), at(1.0, 1.0, 2), at(5.0, 1.0, 3), at(4.0, 4.0, 4)];
    let step = |letter: usize| match letter < 4 {
        true => Call::Insert(points[letter]),
        false => Call::Delete(points[letter - 4]),
    };
    for number in 0..8usize.pow(length) {
        for capacity in 1..=2 {
            run.begin();
            run.say(Call::Create(plan(), capacity));
            for place in 0..length {
                run.say(step(number / 8usize.pow(place) % 8));
            }
            run.say(Call::Nearest(at(3.0, 1.0, 0).at, 2, PLENTY));
        }
        if run.failed.is_some() {
            return;
        }
    }
}
