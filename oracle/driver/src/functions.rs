//! The geometry as a table of functions on lists of numbers: what the Rust answers, what document 01
//! says, and where the two are known to part.

use crate::bits::{alike, answer_bits};
use crate::inputs::Form;
use crate::rules::boxes;
use crate::space::{Plane, Solid, Space};
use spart::geometry::{BoundingVolume, DistanceMetric, HasMinDistance};
use spart::opened::Opened;
use spart::private;

/// What a function answers.
#[derive(Clone, Debug)]
pub enum Answer {
    Float(f64),
    Yes(bool),
    Index(usize),
    Sides(Vec<f64>),
}

impl PartialEq for Answer {
    fn eq(&self, other: &Self) -> bool {
        match (self, other) {
            (Answer::Float(a), Answer::Float(b)) => alike(*a, *b),
            (Answer::Yes(a), Answer::Yes(b)) => a == b,
            (Answer::Index(a), Answer::Index(b)) => a == b,
            (Answer::Sides(a), Answer::Sides(b)) => {
                a.len() == b.len() && a.iter().zip(b).all(|(x, y)| alike(*x, *y))
            }
            _ => false,
        }
    }
}

impl std::fmt::Display for Answer {
    fn fmt(&self, f: &mut std::fmt::Formatter) -> std::fmt::Result {
        let float = |x: &f64| format!("{:016X}", answer_bits(*x));
        match self {
            Answer::Float(x) => f.write_str(&float(x)),
            Answer::Yes(yes) => write!(f, "{}", u8::from(*yes)),
            Answer::Index(i) => write!(f, "{i}"),
            Answer::Sides(s) => f.write_str(&s.iter().map(float).collect::<Vec<_>>().join(",")),
        }
    }
}

/// An answer from floats and, for `part`, the number of a child.
pub type Ask = fn(&[f64], usize) -> Answer;

/// One function of the geometry.
pub struct Function {
    pub word: &'static str,
    pub form: Form,
    pub rust: Ask,
    pub rule: Ask,
    pub departure: Option<Departure>,
}

/// Where the Rust is known to part from the rule: in words, and as a test of the numbers.
pub struct Departure {
    reason: &'static str,
    holds: fn(&[f64]) -> bool,
}

impl Function {
    /// Why the Rust is known to part from the rule on these numbers, if it is.
    pub fn departs(&self, numbers: &[f64]) -> Option<&'static str> {
        self.departure.as_ref().filter(|d| (d.holds)(numbers)).map(|d| d.reason)
    }

    /// The answer that stands: the Rust's, and the rule's where the two are known to part.
    pub fn answer(&self, numbers: &[f64], child: usize) -> Answer {
        let ask = if self.departs(numbers).is_some() { self.rule } else { self.rust };
        ask(numbers, child)
    }
}

const NAN_MEETS: Departure =
    Departure { reason: "a compared number is NaN and no axis keeps the boxes apart", holds: nan_meets };
const NAN_SAME: Departure =
    Departure { reason: "a coordinate is NaN in both points and the others are equal", holds: nan_same };

/// All functions: those of one axis, then those of two and of three.
pub fn all() -> Vec<Function> {
    let mut functions = of_one_axis();
    functions
        .extend(of_space::<Plane>(["inside2", "meets2", "route2", "part2", "node2", "squared2", "same2"]));
    functions
        .extend(of_space::<Solid>(["inside3", "meets3", "route3", "part3", "node3", "squared3", "same3"]));
    functions
}

fn of_one_axis() -> Vec<Function> {
    vec![
        Function {
            word: "span",
            form: Form::Ends,
            rust: |n, _| Answer::Float(private::span(n[0], n[1])),
            rule: |n, _| Answer::Float(boxes::span(n[0], n[1])),
            departure: None,
        },
        Function {
            word: "axis",
            form: Form::ValueSide,
            rust: |n, _| Answer::Float(private::axis_distance(n[0], n[1], n[2])),
            rule: |n, _| Answer::Float(boxes::axis_distance(n[0], (n[1], n[2]))),
            departure: None,
        },
        Function {
            word: "mid",
            form: Form::Side,
            rust: |n, _| Answer::Float(rust_midplane(n[0], n[1])),
            rule: |n, _| Answer::Float(boxes::midplane((n[0], n[1]))),
            departure: None,
        },
        Function {
            word: "next",
            form: Form::Value,
            rust: |n, _| Answer::Float(n[0].next_up()),
            rule: |n, _| Answer::Float(boxes::next_up(n[0])),
            departure: None,
        },
    ]
}

/// The Rust computes a midplane where it splits: it is the corner of the east child.
fn rust_midplane(corner: f64, extent: f64) -> f64 {
    let parts = <Plane as Space>::Shape::parts(&Plane::volume(&[corner, 0.0, extent, 0.0]));
    parts[1].x
}

/// The functions of one number of axes, with their words in this order.
fn of_space<S: Space>(words: [&'static str; 7]) -> Vec<Function> {
    let [inside, meets, route, part, node, squared, same] = words;
    let (on_place, on_places) = (Form::BoxPlace(S::AXES), Form::PlacePlace(S::AXES));
    let function = |word, form, rust, rule| Function { word, form, rust, rule, departure: None };
    vec![
        function(inside, on_place, rust_inside::<S>, rule_inside),
        Function {
            departure: Some(NAN_MEETS),
            ..function(meets, Form::BoxBox(S::AXES), rust_meets::<S>, rule_meets)
        },
        function(route, on_place, rust_route::<S>, rule_route),
        function(part, Form::BoxChild(S::AXES), rust_part::<S>, rule_part),
        function(node, on_place, rust_node::<S>, rule_node),
        function(squared, on_places, rust_squared::<S>, rule_squared),
        Function { departure: Some(NAN_SAME), ..function(same, on_places, rust_same::<S>, rule_same) },
    ]
}

/// The numbers of a box and of a place behind it.
fn on_place<T>(numbers: &[f64], ask: impl Fn(&[f64], &[f64]) -> T) -> T {
    let (sides, at) = numbers.split_at(numbers.len() / 3 * 2);
    ask(sides, at)
}

/// The numbers of two boxes or of two places.
fn on_halves<T>(numbers: &[f64], ask: impl Fn(&[f64], &[f64]) -> T) -> T {
    let (a, b) = numbers.split_at(numbers.len() / 2);
    ask(a, b)
}

fn rust_inside<S: Space>(n: &[f64], _: usize) -> Answer {
    on_place(n, |s, p| Answer::Yes(S::volume_contains(&S::volume(s), &S::item(p, 0))))
}

fn rule_inside(n: &[f64], _: usize) -> Answer {
    on_place(n, |s, p| Answer::Yes(boxes::inside(s, p)))
}

fn rust_meets<S: Space>(n: &[f64], _: usize) -> Answer {
    on_halves(n, |a, b| Answer::Yes(S::volume(a).intersects(&S::volume(b))))
}

fn rule_meets(n: &[f64], _: usize) -> Answer {
    on_halves(n, |a, b| Answer::Yes(boxes::meets(a, b)))
}

fn rust_route<S: Space>(n: &[f64], _: usize) -> Answer {
    on_place(n, |s, p| Answer::Index(S::Shape::route(&S::volume(s), &S::item(p, 0))))
}

fn rule_route(n: &[f64], _: usize) -> Answer {
    on_place(n, |s, p| Answer::Index(boxes::route(s, p)))
}

fn rust_part<S: Space>(n: &[f64], child: usize) -> Answer {
    Answer::Sides(S::sides(&S::Shape::parts(&S::volume(n))[child]))
}

fn rule_part(n: &[f64], child: usize) -> Answer {
    Answer::Sides(boxes::part(n, child))
}

fn rust_node<S: Space>(n: &[f64], _: usize) -> Answer {
    on_place(n, |s, p| Answer::Float(S::volume(s).min_distance_sq(&S::item(p, 0))))
}

fn rule_node(n: &[f64], _: usize) -> Answer {
    on_place(n, |s, p| Answer::Float(boxes::node_distance(s, p)))
}

fn rust_squared<S: Space>(n: &[f64], _: usize) -> Answer {
    on_halves(n, |a, b| Answer::Float(S::Metric::distance_sq(&S::item(a, 0), &S::item(b, 0))))
}

fn rule_squared(n: &[f64], _: usize) -> Answer {
    on_halves(n, |a, b| Answer::Float(boxes::squared(a, b)))
}

/// Payloads are equal here, so that the coordinates decide.
fn rust_same<S: Space>(n: &[f64], _: usize) -> Answer {
    on_halves(n, |a, b| Answer::Yes(S::item(a, 0) == S::item(b, 0)))
}

fn rule_same(n: &[f64], _: usize) -> Answer {
    on_halves(n, |a, b| Answer::Yes(boxes::same(a, b)))
}

/// The Rust says yes where a compared number is NaN and no axis keeps the boxes apart.
fn nan_meets(n: &[f64]) -> bool {
    on_halves(n, |a, b| {
        let axes = a.len() / 2;
        let edges = |s: &[f64], i: usize| (s[i], s[i] + s[i + axes]);
        let pairs = (0..axes).flat_map(|i| {
            let ((a_corner, a_far), (b_corner, b_far)) = (edges(a, i), edges(b, i));
            [(a_corner, b_far), (b_corner, a_far)]
        });
        let apart = pairs.clone().any(|(corner, far)| corner > far);
        let nan = pairs.clone().any(|(corner, far)| corner.is_nan() || far.is_nan());
        nan && !apart
    })
}

/// The Rust says yes where coordinates are NaN in both points and the others are equal.
fn nan_same(n: &[f64]) -> bool {
    on_halves(n, |a, b| {
        let both_nan = |i: usize| a[i].is_nan() && b[i].is_nan();
        let like = (0..a.len()).all(|i| a[i] == b[i] || both_nan(i));
        like && (0..a.len()).any(both_nan)
    })
}
