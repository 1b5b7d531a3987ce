//! The marks that the recorded streams must meet, and where each is met.

use super::report::Outcome;
use crate::bits::moved;
use crate::calls::*;
use crate::generate::takes_a_step;
use crate::record::Command;
use crate::room::{acceptable, most_nodes, Room, MOST_POINTS};
use crate::rules::boxes;
use crate::space::Space;
use spart::index::SpatialIndex;
use spart::opened::Opened;

/// Every mark.
const ALL: [&str; 69] = [
    "reply 0",
    "reply 1",
    "reply 2",
    "reply 3",
    "reply 4",
    "reply 5",
    "reply 6",
    "reply 9",
    "reply 10",
    "mark at the start",
    "line end CRLF",
    "line end LF",
    "no line end",
    "empty record",
    "record of 128 bytes",
    "record above 128 bytes",
    "quote",
    "mark inside",
    "CR inside",
    "capacity 1",
    "capacity 2",
    "capacity 3 to 8",
    "capacity above 8",
    "capacity 0 and a bad boundary",
    "boundary not finite",
    "boundary above 2^500",
    "boundary of 2^500",
    "extent below 0",
    "extent 0",
    "extent -0",
    "search after a refused creation",
    "512 held",
    "outside with 512 held",
    "5 where 6 would be too",
    "nodes at the limit",
    "6 and then taken",
    "depth 32",
    "list above capacity",
    "point on a midplane",
    "split with a step",
    "point beyond the plain half",
    "delete that merges",
    "delete that merges two levels or more",
    "delete of one of several equal points",
    "found by the other zero",
    "contains yes",
    "contains no",
    "contains outside",
    "k 0",
    "k 1",
    "k n - 1",
    "k n",
    "k n + 1",
    "k 512",
    "k above 512",
    "NaN centre with more points than k",
    "tie where the table is full",
    "radius 0",
    "radius -0",
    "radius below 0",
    "radius NaN",
    "radius infinite",
    "radius that just reaches a point",
    "radius one step short of a point",
    "box with NaN",
    "box with extent 0",
    "box with extent below 0",
    "512 points answered",
    "clear",
];

/// How often each mark was met.
pub struct Marks([usize; ALL.len()]);

impl Default for Marks {
    fn default() -> Self {
        Marks([0; ALL.len()])
    }
}

impl Marks {
    pub fn mark(&mut self, name: &str, met: bool) {
        let place = ALL.iter().position(|mark| *mark == name);
        self.0[place.unwrap_or_else(|| panic!("no mark {name}"))] += usize::from(met);
    }

    pub fn reply(&mut self, reply: u8) {
        self.mark(&format!("reply {reply}"), true);
    }

    pub fn outcome(self) -> Outcome {
        let missing: Vec<&str> = (0..ALL.len()).filter(|i| self.0[*i] == 0).map(|i| ALL[i]).collect();
        if !missing.is_empty() {
            return Err(format!("never met: {}", missing.join(", ")));
        }
        let counts: Vec<String> =
            ALL.iter().zip(self.0).map(|(mark, many)| format!("{mark}: {many}")).collect();
        Ok(counts.join(", "))
    }
}

/// What is remembered from record to record.
#[derive(Default)]
pub struct Seen {
    pub reply: u8,
    found: usize,
    refused_creation: bool,
    refused: Vec<Point>,
}

impl Seen {
    pub fn answered(&mut self, answer: &str) {
        let mut numbers = answer.split(',').map(|field| field.parse().unwrap_or(0));
        self.reply = numbers.next().unwrap_or(0) as u8;
        self.found = numbers.next().unwrap_or(0);
    }
}

/// Marks of one command, with the nodes and points before it and the tree after it.
pub fn command<S: Space>(
    marks: &mut Marks,
    seen: &mut Seen,
    command: &Command,
    before: Option<(usize, usize)>,
    room: Option<&Room<S>>,
) {
    if let Command::Create(boundary, capacity) = command {
        creation(marks, seen.reply, boundary, *capacity);
        seen.refused_creation = seen.reply != DONE && before.is_some();
        seen.refused.clear();
    }
    let (Some((nodes, points)), Some(room)) = (before, room) else {
        return;
    };
    match command {
        Command::Insert(point) => insertion(marks, seen, point, points, room),
        Command::Delete(point) => deletion(marks, seen.reply, point, nodes, room),
        Command::Contains(point) => containing(marks, seen.found == 1, point, room),
        Command::Nearest(centre, k) => nearest(marks, centre, *k as usize, room),
        Command::Range(centre, radius) => range(marks, centre, *radius, room),
        Command::InBox(sides) => in_box(marks, sides),
        Command::Clear => marks.mark("clear", points > 0),
        Command::Len | Command::Create(..) => {}
    }
    if matches!(command, Command::Nearest(..) | Command::Range(..) | Command::InBox(..)) {
        marks.mark("512 points answered", seen.found == MOST_POINTS);
        marks.mark("search after a refused creation", seen.refused_creation && seen.found > 0);
    }
}

fn creation(marks: &mut Marks, reply: u8, boundary: &[f64], capacity: u32) {
    let (corners, extents) = boundary.split_at(boundary.len() / 2);
    let most = 2f64.powi(500);
    let refused = reply == BAD_BOUNDARY;
    let taken = reply == DONE;
    marks.mark("capacity 1", taken && capacity == 1);
    marks.mark("capacity 2", taken && capacity == 2);
    marks.mark("capacity 3 to 8", taken && (3..=8).contains(&capacity));
    marks.mark("capacity above 8", taken && capacity > 8);
    marks.mark("capacity 0 and a bad boundary", reply == NO_CAPACITY && !acceptable(boundary));
    marks.mark("boundary not finite", refused && boundary.iter().any(|x| !x.is_finite()));
    let just_above = |x: &f64| x.abs() == moved(most, 1);
    marks.mark("boundary above 2^500", refused && boundary.iter().any(just_above));
    marks.mark("boundary of 2^500", taken && extents.contains(&most) && corners.contains(&-most));
    marks.mark("extent below 0", refused && extents.iter().any(|x| *x < 0.0));
    marks.mark("extent 0", taken && extents.iter().any(|x| x.to_bits() == 0));
    marks.mark("extent -0", taken && extents.iter().any(|x| x.to_bits() == 1 << 63));
}

fn insertion<S: Space>(marks: &mut Marks, seen: &mut Seen, point: &Point, points: usize, room: &Room<S>) {
    let equal = |p: &Point| p.at == point.at;
    let nodes = room.shape().nodes();
    let (taken, full) = (seen.reply == DONE, points == MOST_POINTS);
    marks.mark("512 held", taken && room.count() == MOST_POINTS);
    marks.mark("outside with 512 held", full && seen.reply == OUTSIDE);
    marks.mark("nodes at the limit", taken && nodes == most_nodes(S::AXES));
    marks.mark("6 and then taken", taken && seen.refused.iter().any(equal));
    if seen.reply == NODES_FULL {
        seen.refused.push(point.clone());
    }
    if seen.reply == POINTS_FULL {
        let mut grown = room.shape().clone();
        let _ = grown.insert(S::item(&point.at, point.payload));
        marks.mark("5 where 6 would be too", grown.nodes() > most_nodes(S::AXES));
    }
    if taken {
        shape(marks, room);
        path(marks, &point.at, room);
    }
}

/// Marks of the nodes as they stand.
fn shape<S: Space>(marks: &mut Marks, room: &Room<S>) {
    let (mut deep, mut above, mut stepped) = (false, false, false);
    room.shape().look(&mut |node| {
        deep |= node.depth == 32;
        above |= node.depth == 32 && node.points.len() > room.capacity();
        let sides = S::sides(node.boundary);
        stepped |= node.divided && (0..S::AXES).any(|i| takes_a_step(boxes::side(&sides, i)));
    });
    marks.mark("depth 32", deep);
    marks.mark("list above capacity", above);
    marks.mark("split with a step", stepped);
}

/// Follows a point to its node, in boxes as they are and in boxes with plain halves for extents.
fn path<S: Space>(marks: &mut Marks, at: &[f64], room: &Room<S>) {
    let mut leaf = 0;
    room.shape().look(&mut |node| {
        if node.points.iter().any(|item| S::point(item).at == at) {
            leaf = node.depth;
        }
    });
    let mut sides = S::sides(room.boundary());
    let mut plain = sides.clone();
    let (mut on_midplane, mut beyond) = (false, false);
    for _ in 0..leaf {
        let child = boxes::route(&sides, at);
        let middle = |i: usize| boxes::midplane(boxes::side(&sides, i));
        on_midplane |= (0..S::AXES).any(|i| at[i] == middle(i));
        sides = boxes::part(&sides, child);
        let halves = plain[S::AXES..].iter().map(|extent| extent / 2.0);
        plain = sides[..S::AXES].iter().copied().chain(halves).collect();
        beyond |= !boxes::inside(&plain, at);
    }
    marks.mark("point on a midplane", on_midplane);
    marks.mark("point beyond the plain half", beyond);
}

fn deletion<S: Space>(marks: &mut Marks, reply: u8, point: &Point, nodes: usize, room: &Room<S>) {
    let ways = 1 << S::AXES;
    let gone = nodes - room.shape().nodes();
    marks.mark("delete that merges", gone > 0);
    marks.mark("delete that merges two levels or more", gone > ways);
    marks.mark("delete of one of several equal points", reply == DONE && room.contains(point));
}

fn containing<S: Space>(marks: &mut Marks, yes: bool, point: &Point, room: &Room<S>) {
    let inside = S::volume_contains(room.boundary(), &S::item(&point.at, 0));
    let bits = |p: &Point| p.at.iter().map(|v| v.to_bits()).collect::<Vec<_>>();
    let held = room.in_box(&S::sides(room.boundary()));
    marks.mark("contains yes", yes);
    marks.mark("contains no", !yes && inside);
    marks.mark("contains outside", !inside);
    marks.mark("found by the other zero", yes && held.iter().all(|p| bits(p) != bits(point)));
}

fn nearest<S: Space>(marks: &mut Marks, centre: &[f64], k: usize, room: &Room<S>) {
    let n = room.count();
    let nan = centre.iter().any(|v| v.is_nan());
    for (name, edge) in
        [("k 1", 1), ("k n - 1", n.saturating_sub(1)), ("k n", n), ("k n + 1", n + 1), ("k 512", 512)]
    {
        marks.mark(name, n > 1 && k == edge);
    }
    marks.mark("k 0", n > 0 && k == 0);
    marks.mark("k above 512", n > 0 && k > 512);
    marks.mark("NaN centre with more points than k", nan && n > k && k >= 1);
    let held = room.in_box(&S::sides(room.boundary()));
    let mut distances: Vec<f64> = held.iter().map(|p| boxes::squared(&p.at, centre)).collect();
    distances.sort_by(f64::total_cmp);
    marks.mark("tie where the table is full", k >= 1 && k < n && distances[k - 1] == distances[k]);
}

fn range<S: Space>(marks: &mut Marks, centre: &[f64], radius: f64, room: &Room<S>) {
    let held = room.in_box(&S::sides(room.boundary()));
    let distances: Vec<f64> = held.iter().map(|p| boxes::squared(&p.at, centre)).collect();
    let reaches = |r: f64, d: &f64| *d <= r * r;
    let just = |d: &f64| reaches(radius, d) && !reaches(moved(radius, -1), d);
    let short = |d: &f64| !reaches(radius, d) && reaches(moved(radius, 1), d);
    marks.mark("radius 0", radius.to_bits() == 0);
    marks.mark("radius -0", radius.to_bits() == 1 << 63);
    marks.mark("radius below 0", radius < 0.0);
    marks.mark("radius NaN", radius.is_nan());
    marks.mark("radius infinite", radius == f64::INFINITY);
    marks.mark("radius that just reaches a point", radius > 0.0 && distances.iter().any(just));
    marks.mark("radius one step short of a point", radius > 0.0 && distances.iter().any(short));
}

fn in_box(marks: &mut Marks, sides: &[f64]) {
    let extents = &sides[sides.len() / 2..];
    marks.mark("box with NaN", sides.iter().any(|x| x.is_nan()));
    marks.mark("box with extent 0", extents.contains(&0.0));
    marks.mark("box with extent below 0", extents.iter().any(|x| *x < 0.0));
}
