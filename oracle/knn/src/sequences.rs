//! Sequences of distances, and tables to offer them to.

use crate::case::{at_most, Case};
use oracle::bits::{moved, special};
use oracle::inputs::plain;
use oracle::random::Random;
use oracle::rules::boxes::squared;

/// Draws so many distances.
type Draw = fn(&mut Random, usize) -> Vec<f64>;

pub const KINDS: [(&str, Draw); 12] = [
    ("ties", ties),
    ("zeros", |r, n| each(r, n, |r| f64::from_bits(*r.pick(&ABOUT_ZERO)))),
    ("infinities", |r, n| each(r, n, |r| *r.pick(&ABOUT_INFINITY))),
    ("NaN", |r, n| each(r, n, |r| if r.once_in(2) { nan(r) } else { plain(r) })),
    ("negative", |r, n| each(r, n, |r| r.between(-9, 1) as f64 / 2.0)),
    ("special", |r, n| each(r, n, |r| special(r.bits()))),
    ("bits", |r, n| each(r, n, |r| f64::from_bits(r.bits()))),
    ("squared", |r, n| each(r, n, |r| squared(&[plain(r), plain(r)], &[0.0, 1.0]))),
    ("ascending", ascending),
    ("descending", |r, n| ascending(r, n).into_iter().rev().collect()),
    ("equal", |r, n| vec![special(r.bits()); n]),
    ("sawtooth", sawtooth),
];

const ABOUT_ZERO: [u64; 9] = [
    0x0000_0000_0000_0000,
    0x8000_0000_0000_0000,
    0x0000_0000_0000_0001,
    0x8000_0000_0000_0001,
    0x0000_0000_0000_0002,
    0x000f_ffff_ffff_ffff,
    0x800f_ffff_ffff_ffff,
    0x0010_0000_0000_0000,
    0x8010_0000_0000_0000,
];

const ABOUT_INFINITY: [f64; 7] = [f64::INFINITY, f64::NEG_INFINITY, f64::MAX, f64::MIN, 0.0, 1.0, f64::NAN];

fn each(random: &mut Random, many: usize, draw: fn(&mut Random) -> f64) -> Vec<f64> {
    (0..many).map(|_| draw(random)).collect()
}

/// A NaN of any sign and payload.
fn nan(random: &mut Random) -> f64 {
    let payload = 1 + random.below((1 << 52) - 1);
    f64::from_bits(random.bits() & (1 << 63) | 0x7ff << 52 | payload)
}

fn ties(random: &mut Random, many: usize) -> Vec<f64> {
    let values = 1 + random.below(6);
    (0..many).map(|_| random.below(values) as f64).collect()
}

/// Each is the last again, the next double, or some way up.
fn ascending(random: &mut Random, many: usize) -> Vec<f64> {
    let mut now = plain(random);
    let step = |_| {
        now = match random.below(4) {
            0 => now,
            1 => moved(now, 1),
            _ => now + random.unit(),
        };
        now
    };
    (0..many).map(step).collect()
}

/// Rising or falling again and again.
fn sawtooth(random: &mut Random, many: usize) -> Vec<f64> {
    let teeth = 1 + random.below(80) as usize;
    let falls = random.once_in(2);
    let height = |i: usize| if falls { teeth - i % teeth } else { i % teeth };
    (0..many).map(|i| height(i) as f64).collect()
}

pub const KS: [usize; 16] =
    [0, 1, 2, 3, 7, 8, 9, 63, 64, 65, 511, 512, 513, 1000, u32::MAX as usize, usize::MAX];

/// How many are offered: few, about k, or up to 700.
fn offered(random: &mut Random, k: usize) -> usize {
    match random.below(4) {
        0 => random.below(20) as usize,
        1 => (at_most(k) + random.below(4) as usize).saturating_sub(1),
        _ => random.below(701) as usize,
    }
}

/// Lengths of the two arrays: 512 places, as many as k, more, or any number, each its own.
fn lengths(random: &mut Random, k: usize) -> (usize, usize) {
    let about = |random: &mut Random| (at_most(k) + random.below(5) as usize).saturating_sub(2);
    match random.below(6) {
        0 | 1 => (512, 512),
        2 => (at_most(k), at_most(k)),
        3 => (513 + random.below(100) as usize, 513 + random.below(100) as usize),
        4 => (about(random), about(random)),
        _ => (random.below(600) as usize, random.below(600) as usize),
    }
}

/// What arrays of these lengths hold before anything is offered.
fn background(random: &mut Random, (dists, items): (usize, usize)) -> (Vec<f64>, Vec<u32>) {
    let draw = random.pick(&KINDS).1;
    (draw(random, dists), (0..items).map(|_| random.bits() as u32).collect())
}

/// An empty table and a sequence of this kind.
pub fn sequence(random: &mut Random, draw: Draw) -> Case {
    let k = *random.pick(&KS);
    let lengths = lengths(random, k);
    let (dist, item) = background(random, lengths);
    let many = offered(random, k);
    Case { k, count: 0, dist, item, offers: draw(random, many) }
}

/// An empty table and a short sequence of any kind, most often more than it keeps.
pub fn short(random: &mut Random) -> Case {
    let k = random.below(24) as usize;
    let lengths = (random.below(32) as usize, random.below(32) as usize);
    let (dist, item) = background(random, lengths);
    let many = random.below(40) as usize;
    let draw = random.pick(&KINDS).1;
    Case { k, count: 0, dist, item, offers: draw(random, many) }
}

/// A table that need not be in order, of which any number of entries is said to be in use.
pub fn any_table(random: &mut Random) -> Case {
    let large = random.once_in(50);
    let longest = if large { 700 } else { 12 };
    let below = |random: &mut Random, end: usize| random.below(end as u64) as usize;
    let lengths = (below(random, longest), below(random, longest));
    let (mut dist, item) = background(random, lengths);
    if random.once_in(4) {
        dist.sort_by(f64::total_cmp);
    }
    let count = if random.once_in(20) { usize::MAX } else { below(random, longest + 3) };
    let k = if random.once_in(4) { *random.pick(&KS) } else { below(random, longest + 3) };
    let many = 1 + below(random, 4);
    let draw = random.pick(&KINDS).1;
    Case { k, count, dist, item, offers: draw(random, many) }
}
