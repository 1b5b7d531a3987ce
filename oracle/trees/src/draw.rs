//! Numbers, points and calls drawn at random, with a bent for the edges.

use crate::call::{Call, Room};
use crate::kind::Kind;
use crate::run::Run;
use lent::layout::{sides, volume};
use oracle::bits::special;
use oracle::generate::{on_grid, stepped_side};
use oracle::random::Random;
use ralikudo::generic::{Library, Point, Volume};

/// How places are drawn.
#[derive(Clone)]
pub enum Places<const N: usize> {
    Uniform,
    /// On corners, far edges and midplanes down to this depth, or a double or two off.
    Grid(i64),
    /// Closer and closer to these.
    Near(Vec<[f64; N]>),
    /// These only.
    Few(Vec<[f64; N]>),
    /// Special values, mostly ones inside.
    Special,
}

fn uniform<const N: usize>(random: &mut Random, r: &Volume<N>) -> [f64; N] {
    sides(r).map(|(corner, extent)| corner + extent * random.unit())
}

fn special_in(random: &mut Random, (corner, extent): (f64, f64)) -> f64 {
    let mut drawn = (0..30).map(|_| special(random.bits()));
    drawn.find(|v| corner <= *v && *v <= corner + extent).unwrap_or(corner)
}

impl<const N: usize> Places<N> {
    pub fn any(random: &mut Random, r: &Volume<N>) -> Self {
        let few = |random: &mut Random, most: i64| {
            (0..random.between(1, most)).map(|_| uniform(random, r)).collect::<Vec<_>>()
        };
        match random.below(8) {
            0 | 1 => Places::Uniform,
            2 => Places::Grid(*random.pick(&[1, 2, 3])),
            3 => Places::Grid(33),
            4 | 5 => Places::Near(few(random, 4)),
            6 => Places::Few(few(random, 3)),
            _ => Places::Special,
        }
    }

    pub fn draw(&self, random: &mut Random, r: &Volume<N>) -> [f64; N] {
        if random.once_in(40) {
            return odd(random, r);
        }
        match self {
            Places::Uniform => uniform(random, r),
            Places::Grid(deepest) => sides(r).map(|side| on_grid(random, side, *deepest)),
            Places::Near(centres) => {
                let centre = *random.pick(centres);
                let scale = 2f64.powi(-(random.between(1, 36) as i32));
                std::array::from_fn(|axis| centre[axis] + r.extent[axis] * scale * (random.unit() - 0.5))
            }
            Places::Few(places) => *random.pick(places),
            Places::Special => sides(r).map(|side| special_in(random, side)),
        }
    }
}

/// Just outside, far outside, or with a special value.
fn odd<const N: usize>(random: &mut Random, r: &Volume<N>) -> [f64; N] {
    let mut at = uniform(random, r);
    let axis = random.below(N as u64) as usize;
    let (corner, extent) = sides(r)[axis];
    at[axis] = match random.below(4) {
        0 => corner.next_down(),
        1 => (corner + extent).next_up(),
        2 => special(random.bits()),
        _ => corner - 2.0 * extent - 1.0,
    };
    at
}

/// A boundary that is accepted, except once in a while.
pub fn boundary<const N: usize>(random: &mut Random) -> Volume<N> {
    let most = 2f64.powi(500);
    let mut side = || match random.below(14) {
        0..=3 => (0.0, 8.0),
        4 => (-8.0, 16.0),
        5 => (random.unit() - 0.5, random.unit()),
        6 => (0.1, 0.7),
        7 | 8 => stepped_side(random),
        9 => (-most, most),
        10 => (3.0, *random.pick(&[0.0, -0.0])),
        11 => (-f64::from_bits(4), f64::from_bits(8)),
        12 => (1.0, 1e-20),
        _ => (*random.pick(&[0.0, -0.0, most]), most),
    };
    let mut made = volume(std::array::from_fn(|_| side()));
    if random.once_in(60) {
        let value = special(random.bits());
        let Volume { corner, extent } = &mut made;
        let mut numbers = corner.iter_mut().chain(extent);
        *numbers.nth(random.below(2 * N as u64) as usize).expect("one of them") = value;
    }
    made
}

pub fn capacity(random: &mut Random) -> u32 {
    match random.below(16) {
        0 => *random.pick(&[16, 100, 511, 512, 513, 1 << 16, (1 << 16) + 1, 1 << 31, u32::MAX]),
        1 if random.once_in(4) => 0,
        _ => random.between(1, 8) as u32,
    }
}

/// Mostly plenty; often just enough or one byte too few; or any.
pub fn room<const N: usize>(random: &mut Random) -> Room {
    let mut more = |size: i64| match random.below(12) {
        0 => 0,
        1 => -1,
        2 => -size,
        3 => random.between(1, 2 * size),
        4 => -random.between(1, 600 * size),
        _ => 40 * size,
    };
    Room { coords: more(8 * N as i64), payloads: more(4) }
}

fn widest<const N: usize>(r: &Volume<N>) -> f64 {
    r.extent.into_iter().fold(f64::NAN, f64::max)
}

fn radius<const N: usize>(random: &mut Random, r: &Volume<N>) -> f64 {
    match random.below(8) {
        0 => *random.pick(&[0.0, -0.0, -1.0, f64::NAN, f64::INFINITY, f64::NEG_INFINITY, -f64::from_bits(1)]),
        1 => special(random.bits()),
        _ => widest(r) * 2f64.powi(-(random.between(0, 12) as i32)) * random.unit(),
    }
}

pub fn k(random: &mut Random, held: usize) -> u32 {
    let n = held as u32;
    match random.below(3) {
        0 => {
            let edges = [0, 1, n.saturating_sub(1), n, n + 1, 511, 512, 513];
            *random.pick(&[&edges[..], &[1 << 16, (1 << 16) + 1, 1 << 31, u32::MAX]].concat())
        }
        _ => random.below(9) as u32,
    }
}

/// One of the points held, at times as an equal one that is not the same, or a point of these places.
pub fn held<const N: usize>(run: &mut Run<N>, places: &Places<N>, r: &Volume<N>) -> Point<N>
where
    Library: Kind<N>,
{
    let list = run.pair.rust.as_ref().map(|rust| rust.held()).unwrap_or_default();
    if list.is_empty() || run.random.once_in(12) {
        let at = places.draw(&mut run.random, r);
        return Point { at, payload: run.random.below(4) as u32 };
    }
    let mut point = *run.random.pick(&list);
    match run.random.below(12) as usize {
        0 => point.payload = point.payload.wrapping_add(1),
        axis if axis <= N => another(&mut point.at[axis - 1]),
        _ => {}
    }
    point
}

/// The other zero, or the next double.
fn another(x: &mut f64) {
    *x = if *x == 0.0 { -*x } else { x.next_up() };
}

/// A point with a new payload, or with one that others have.
pub fn point<const N: usize>(run: &mut Run<N>, places: &Places<N>, r: &Volume<N>) -> Point<N>
where
    Library: Kind<N>,
{
    let at = places.draw(&mut run.random, r);
    let payload = if run.random.once_in(4) { run.random.below(3) as u32 } else { run.next_payload() };
    Point { at, payload }
}

/// A query, drawn over the same places.
pub fn query<const N: usize>(run: &mut Run<N>, places: &Places<N>, r: &Volume<N>) -> Call<N>
where
    Library: Kind<N>,
{
    let many = run.pair.rust.as_ref().map_or(0, |rust| rust.len());
    let at = match run.random.below(4) {
        0 => held(run, places, r).at,
        _ => places.draw(&mut run.random, r),
    };
    let random = &mut run.random;
    match random.below(8) {
        0 => Call::Len,
        1 => Call::IsEmpty,
        2 | 3 => Call::Radius(at, radius(random, r), room::<N>(random)),
        4 | 5 => {
            let to = places.draw(random, r);
            let by_radius = random.once_in(4);
            let mut side = |axis| if by_radius { radius(random, r) } else { to[axis] - at[axis] };
            let extent = std::array::from_fn(&mut side);
            let query = if random.once_in(6) { *r } else { Volume { corner: at, extent } };
            Call::InBox(query, room::<N>(random))
        }
        _ => Call::Nearest(at, k(random, many), room::<N>(random)),
    }
}
