//! Numbers to ask the geometry about: special values crossed, random bits, plain numbers, and
//! numbers that lie near each other's edges.

use crate::bits::{moved, special, SPECIAL};
use crate::random::Random;

/// What the numbers of a function mean.
#[derive(Clone, Copy, PartialEq)]
pub enum Form {
    Value,
    Ends,
    Side,
    ValueSide,
    BoxPlace(usize),
    BoxBox(usize),
    BoxChild(usize),
    PlacePlace(usize),
}

impl Form {
    /// How many floats are asked for.
    pub fn floats(self) -> usize {
        match self {
            Form::Value => 1,
            Form::Ends | Form::Side => 2,
            Form::ValueSide => 3,
            Form::BoxPlace(axes) => 3 * axes,
            Form::BoxBox(axes) => 4 * axes,
            Form::BoxChild(axes) | Form::PlacePlace(axes) => 2 * axes,
        }
    }

    /// How many children there are to choose from; 1 where none is asked for.
    pub fn children(self) -> usize {
        if let Form::BoxChild(axes) = self {
            1 << axes
        } else {
            1
        }
    }
}

/// The most positions that are crossed in full; the others are drawn from the special values.
const CROSSED: u32 = 3;

/// How many inputs cross the special values, of `count` in all.
pub fn crossings(form: Form, count: u64) -> u64 {
    let floats = form.floats() as u32;
    if floats <= CROSSED {
        (SPECIAL.len() as u64).pow(floats)
    } else {
        count / 2
    }
}

/// Fills in input number `i` of `count`, and gives the number of a child.
pub fn fill(form: Form, i: u64, count: u64, out: &mut [f64]) -> usize {
    let mut random = Random::new(i.wrapping_mul(0x2545_f491_4f6c_dd1d));
    let child = random.below(form.children() as u64) as usize;
    if i < crossings(form, count) {
        cross(i, &mut random, out);
        return child;
    }
    match random.below(4) {
        0 => out.iter_mut().for_each(|x| *x = f64::from_bits(random.bits())),
        1 => out.iter_mut().for_each(|x| *x = plain(&mut random)),
        _ => near(form, &mut random, out),
    }
    child
}

/// Three positions run through all special values, the next three in the next round, and so on.
fn cross(i: u64, random: &mut Random, out: &mut [f64]) {
    let many = SPECIAL.len() as u64;
    let round = i / many.pow(CROSSED);
    let mut digits = i;
    for position in 0..out.len() {
        let place = (position + round as usize) % out.len();
        if position < CROSSED as usize {
            out[place] = special(digits);
            digits /= many;
        } else {
            out[place] = special(random.bits());
        }
    }
}

/// A number with few digits, or a unit's share of one.
pub fn plain(random: &mut Random) -> f64 {
    let whole = random.between(-16, 16) as f64;
    match random.below(4) {
        0 => whole,
        1 => whole / 8.0,
        2 => whole * random.unit(),
        _ => whole * 2f64.powi(random.between(-60, 60) as i32),
    }
}

/// A corner and an extent of any size; where they are to fit, both finite and the extent not negative.
fn near_side(random: &mut Random, fits: bool) -> (f64, f64) {
    let any = |random: &mut Random| match random.below(3) {
        0 => plain(random),
        1 => special(random.bits()),
        _ => (random.unit() - 0.5) * 2f64.powi(random.between(-1070, 1020) as i32),
    };
    let corner = any(random);
    let extent = match random.below(4) {
        0 => any(random),
        1 => any(random).abs(),
        2 => corner.abs() * 2f64.powi(random.between(-60, 60) as i32),
        _ => moved(2f64.powi(random.between(-4, 4) as i32), random.between(-3, 3)),
    };
    let finite = |x: f64| if x.is_finite() { x } else { 1.0 };
    if fits {
        (finite(corner), finite(extent.abs()))
    } else {
        (corner, extent)
    }
}

/// A value on the corner, the midplane or the far edge of a side or between; near them if it need not fit.
fn near_value((corner, extent): (f64, f64), random: &mut Random, fits: bool) -> f64 {
    let edge = match random.below(4) {
        0 => corner,
        1 => corner + extent / 2.0,
        2 => corner + extent,
        _ => corner + extent * random.unit(),
    };
    let steps = random.between(-2, 2);
    moved(edge, if fits { 0 } else { steps })
}

/// The same value, or one near it if it need not fit; a zero has the other sign.
fn near_equal((value, extent): (f64, f64), random: &mut Random, fits: bool) -> f64 {
    match fits {
        true if value == 0.0 => -value,
        true => value,
        false => near_value((value, extent), random, false),
    }
}

/// A side that begins or, if it need not fit, ends at an edge of another.
fn touching(side: (f64, f64), random: &mut Random, fits: bool) -> (f64, f64) {
    let edge = near_value(side, random, fits);
    let extent = near_side(random, fits).1;
    if fits || random.once_in(2) {
        (edge, extent)
    } else {
        (edge - extent, extent)
    }
}

/// Two ends, the lower first, of which the upper is often far larger or just above.
fn near_ends(random: &mut Random) -> (f64, f64) {
    let hi = (random.unit() + 0.5) * 2f64.powi(random.between(-1073, 1020) as i32);
    let share = moved(hi * 2f64.powi(-(random.between(0, 60) as i32)), random.between(-3, 3));
    match random.below(3) {
        0 => (share, hi),
        1 => (-share, moved(hi, random.between(-3, 3))),
        _ => (-hi, share),
    }
}

/// Numbers near each other's edges. In half of the inputs all axes fit but for one or none, so that a
/// single axis decides.
fn near(form: Form, random: &mut Random, out: &mut [f64]) {
    let fit = random.once_in(2);
    let odd = random.below(6) as usize;
    let fits = |axis: usize| fit && axis != odd;
    match form {
        Form::Value => out[0] = moved(special(random.bits()), random.between(-3, 3)),
        Form::Ends => (out[0], out[1]) = near_ends(random),
        Form::Side => (out[0], out[1]) = near_side(random, fit),
        Form::ValueSide => {
            let side = near_side(random, fit);
            (out[0], out[1], out[2]) = (near_value(side, random, fit), side.0, side.1);
        }
        Form::BoxChild(axes) => (0..axes).for_each(|i| (out[i], out[i + axes]) = near_side(random, fits(i))),
        Form::BoxPlace(axes) => (0..axes).for_each(|i| {
            let side = near_side(random, fits(i));
            let value = near_value(side, random, fits(i));
            (out[i], out[i + axes], out[i + 2 * axes]) = (side.0, side.1, value);
        }),
        Form::BoxBox(axes) => (0..axes).for_each(|i| {
            let side = near_side(random, fits(i));
            (out[i], out[i + axes]) = side;
            (out[i + 2 * axes], out[i + 3 * axes]) = touching(side, random, fits(i));
        }),
        Form::PlacePlace(axes) => (0..axes).for_each(|i| {
            let side = near_side(random, fits(i));
            (out[i], out[i + axes]) = (side.0, near_equal(side, random, fits(i)));
        }),
    }
}
