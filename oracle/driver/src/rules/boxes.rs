//! "Boxes and routing" and the distances of "Searching".

/// The corner and the extent of one axis of a box.
pub fn side(sides: &[f64], axis: usize) -> (f64, f64) {
    (sides[axis], sides[axis + sides.len() / 2])
}

/// The box of these sides.
pub fn joined(sides: impl IntoIterator<Item = (f64, f64)>) -> Vec<f64> {
    let (mut corners, extents): (Vec<f64>, Vec<f64>) = sides.into_iter().unzip();
    corners.extend(extents);
    corners
}

/// "The far edge is corner + extent, computed."
pub fn far((corner, extent): (f64, f64)) -> f64 {
    corner + extent
}

/// "Midplane: corner + extent/2."
pub fn midplane((corner, extent): (f64, f64)) -> f64 {
    corner + extent / 2.0
}

/// "Inside: corner ≤ v ≤ far edge on each axis."
pub fn inside(sides: &[f64], at: &[f64]) -> bool {
    (0..at.len()).all(|i| {
        let s = side(sides, i);
        s.0 <= at[i] && at[i] <= far(s)
    })
}

/// "Boxes meet where each one's corner is ≤ the other's far edge on every axis."
pub fn meets(a: &[f64], b: &[f64]) -> bool {
    (0..a.len() / 2).all(|i| {
        let (s, t) = (side(a, i), side(b, i));
        s.0 <= far(t) && t.0 <= far(s)
    })
}

/// The least double above x, by its bits.
pub fn next_up(x: f64) -> f64 {
    let bits = x.to_bits();
    if x.is_nan() || x == f64::INFINITY {
        x
    } else if x == 0.0 {
        f64::from_bits(1)
    } else if x > 0.0 {
        f64::from_bits(bits + 1)
    } else {
        f64::from_bits(bits - 1)
    }
}

/// "hi − lo, then while positive and finite and lo + length < hi, the next double up, at most four times."
pub fn span(lo: f64, hi: f64) -> f64 {
    let mut length = hi - lo;
    for _ in 0..4 {
        if length > 0.0 && length.is_finite() && lo + length < hi {
            length = next_up(length);
        }
    }
    length
}

/// "A split gives child corners at the corner or midplane and extents by span."
pub fn half(s: (f64, f64), high: bool) -> (f64, f64) {
    let middle = midplane(s);
    if high {
        (middle, span(middle, far(s)))
    } else {
        (s.0, span(s.0, middle))
    }
}

/// "A point with v ≥ midplane goes to the high side. Bit 0 is x, bit 1 y, bit 2 z."
pub fn route(sides: &[f64], at: &[f64]) -> usize {
    let turn = |i: usize| usize::from(at[i] >= midplane(side(sides, i)));
    (0..at.len()).map(|i| turn(i) << i).sum()
}

/// The box of a child.
pub fn part(sides: &[f64], child: usize) -> Vec<f64> {
    joined((0..sides.len() / 2).map(|i| half(side(sides, i), child >> i & 1 == 1)))
}

/// "Axis distance: corner − v below the corner, v − far edge above it, otherwise 0."
pub fn axis_distance(v: f64, s: (f64, f64)) -> f64 {
    if v < s.0 {
        s.0 - v
    } else if v > far(s) {
        v - far(s)
    } else {
        0.0
    }
}

/// Each product rounded once, "added x, y, then z".
fn sum_of_squares(numbers: impl Iterator<Item = f64>) -> f64 {
    numbers.map(|d| d * d).reduce(|sum, square| sum + square).unwrap_or(0.0)
}

/// "Squared distance: each difference and product rounded once."
pub fn squared(a: &[f64], b: &[f64]) -> f64 {
    sum_of_squares((0..a.len()).map(|i| a[i] - b[i]))
}

/// "Node distance is the sum of squares in the same order."
pub fn node_distance(sides: &[f64], at: &[f64]) -> f64 {
    sum_of_squares((0..at.len()).map(|i| axis_distance(at[i], side(sides, i))))
}

/// "Equality: all coordinates equal as floats", payloads apart.
pub fn same(a: &[f64], b: &[f64]) -> bool {
    (0..a.len()).all(|i| a[i] == b[i])
}
