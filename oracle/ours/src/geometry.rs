//! Our compiled geometry, as functions on lists of numbers.

use oracle::functions::{Answer, Ask};

#[repr(C)]
struct Rectangle([f64; 4]);
#[repr(C)]
struct Cube([f64; 6]);
#[repr(C)]
struct Point2D([f64; 2]);
#[repr(C)]
struct Point3D([f64; 3]);

// A yes or no is read as a byte, so that anything but 1 and 0 is noticed.
extern "C" {
    fn probe_span(lo: f64, hi: f64) -> f64;
    fn probe_axis_distance(v: f64, lo: f64, len: f64) -> f64;
    fn probe_midplane(corner: f64, extent: f64) -> f64;
    fn probe_next_up(x: f64) -> f64;
    fn probe_to_bits(x: f64) -> u64;
    fn probe_from_bits(b: u64) -> f64;
}

/// The byte that a C function gave for yes or no.
fn yes(byte: u8) -> Answer {
    if byte < 2 {
        Answer::Yes(byte == 1)
    } else {
        Answer::Index(byte.into())
    }
}

/// A child's number as it is, or with bits above it that do not count.
fn any_number(numbers: &[f64], child: usize) -> usize {
    let children = 1 << (numbers.len() / 2);
    let above = (numbers[0].to_bits() >> 8) as usize;
    if above % 2 == 0 {
        child
    } else {
        child + children * above
    }
}

/// The numbers from place `from` on.
fn part<const N: usize>(numbers: &[f64], from: usize) -> [f64; N] {
    std::array::from_fn(|i| numbers[from + i])
}

macro_rules! of_space {
    ($module:ident, $volume:ident $sides:literal, $point:ident $axes:literal, $contains:ident,
     $intersects:ident, $child_index:ident, $child:ident, $node:ident, $squared:ident, $same:ident) => {
        mod $module {
            use super::*;

            extern "C" {
                fn $contains(volume: $volume, point: $point) -> u8;
                fn $intersects(a: $volume, b: $volume) -> u8;
                fn $child_index(volume: $volume, point: $point) -> usize;
                fn $child(volume: $volume, number: usize) -> $volume;
                fn $node(volume: $volume, point: $point) -> f64;
                fn $squared(a: $point, b: $point) -> f64;
                fn $same(a: $point, b: $point) -> u8;
            }

            fn volume(n: &[f64], from: usize) -> $volume {
                $volume(part(n, from))
            }
            fn point(n: &[f64], from: usize) -> $point {
                $point(part(n, from))
            }

            // Each call below hands over values only, and the functions take any bits.
            pub const ASK: [Ask; 7] = [
                |n, _| yes(unsafe { $contains(volume(n, 0), point(n, $sides)) }),
                |n, _| yes(unsafe { $intersects(volume(n, 0), volume(n, $sides)) }),
                |n, _| Answer::Index(unsafe { $child_index(volume(n, 0), point(n, $sides)) }),
                |n, i| Answer::Sides(unsafe { $child(volume(n, 0), any_number(n, i)) }.0.to_vec()),
                |n, _| Answer::Float(unsafe { $node(volume(n, 0), point(n, $sides)) }),
                |n, _| Answer::Float(unsafe { $squared(point(n, 0), point(n, $axes)) }),
                |n, _| yes(unsafe { $same(point(n, 0), point(n, $axes)) }),
            ];
        }
    };
}

of_space!(plane, Rectangle 4, Point2D 2, probe_contains_2d, probe_intersects_2d, probe_child_index_2d,
          probe_child_2d, probe_min_distance_sq_2d, probe_distance_sq_2d, probe_same_2d);
of_space!(solid, Cube 6, Point3D 3, probe_contains_3d, probe_intersects_3d, probe_child_index_3d,
          probe_child_3d, probe_min_distance_sq_3d, probe_distance_sq_3d, probe_same_3d);

/// Ours, in the order of `functions::all`, and then the two conversions of bits.
pub fn all() -> Vec<Ask> {
    let of_one_axis: [Ask; 4] = [
        |n, _| Answer::Float(unsafe { probe_span(n[0], n[1]) }),
        |n, _| Answer::Float(unsafe { probe_axis_distance(n[0], n[1], n[2]) }),
        |n, _| Answer::Float(unsafe { probe_midplane(n[0], n[1]) }),
        |n, _| Answer::Float(unsafe { probe_next_up(n[0]) }),
    ];
    let of_bits: [Ask; 2] = [
        |n, _| Answer::Index(unsafe { probe_to_bits(n[0]) } as usize),
        |n, _| Answer::Float(unsafe { probe_from_bits(n[0].to_bits()) }),
    ];
    [&of_one_axis[..], &plane::ASK, &solid::ASK, &of_bits].concat()
}
