//! What stands beside the trees besides the Rust: a plain scan of the points, and what a user might pick instead
//! from Debian's packages.

use super::{Query, MANY};
use ralikudo::generic::Point;

/// Something that holds points. An answer is the payloads found, in any order, at the front of `out`, and their
/// count.
pub trait Other<const N: usize> {
    fn insert(&mut self, point: &Point<N>);
    fn delete(&mut self, point: &Point<N>) -> bool;
    fn search(&self, query: Query, at: [f64; N], out: &mut [u32; MANY]) -> usize;
}

/// One of them, what it can do, and how it is made of points with the payloads 0, 1 and so on.
#[derive(Clone, Copy)]
pub struct Choice<const N: usize> {
    pub name: &'static str,
    pub changes: bool,
    pub searches: bool,
    pub boxes: bool,
    pub of: fn(&[Point<N>]) -> Box<dyn Other<N>>,
}

pub fn choices<const N: usize>() -> Vec<Choice<N>> {
    let scan: fn(&[Point<N>]) -> Box<dyn Other<N>> = |points| Box::new(Scan(points.to_vec()));
    let mut all = vec![Choice { name: "a scan", changes: true, searches: true, boxes: true, of: scan }];
    all.extend(packages::choices());
    all
}

/// All points, one after the other.
struct Scan<const N: usize>(Vec<Point<N>>);

fn squared<const N: usize>(a: [f64; N], b: [f64; N]) -> f64 {
    (0..N).map(|i| (a[i] - b[i]) * (a[i] - b[i])).sum()
}

impl<const N: usize> Scan<N> {
    fn those(&self, out: &mut [u32; MANY], wanted: impl Fn([f64; N]) -> bool) -> usize {
        let mut count = 0;
        for point in &self.0 {
            if wanted(point.at) {
                out[count] = point.payload;
                count += 1;
            }
        }
        count
    }

    fn nearest(&self, at: [f64; N], k: usize, out: &mut [u32; MANY]) -> usize {
        let mut all: Vec<(f64, u32)> = self.0.iter().map(|p| (squared(p.at, at), p.payload)).collect();
        let by_distance = |a: &(f64, u32), b: &(f64, u32)| a.0.total_cmp(&b.0);
        if k < all.len() {
            all.select_nth_unstable_by(k, by_distance);
            all.truncate(k);
        }
        all.sort_unstable_by(by_distance);
        for (place, found) in out.iter_mut().zip(&all) {
            *place = found.1;
        }
        all.len()
    }
}

impl<const N: usize> Other<N> for Scan<N> {
    fn insert(&mut self, point: &Point<N>) {
        self.0.push(*point);
    }
    fn delete(&mut self, point: &Point<N>) -> bool {
        let found = self.0.iter().position(|p| p.at == point.at && p.payload == point.payload);
        found.map(|i| self.0.swap_remove(i)).is_some()
    }
    fn search(&self, query: Query, at: [f64; N], out: &mut [u32; MANY]) -> usize {
        match query {
            Query::Radius(radius) => self.those(out, |p| squared(p, at) <= radius * radius),
            Query::InBox(extent) => {
                self.those(out, |p| (0..N).all(|i| at[i] <= p[i] && p[i] <= at[i] + extent))
            }
            Query::Nearest(k) => self.nearest(at, k as usize, out),
        }
    }
}

#[cfg(not(others))]
mod packages {
    pub fn choices<const N: usize>() -> Vec<super::Choice<N>> {
        Vec::new()
    }
}

/// Those of `others/others.cc`.
#[cfg(others)]
mod packages {
    use super::{Choice, Other, Point, Query, MANY};

    enum Index {}

    extern "C" {
        fn others_new(kind: i32, axes: i32) -> *mut Index;
        fn others_free(index: *mut Index);
        fn others_fill(index: *mut Index, at: *const f64, n: u32);
        fn others_insert(index: *mut Index, at: *const f64, payload: u32);
        fn others_remove(index: *mut Index, at: *const f64, payload: u32) -> bool;
        fn others_radius(index: *const Index, at: *const f64, radius: f64, out: *mut u32) -> u32;
        fn others_box(index: *const Index, low: *const f64, high: *const f64, out: *mut u32) -> u32;
        fn others_nearest(index: *const Index, at: *const f64, k: u32, out: *mut u32) -> u32;
    }

    struct Held(*mut Index);

    fn held<const N: usize>(kind: i32, points: &[Point<N>]) -> Box<dyn Other<N>> {
        let at: Vec<f64> = points.iter().flat_map(|p| p.at).collect();
        let index = unsafe { others_new(kind, N as i32) };
        unsafe { others_fill(index, at.as_ptr(), points.len() as u32) };
        Box::new(Held(index))
    }

    pub fn choices<const N: usize>() -> Vec<Choice<N>> {
        let (boost, fixed, dynamic) = (|p: &[_]| held(0, p), |p: &[_]| held(1, p), |p: &[_]| held(2, p));
        vec![
            Choice { name: "Boost.Geometry", changes: true, searches: true, boxes: true, of: boost },
            Choice { name: "nanoflann", changes: false, searches: true, boxes: false, of: fixed },
            Choice { name: "nanoflann, dynamic", changes: true, searches: false, boxes: false, of: dynamic },
        ]
    }

    impl Drop for Held {
        fn drop(&mut self) {
            unsafe { others_free(self.0) }
        }
    }

    // Every index holds at most MANY points, so that no answer is longer than `out`.
    impl<const N: usize> Other<N> for Held {
        fn insert(&mut self, point: &Point<N>) {
            unsafe { others_insert(self.0, point.at.as_ptr(), point.payload) }
        }
        fn delete(&mut self, point: &Point<N>) -> bool {
            unsafe { others_remove(self.0, point.at.as_ptr(), point.payload) }
        }
        fn search(&self, query: Query, at: [f64; N], out: &mut [u32; MANY]) -> usize {
            let (index, at, out) = (self.0, at, out.as_mut_ptr());
            let count = match query {
                Query::Radius(radius) => unsafe { others_radius(index, at.as_ptr(), radius, out) },
                Query::InBox(extent) => {
                    let high = at.map(|v| v + extent);
                    unsafe { others_box(index, at.as_ptr(), high.as_ptr(), out) }
                }
                Query::Nearest(k) => unsafe { others_nearest(index, at.as_ptr(), k, out) },
            };
            count as usize
        }
    }
}
