//! What each side does with the same points.

use super::calls::Calls;
use super::others::{Choice, Other};
use super::ours::Ours;
use super::{area, places, read, unordered, Call, Query, ASKED, MANY};
use crate::benchmark::{Side, INPUTS};
use oracle::random::Random;
use oracle::space::Space;
use ralikudo::generic::{Axes, Library, Point, Volume};
use spart::index::SpatialIndex;
use std::cell::RefCell;
use std::marker::PhantomData;
use std::rc::Rc;

/// The points, and the capacity of our tree and of the Rust's.
pub struct Case<S, const N: usize> {
    pub rust: PhantomData<S>,
    pub input: &'static str,
    pub capacity: u32,
    pub points: Rc<Vec<Point<N>>>,
}

fn stored<E>(insert: Result<bool, E>) -> bool {
    matches!(insert, Ok(true))
}

/// The questions of the round on this input.
fn round<T>(asked: &[T], input: usize) -> &[T] {
    &asked[ASKED * input..ASKED * (input + 1)]
}

/// A side that changes what it holds, which is put back before each round.
fn changing<T: 'static>(
    held: T,
    back: impl Fn(&mut T) + 'static,
    work: impl Fn(&mut T) -> u64 + 'static,
) -> Side {
    let held = Rc::new(RefCell::new(held));
    let again = held.clone();
    Side::prepared(move || back(&mut again.borrow_mut()), move |_| work(&mut held.borrow_mut()))
}

impl<S: Space, const N: usize> Case<S, N>
where
    Library: Axes<N>,
{
    fn item(p: &Point<N>) -> S::Item {
        S::item(&p.at, p.payload)
    }

    fn volume(v: Volume<N>) -> S::Volume {
        S::volume(&[v.corner, v.extent].concat())
    }

    pub fn full<C: Calls<N>>(&self) -> Ours<C, N> {
        let mut ours = Ours::new(self.capacity);
        for point in self.points.iter() {
            assert_eq!(ours.insert(point), 0, "every point finds room");
        }
        ours
    }

    fn empty_rust(&self) -> S::Tree {
        S::tree(&Self::volume(area()), self.capacity as usize).expect("the capacity is not 0")
    }

    fn full_rust(&self) -> S::Tree {
        let mut rust = self.empty_rust();
        let stored = self.points.iter().filter(|point| stored(rust.insert(Self::item(point)))).count();
        assert_eq!(stored, MANY, "every point is inside");
        rust
    }

    /// The points in another order than they came.
    fn shuffled(&self) -> Vec<Point<N>> {
        let mut order = self.points.to_vec();
        Random::new(3).shuffle(&mut order);
        order
    }

    /// Held points and others, half and half.
    fn asked(&self) -> Vec<Point<N>> {
        let mut random = Random::new(5);
        let point = |i| {
            let point = *random.pick(&self.points);
            Point { payload: if i % 2 == 0 { point.payload } else { 9999 }, ..point }
        };
        (0..INPUTS * ASKED).map(point).collect()
    }

    /// Our calls of kind C. With `sets` the number made from an answer does not depend on its order.
    pub fn ours<C: Calls<N>>(&self, call: Call, sets: bool) -> Side {
        let capacity = self.capacity;
        match call {
            Call::Inserts => {
                let points = self.points.clone();
                let work = move |ours: &mut Ours<C, N>| points.iter().map(|p| 1 - ours.insert(p)).sum();
                changing(Ours::new(capacity), move |ours| ours.empty(capacity), work)
            }
            Call::Deletes => {
                let (order, full) = (self.shuffled(), self.full::<C>());
                let whole = full.pieces.clone();
                let work = move |ours: &mut Ours<C, N>| order.iter().map(|p| 1 - ours.delete(p)).sum();
                changing(full, move |ours| *ours.pieces = (*whole).clone(), work)
            }
            Call::Contains => {
                let (asked, ours) = (self.asked(), self.full::<C>());
                Side::new(move |i| round(&asked, i).iter().map(|p| u64::from(ours.contains(p))).sum())
            }
            Call::Search(query) => {
                let (ours, places) = (RefCell::new(self.full::<C>()), places(self.input, INPUTS, 2));
                Side::new(move |i| {
                    let mut ours = ours.borrow_mut();
                    let found = ours.search(query, places[i]);
                    if sets {
                        unordered(found)
                    } else {
                        read(found)
                    }
                })
            }
        }
    }

    pub fn rust(&self, call: Call) -> Side {
        match call {
            Call::Inserts => {
                let (points, empty) = (self.points.clone(), self.empty_rust());
                let work = move |rust: &mut S::Tree| {
                    points.iter().map(|p| u64::from(stored(rust.insert(Self::item(p))))).sum()
                };
                changing(empty.clone(), move |rust| *rust = empty.clone(), work)
            }
            Call::Deletes => {
                let items: Vec<S::Item> = self.shuffled().iter().map(Self::item).collect();
                let full = self.full_rust();
                let work = move |rust: &mut S::Tree| items.iter().map(|p| u64::from(rust.delete(p))).sum();
                changing(full.clone(), move |rust| *rust = full.clone(), work)
            }
            Call::Contains => {
                let items: Vec<S::Item> = self.asked().iter().map(Self::item).collect();
                let rust = self.full_rust();
                Side::new(move |i| round(&items, i).iter().map(|p| u64::from(rust.contains(p))).sum())
            }
            Call::Search(query) => self.rust_search(query),
        }
    }

    fn rust_search(&self, query: Query) -> Side {
        let places = places(self.input, INPUTS, 2);
        let centres: Vec<S::Item> = places.iter().map(|at| S::item(at, 0)).collect();
        let extent = if let Query::InBox(extent) = query { [extent; N] } else { [0.0; N] };
        let boxes: Vec<S::Volume> =
            places.iter().map(|at| Self::volume(Volume { corner: *at, extent })).collect();
        let rust = self.full_rust();
        Side::new(move |i| {
            let found = match query {
                Query::Radius(radius) => rust.range_search::<S::Metric>(&centres[i], radius),
                Query::InBox(_) => rust.range_search_bbox(&boxes[i]),
                Query::Nearest(k) => rust.knn_search::<S::Metric>(&centres[i], k as usize),
            };
            read(found.into_iter().map(S::payload))
        })
    }

    /// A choice instead of a tree, where it has such a call.
    pub fn other(&self, choice: Choice<N>, call: Call) -> Option<Side> {
        let points = self.points.clone();
        match call {
            Call::Inserts if choice.changes => {
                self.changes_right(choice);
                let insert = |other: &mut Box<dyn Other<N>>, p: &Point<N>| {
                    other.insert(p);
                    1
                };
                Some(changing(
                    (choice.of)(&[]),
                    move |other| *other = (choice.of)(&[]),
                    move |other| points.iter().map(|p| insert(other, p)).sum(),
                ))
            }
            Call::Deletes if choice.changes => {
                let order = self.shuffled();
                Some(changing(
                    (choice.of)(&points),
                    move |other| *other = (choice.of)(&points),
                    move |other| order.iter().map(|p| u64::from(other.delete(p))).sum(),
                ))
            }
            Call::Search(query) if choice.searches && (choice.boxes || !matches!(query, Query::InBox(_))) => {
                let (other, places) = ((choice.of)(&points), places(self.input, INPUTS, 2));
                let out = RefCell::new([0; MANY]);
                Some(Side::new(move |i| {
                    let out = &mut *out.borrow_mut();
                    let count = other.search(query, places[i], out);
                    unordered(out[..count].iter().copied())
                }))
            }
            _ => None,
        }
    }

    /// Stops where points do not all go in, or not all come out again.
    fn changes_right(&self, choice: Choice<N>) {
        let (mut other, mut out) = ((choice.of)(&[]), [0; MANY]);
        let everywhere = Query::Radius(1e6);
        self.points.iter().for_each(|p| other.insert(p));
        assert_eq!(other.search(everywhere, [0.0; N], &mut out), MANY, "{} takes every point", choice.name);
        self.shuffled().iter().for_each(|p| assert!(other.delete(p)));
        assert_eq!(other.search(everywhere, [0.0; N], &mut out), 0, "{} lets go of every point", choice.name);
    }
}
