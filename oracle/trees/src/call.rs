//! The calls that both sides are asked.

use oracle::bits::hex;
use ralikudo::generic::{Point, Volume};
use std::fmt::{Display, Formatter, Result};

/// Bytes lent for an answer beyond what the answer takes; below 0 it is lent too few.
#[derive(Clone, Copy, Debug)]
pub struct Room {
    pub coords: i64,
    pub payloads: i64,
}

#[derive(Clone, Debug)]
pub enum Call<const N: usize> {
    Create(Volume<N>, u32),
    Insert(Point<N>),
    /// Points, and how many bytes the coordinates and the payloads have beyond those points, or fewer.
    Bulk(Vec<Point<N>>, Room),
    Delete(Point<N>),
    Contains(Point<N>),
    Len,
    IsEmpty,
    Clear,
    Radius([f64; N], f64, Room),
    InBox(Volume<N>, Room),
    Nearest([f64; N], u32, Room),
    /// No call: our tree gets other place numbers, drawn with this seed.
    Renumber(u64),
}

impl<const N: usize> Call<N> {
    /// The line of the coverage that counts it.
    pub fn name(&self) -> &'static str {
        match self {
            Call::Create(..) => "create",
            Call::Insert(_) => "insert",
            Call::Bulk(..) => "insert_bulk",
            Call::Delete(_) => "delete",
            Call::Contains(_) => "contains",
            Call::Len => "len",
            Call::IsEmpty => "is_empty",
            Call::Clear => "clear",
            Call::Radius(..) => "range_search",
            Call::InBox(..) => "range_search_bbox",
            Call::Nearest(..) => "knn_search",
            Call::Renumber(_) => "renumber",
        }
    }
}

fn numbers<const N: usize>(list: &[f64; N]) -> String {
    list.map(hex).join(" ")
}

fn point<const N: usize>(p: &Point<N>) -> String {
    format!("{} {}", numbers(&p.at), p.payload)
}

fn volume<const N: usize>(v: &Volume<N>) -> String {
    format!("{} {}", numbers(&v.corner), numbers(&v.extent))
}

impl Display for Room {
    fn fmt(&self, f: &mut Formatter) -> Result {
        if self.coords == 0 && self.payloads == 0 {
            return Ok(());
        }
        write!(f, " lent {:+} {:+}", self.coords, self.payloads)
    }
}

impl<const N: usize> Display for Call<N> {
    fn fmt(&self, f: &mut Formatter) -> Result {
        write!(f, "{}", self.name())?;
        match self {
            Call::Create(boundary, capacity) => write!(f, " {} {capacity}", volume(boundary)),
            Call::Insert(p) | Call::Delete(p) | Call::Contains(p) => write!(f, " {}", point(p)),
            Call::Bulk(points, room) => {
                let list: Vec<String> = points.iter().map(point).collect();
                write!(f, " [{}]{room}", list.join(", "))
            }
            Call::Radius(at, radius, room) => write!(f, " {} {}{room}", numbers(at), hex(*radius)),
            Call::InBox(query, room) => write!(f, " {}{room}", volume(query)),
            Call::Nearest(at, k, room) => write!(f, " {} {k}{room}", numbers(at)),
            Call::Renumber(seed) => write!(f, " {seed}"),
            Call::Len | Call::IsEmpty | Call::Clear => Ok(()),
        }
    }
}
