//! Our table held against the Rust's heap, and against document 01's words.

use crate::case::{at_most, item, Case, Entry};
use crate::lent::Lent;
use oracle::bits::{alike, hex};
use oracle::rules::table::Table;
use ours::knn::Table as Piece;
use spart::private::Heap;

/// What tells how a table must come out.
pub trait Wanted {
    fn of(case: &Case) -> Self;
    fn offer(&mut self, distance: f64, item: u32);
    /// The distance that a candidate must beat, where this knows it.
    fn worst(&self) -> Option<f64>;
    fn entries(self) -> Vec<Entry>;
}

/// The Rust's heap, for a table that begins empty. It has the k that is asked for where that many are
/// not offered, else as many places as the table.
pub struct Rust {
    heap: Heap<Entry>,
    knows_worst: bool,
}

impl Wanted for Rust {
    fn of(case: &Case) -> Self {
        let room = case.room();
        let k = if case.offers.len() < room { case.k } else { room };
        // `worst` is lent the distances alone: fewer items than these are not seen there.
        Rust { heap: Heap::new(k), knows_worst: room == at_most(case.k).min(case.dist.len()) }
    }

    fn offer(&mut self, distance: f64, item: u32) {
        self.heap.offer(distance, (distance, item));
    }

    fn worst(&self) -> Option<f64> {
        self.knows_worst.then(|| self.heap.worst())
    }

    fn entries(self) -> Vec<Entry> {
        self.heap.into_sorted_vec()
    }
}

/// Document 01's words, for any table.
pub struct Rule(Table<u32>);

impl Wanted for Rule {
    fn of(case: &Case) -> Self {
        Rule(Table::holding(case.room(), case.entries()))
    }

    fn offer(&mut self, distance: f64, item: u32) {
        self.0.offer(distance, item);
    }

    fn worst(&self) -> Option<f64> {
        None
    }

    fn entries(self) -> Vec<Entry> {
        self.0.entries()
    }
}

/// +∞ while distances have room, −∞ where none is kept, else the last of them.
fn bar(dist: &[f64], count: usize, k: usize) -> f64 {
    let kept = &dist[..count.min(dist.len())];
    if kept.len() < at_most(k).min(dist.len()) {
        f64::INFINITY
    } else {
        *kept.last().unwrap_or(&f64::NEG_INFINITY)
    }
}

/// What our table does with a case, against what is wanted: `worst` at each turn, the rest at the end.
pub fn judge<W: Wanted>(case: &Case) -> Result<(), String> {
    let mut lent = Lent::new(case);
    let mut wanted = W::of(case);
    let mut count = case.count;
    let (dist, items) = lent.parts();
    for turn in 0..=case.offers.len() {
        let ours = ours::knn::worst(dist, count, case.k);
        for right in [Some(bar(dist, count, case.k)), wanted.worst()].into_iter().flatten() {
            if !alike(ours, right) {
                return Err(format!("after {turn} offers the worst is {} and not {}", hex(ours), hex(right)));
            }
        }
        if let Some(distance) = case.offers.get(turn) {
            count = ours::knn::offer(dist, items, count, case.k, *distance, item(turn));
            wanted.offer(*distance, item(turn));
        }
    }
    let entries = wanted.entries();
    if count != entries.len() && !case.offers.is_empty() {
        return Err(format!("the count is {count} and not {}", entries.len()));
    }
    lent.holds(&entries)
}

/// A table in one piece, with places around it that nobody may touch.
#[repr(C)]
struct Between {
    before: [u64; 16],
    table: Piece,
    after: [u64; 16],
}

/// The same of a table that is one piece and is altered where it stands: what it holds at the end.
pub fn judge_piece<W: Wanted>(case: &Case) -> Result<(), String> {
    let case = case.in_one_piece();
    let mut lent = Lent::new(&case);
    let mut wanted = W::of(&case);
    let (dist, items) = lent.parts();
    let table = Piece { dist: array(dist), item: array(items), count: case.count, k: case.k as u32 };
    let mut between = Box::new(Between { before: [AROUND; 16], table, after: [AROUND; 16] });
    let table = &mut between.table;
    for (turn, distance) in case.offers.iter().enumerate() {
        ours::knn::offer_to(table, *distance, item(turn));
        wanted.offer(*distance, item(turn));
    }
    let (entries, offered) = (wanted.entries(), !case.offers.is_empty());
    if table.count != entries.len() && offered {
        return Err(format!("the count is {} and not {}", table.count, entries.len()));
    }
    dist.copy_from_slice(&table.dist);
    items.copy_from_slice(&table.item);
    if table.k as usize != case.k || between.before != [AROUND; 16] || between.after != [AROUND; 16] {
        return Err("k or what lies around the table was touched".to_string());
    }
    lent.holds(&entries)
}

const AROUND: u64 = 0xaaaa_aaaa_aaaa_aaaa;

fn array<T: Copy + Default>(slice: &[T]) -> [T; 512] {
    let mut array = [T::default(); 512];
    array.copy_from_slice(slice);
    array
}
