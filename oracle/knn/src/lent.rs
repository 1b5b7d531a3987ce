//! Memory that is lent as a table, with places around it that nobody may touch.

use crate::case::{Case, Entry};
use oracle::bits::alike;

/// Places on each side of what is lent.
const MARGIN: usize = 16;

struct Array<T> {
    all: Vec<T>,
    before: Vec<T>,
}

impl<T: Copy> Array<T> {
    fn new(held: &[T], around: T) -> Self {
        let margin = [around; MARGIN];
        let all = [&margin[..], held, &margin[..]].concat();
        Array { before: all.clone(), all }
    }

    fn lent(&mut self) -> &mut [T] {
        let end = self.all.len() - MARGIN;
        &mut self.all[MARGIN..end]
    }

    /// Whether every byte is as it was, but for the first lent places.
    fn untouched<B: PartialEq>(&self, but: usize, bits: fn(T) -> B) -> bool {
        let same = |i: usize| bits(self.all[i]) == bits(self.before[i]);
        (0..MARGIN).chain(MARGIN + but..self.all.len()).all(same)
    }
}

/// A table's two arrays.
pub struct Lent {
    dist: Array<f64>,
    item: Array<u32>,
}

impl Lent {
    pub fn new(case: &Case) -> Self {
        Lent { dist: Array::new(&case.dist, f64::NAN), item: Array::new(&case.item, 0xaaaa_aaaa) }
    }

    pub fn parts(&mut self) -> (&mut [f64], &mut [u32]) {
        (self.dist.lent(), self.item.lent())
    }

    /// Whether the first places hold these entries, and all others what they held.
    pub fn holds(&mut self, wanted: &[Entry]) -> Result<(), String> {
        let many = wanted.len();
        let (dist, item) = self.parts();
        let entry = |i: usize| (dist[i], item[i]);
        if let Some(i) = (0..many).find(|i| !same(entry(*i), wanted[*i])) {
            return Err(format!("place {i} holds {:?} and not {:?}", entry(i), wanted[i]));
        }
        let dists = self.dist.untouched(many, f64::to_bits);
        let items = self.item.untouched(many, |item| item);
        match (dists, items) {
            (true, true) => Ok(()),
            (false, _) => Err(format!("a distance beyond the first {many} was touched")),
            (_, false) => Err(format!("an item beyond the first {many} was touched")),
        }
    }
}

fn same(a: Entry, b: Entry) -> bool {
    alike(a.0, b.0) && a.1 == b.1
}
