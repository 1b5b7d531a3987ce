//! One question to the table: two arrays with what they hold at first, and what is offered in turn.

use oracle::bits::hex;
use oracle::compare::plainer;
use std::cell::Cell;
use std::fmt::{Display, Formatter, Result};

/// A distance, and the item at it.
pub type Entry = (f64, u32);

#[derive(Clone, Default)]
pub struct Case {
    pub k: usize,
    /// How many entries are said to be in use.
    pub count: usize,
    pub dist: Vec<f64>,
    pub item: Vec<u32>,
    pub offers: Vec<f64>,
}

/// "The candidates sit in one fixed table of 512 places; k above 512 acts as 512."
pub fn at_most(k: usize) -> usize {
    k.min(512)
}

/// The item that is offered in this turn, no two alike.
pub fn item(turn: usize) -> u32 {
    (turn as u32).wrapping_mul(0x9e37_79b1)
}

impl Case {
    /// Places that both arrays have.
    pub fn places(&self) -> usize {
        self.dist.len().min(self.item.len())
    }

    /// How many entries are kept at most.
    pub fn room(&self) -> usize {
        at_most(self.k).min(self.places())
    }

    /// The table that is held at first.
    pub fn entries(&self) -> Vec<Entry> {
        let entries = self.dist.iter().copied().zip(self.item.iter().copied());
        entries.take(self.count).collect()
    }

    /// The case for a table that is one piece: arrays of 512 places, and a k of 32 bits.
    pub fn in_one_piece(&self) -> Case {
        let mut case = self.clone();
        case.k = case.k.min(u32::MAX as usize);
        case.dist.resize(512, 0.5);
        case.item.resize(512, 0x5555_5555);
        case
    }

    /// The case with its first offers only.
    pub fn first(&self, offers: usize) -> Case {
        Case { offers: self.offers[..offers].to_vec(), ..self.clone() }
    }

    /// Cases with less in them: fewer offers, shorter arrays, a smaller count or k.
    fn smaller(&self) -> impl Iterator<Item = Case> + '_ {
        let with = || self.clone();
        let offers = lists_without(&self.offers).into_iter().map(move |offers| Case { offers, ..with() });
        let dist = below(self.dist.len()).map(move |n| Case { dist: self.dist[..n].to_vec(), ..with() });
        let item = below(self.item.len()).map(move |n| Case { item: self.item[..n].to_vec(), ..with() });
        let count = below(self.count).map(move |count| Case { count, ..with() });
        let k = below(self.k).map(move |k| Case { k, ..with() });
        k.chain(count).chain(item).chain(dist).chain(offers)
    }

    /// Cases in which all numbers or one are plainer.
    fn plainer(&self) -> impl Iterator<Item = Case> + '_ {
        let lists = |numbers: &[f64]| zeros(numbers).into_iter().chain(plainer(numbers));
        let dist = lists(&self.dist).map(|dist| Case { dist, ..self.clone() });
        let offers = lists(&self.offers).map(|offers| Case { offers, ..self.clone() });
        dist.chain(offers)
    }

    /// As little of the case as still fails, or what is found in so many trials.
    pub fn smallest(self, fails: impl Fn(&Case) -> bool) -> Case {
        let mut case = self;
        let trials = Cell::new(20_000u32);
        let left = |_: &Case| trials.replace(trials.get().saturating_sub(1)) > 0;
        let find = |case: &Case| case.smaller().chain(case.plainer()).take_while(left).find(&fails);
        while let Some(smaller) = find(&case) {
            case = smaller;
        }
        case
    }
}

/// A list as long that is all 0, if this one is not.
fn zeros(numbers: &[f64]) -> Option<Vec<f64>> {
    let other = numbers.iter().any(|x| x.to_bits() != 0);
    other.then(|| vec![0.0; numbers.len()])
}

/// Smaller numbers to try.
fn below(number: usize) -> impl Iterator<Item = usize> {
    [0, number / 2, number.saturating_sub(1)].into_iter().filter(move |n| *n < number)
}

/// The lists that lack some numbers in a row: half of them, a quarter, and so on.
fn lists_without(numbers: &[f64]) -> Vec<Vec<f64>> {
    let mut lists = Vec::new();
    let mut many = numbers.len();
    while many > 0 {
        for from in (0..=numbers.len() - many).step_by(many) {
            lists.push([&numbers[..from], &numbers[from + many..]].concat());
        }
        many /= 2;
    }
    lists
}

/// Numbers by their bits; one that comes several times in a row is written once.
fn list(numbers: &[f64]) -> String {
    let runs = numbers.chunk_by(|a, b| a.to_bits() == b.to_bits());
    let written = runs.map(|run| match run.len() {
        1 => hex(run[0]),
        many => format!("{many} times {}", hex(run[0])),
    });
    written.collect::<Vec<_>>().join(",")
}

impl Display for Case {
    fn fmt(&self, f: &mut Formatter) -> Result {
        let (k, count, items) = (self.k, self.count, self.item.len());
        write!(f, "k {k}, count {count}, distances [{}], {items} items, ", list(&self.dist))?;
        write!(f, "offers [{}]", list(&self.offers))
    }
}
