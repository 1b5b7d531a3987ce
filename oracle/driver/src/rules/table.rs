//! The candidate table: "an explicit table in which a newcomer is swapped past its neighbours".

/// Entries, each a distance and what it stands for, ordered by distance and then arrival; with k of them it is full.
pub struct Table<T> {
    k: usize,
    entries: Vec<(f64, T)>,
}

/// "In the table's own order NaN equals NaN and exceeds all else."
pub fn before(a: f64, b: f64) -> bool {
    a < b || (!a.is_nan() && b.is_nan())
}

impl<T> Table<T> {
    pub fn new(k: usize) -> Self {
        Self::holding(k, Vec::new())
    }

    /// A table with these entries, which may be out of order or more than k.
    pub fn holding(k: usize, entries: Vec<(f64, T)>) -> Self {
        Table { k, entries }
    }

    /// "A full table turns away a distance ≥ the worst, else drops its last by (distance, arrival)."
    /// An empty one is full for k = 0 alone, and keeps nothing.
    pub fn offer(&mut self, distance: f64, item: T) {
        if self.entries.len() >= self.k {
            if self.entries.last().is_none_or(|(worst, _)| distance >= *worst) {
                return;
            }
            self.entries.pop();
        }
        let mut place = self.entries.len();
        self.entries.push((distance, item));
        while place > 0 && before(distance, self.entries[place - 1].0) {
            self.entries.swap(place, place - 1);
            place -= 1;
        }
    }

    pub fn entries(self) -> Vec<(f64, T)> {
        self.entries
    }

    /// "Output is by distance, then arrival."
    pub fn items(self) -> Vec<T> {
        self.entries.into_iter().map(|(_, item)| item).collect()
    }
}
