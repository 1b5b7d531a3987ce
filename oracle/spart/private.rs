//! What the Rust keeps to its own crate, handed on.

/// `geometry::span`.
pub fn span(lo: f64, hi: f64) -> f64 {
    crate::geometry::span(lo, hi)
}

/// `geometry::axis_distance`, private in its module and so from the opened one.
pub fn axis_distance(v: f64, lo: f64, len: f64) -> f64 {
    crate::geometry_opened::opened_axis_distance(v, lo, len)
}

/// Offers the distances to a `KnnHeap` in order and gives the numbers of those kept, nearest first.
pub fn nearest(k: usize, distances: &[f64]) -> Vec<usize> {
    let mut heap = Heap::new(k);
    for (number, distance) in distances.iter().enumerate() {
        heap.offer(*distance, number);
    }
    heap.into_sorted_vec()
}

/// `knn::KnnHeap`.
pub struct Heap<T>(crate::knn::KnnHeap<T>);

impl<T> Heap<T> {
    pub fn new(k: usize) -> Self {
        Heap(crate::knn::KnnHeap::new(k))
    }

    pub fn worst(&self) -> f64 {
        self.0.worst()
    }

    pub fn offer(&mut self, distance: f64, item: T) {
        self.0.offer(distance, item)
    }

    pub fn into_sorted_vec(self) -> Vec<T> {
        self.0.into_sorted_vec()
    }
}

/// Whether x comes before y where the heap compares distances.
pub fn less(x: f64, y: f64) -> bool {
    ordered_float::OrderedFloat(x).cmp(&ordered_float::OrderedFloat(y)).is_lt()
}
