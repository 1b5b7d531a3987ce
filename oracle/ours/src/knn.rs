//! Our candidate table. A slice goes over as its pointer and its length.

extern "C" {
    fn probe_offer(
        dist: *mut f64,
        dist_len: usize,
        item: *mut u32,
        item_len: usize,
        count: usize,
        k: usize,
        distance: f64,
        place: u32,
    ) -> usize;
    fn probe_offer_to(table: *mut Table, distance: f64, place: u32);
    fn probe_worst(dist: *const f64, len: usize, count: usize, k: usize) -> f64;
    fn probe_order_children(dist: *mut f64, dist_len: usize, item: *mut u32, item_len: usize);
    // A yes or no is read as a byte, so that anything but 1 and 0 is noticed.
    fn probe_less(x: f64, y: f64) -> u8;
}

/// A table as one piece, laid out as our library has it.
#[repr(C)]
pub struct Table {
    pub dist: [f64; 512],
    pub item: [u32; 512],
    pub count: usize,
    pub k: u32,
}

// Each call below lends whole slices or a whole table, and the functions take any numbers beside them.

/// Offers a place at a distance to the first `count` entries: how many there are then.
pub fn offer(dist: &mut [f64], item: &mut [u32], count: usize, k: usize, distance: f64, place: u32) -> usize {
    let (dists, items) = (dist.len(), item.len());
    unsafe { probe_offer(dist.as_mut_ptr(), dists, item.as_mut_ptr(), items, count, k, distance, place) }
}

/// Offers a place at a distance to a table, which is altered where it stands.
pub fn offer_to(table: &mut Table, distance: f64, place: u32) {
    unsafe { probe_offer_to(table, distance, place) }
}

/// The distance that a candidate must beat.
pub fn worst(dist: &[f64], count: usize, k: usize) -> f64 {
    unsafe { probe_worst(dist.as_ptr(), dist.len(), count, k) }
}

/// Sorts node distances and writes the children's numbers beside them.
pub fn order_children(dist: &mut [f64], item: &mut [u32]) {
    unsafe { probe_order_children(dist.as_mut_ptr(), dist.len(), item.as_mut_ptr(), item.len()) }
}

/// Whether x stands before y in the table's own order: 1 or 0.
pub fn less(x: f64, y: f64) -> u8 {
    unsafe { probe_less(x, y) }
}
