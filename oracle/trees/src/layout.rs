//! How a tree with N axes lies in its pieces, read and written word by word.

use oracle::room::most_nodes;
use ralikudo::generic::Volume;

/// Places are 1 to 512, and groups 1 to `groups(N)`.
pub const PLACES: usize = 512;
pub const ROOT: usize = 1;
pub const DEEPEST: usize = 32;

/// The words of a node: its group of children or 0, the first and the last place of its list, its count.
pub const GROUP: usize = 0;
pub const FIRST: usize = 1;
pub const LAST: usize = 2;
pub const COUNT: usize = 3;

/// A box by its sides, each a corner and an extent.
pub type Sides<const N: usize> = [(f64, f64); N];

/// A box as a call takes it, by its sides.
pub fn sides<const N: usize>(volume: &Volume<N>) -> Sides<N> {
    std::array::from_fn(|axis| (volume.corner[axis], volume.extent[axis]))
}

pub fn volume<const N: usize>(sides: Sides<N>) -> Volume<N> {
    Volume { corner: sides.map(|side| side.0), extent: sides.map(|side| side.1) }
}

/// A box with this corner and extent on every axis.
pub fn even<const N: usize>(corner: f64, extent: f64) -> Volume<N> {
    volume([(corner, extent); N])
}

/// The children of a divided node.
pub const fn ways(axes: usize) -> usize {
    1 << axes
}

/// The groups of children that there are: 85 of four, or 40 of eight.
pub const fn groups(axes: usize) -> usize {
    (most_nodes(axes) - 1) / ways(axes)
}

/// Nodes that have words: the header, the root and unused ones, then the groups.
pub const fn node_places(axes: usize) -> usize {
    ways(axes) * (groups(axes) + 1)
}

/// The node of a child: group g has the nodes `ways`·g and after.
pub const fn node(axes: usize, group: usize, child: usize) -> usize {
    ways(axes) * group + child
}

/// Words of a point's place: the coordinates, the payload and a spare one.
pub const fn point_words(axes: usize) -> usize {
    2 * (axes + 1)
}

/// The word of the head that is the capacity; the spare one is behind it.
pub const fn capacity_word(axes: usize) -> usize {
    4 * axes
}

/// Lengths of head, nodes, links and points.
pub const fn lengths(axes: usize) -> [usize; 4] {
    let places = PLACES + 1;
    [16 * axes + 8, 16 * node_places(axes), 4 * places, 4 * point_words(axes) * places]
}

/// A word; outside the piece it is 0.
pub fn word(bytes: &[u8], number: usize) -> u32 {
    let four = bytes.get(4 * number..4 * number + 4);
    four.map_or(0, |four| u32::from_le_bytes([four[0], four[1], four[2], four[3]]))
}

/// Sets a word; outside the piece nothing is set.
pub fn set_word(bytes: &mut [u8], number: usize, value: u32) {
    if let Some(four) = bytes.get_mut(4 * number..4 * number + 4) {
        four.copy_from_slice(&value.to_le_bytes());
    }
}

/// The float in two words, of which this is the first.
pub fn float(bytes: &[u8], first: usize) -> f64 {
    f64::from_bits(u64::from(word(bytes, first)) | u64::from(word(bytes, first + 1)) << 32)
}

pub fn set_float(bytes: &mut [u8], first: usize, value: f64) {
    set_word(bytes, first, value.to_bits() as u32);
    set_word(bytes, first + 1, (value.to_bits() >> 32) as u32);
}

/// The boundary that a head holds: the corners, then the extents.
pub fn boundary<const N: usize>(head: &[u8]) -> Sides<N> {
    std::array::from_fn(|axis| (float(head, 2 * axis), float(head, 2 * (N + axis))))
}

/// The coordinates of the point in a place.
pub fn at<const N: usize>(points: &[u8], place: usize) -> [f64; N] {
    std::array::from_fn(|axis| float(points, point_words(N) * place + 2 * axis))
}

/// The payload of a point with N axes.
pub fn payload<const N: usize>(points: &[u8], place: usize) -> u32 {
    word(points, point_words(N) * place + 2 * N)
}

pub fn set_point<const N: usize>(points: &mut [u8], place: usize, at: [f64; N], payload: u32) {
    let first = point_words(N) * place;
    at.into_iter().zip(0..).for_each(|(x, axis)| set_float(points, first + 2 * axis, x));
    set_word(points, first + 2 * N, payload);
}

/// A word of a node.
pub fn field(nodes: &[u8], node: usize, which: usize) -> usize {
    word(nodes, 4 * node + which) as usize
}

pub fn set_field(nodes: &mut [u8], node: usize, which: usize, value: usize) {
    set_word(nodes, 4 * node + which, value as u32);
}

/// The list of places from this one on. On pieces that are not sound it ends after as many as there are.
pub fn chain(links: &[u8], first: usize) -> Vec<usize> {
    let mut list = Vec::new();
    let mut place = first;
    while place != 0 && place <= PLACES && list.len() < PLACES {
        list.push(place);
        place = word(links, place) as usize;
    }
    list
}

/// The free groups in their order; it ends as `chain` does.
pub fn free_groups(axes: usize, nodes: &[u8]) -> Vec<usize> {
    let mut list = Vec::new();
    let mut group = field(nodes, 0, GROUP);
    while group != 0 && group <= groups(axes) && list.len() < groups(axes) {
        list.push(group);
        group = field(nodes, node(axes, group, 0), GROUP);
    }
    list
}

/// The free places in their order.
pub fn free_places(links: &[u8]) -> Vec<usize> {
    chain(links, word(links, 0) as usize)
}

/// The nodes of a tree with their depths, each before its children. Pieces that are not sound may be read too:
/// a group comes once.
pub fn tree_nodes(axes: usize, nodes: &[u8]) -> Vec<(usize, usize)> {
    let mut seen = vec![false; groups(axes) + 1];
    let mut list = vec![];
    let mut left = vec![(ROOT, 0)];
    while let Some((parent, depth)) = left.pop() {
        list.push((parent, depth));
        let group = field(nodes, parent, GROUP);
        if group != 0 && group <= groups(axes) && !seen[group] {
            seen[group] = true;
            left.extend((0..ways(axes)).rev().map(|child| (node(axes, group, child), depth + 1)));
        }
    }
    list
}
