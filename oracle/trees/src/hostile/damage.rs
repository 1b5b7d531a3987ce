//! What is done to a sound tree. Some of it leaves the tree sound: the test over there decides.

use crate::base::Base;
use lent::layout::*;
use lent::memory::Memory;
use lent::sound::{part, route};
use oracle::bits::{moved, special};
use oracle::random::Random;

/// How many kinds there are below.
pub const MANY: usize = 22;

/// Changes the pieces, which hold the base.
pub type Damage<const N: usize> = fn(&mut Random, &Base<N>, &mut Memory<N>);

pub const fn kinds<const N: usize>() -> [(&'static str, Damage<N>); MANY] {
    [
        ("bits anywhere", bits),
        ("bits of the head", head_bits),
        ("words of nodes and links", words),
        ("words swapped", swapped),
        ("links crossed", crossed),
        ("links that loop", looped),
        ("counts", counts),
        ("counts on a whole path", path_counts),
        ("lists of two leaves swapped", lists_swapped),
        ("points moved", points_moved),
        ("points swapped", points_swapped),
        ("places free and used", places_twice),
        ("places lost", places_lost),
        ("groups free and used", groups_twice),
        ("groups lost", groups_lost),
        ("the last place", last_place),
        ("capacity", capacity),
        ("boundary", boundary),
        ("divided too early", divided_early),
        ("merged too late", merged_late),
        ("two kinds at once", two),
        ("random pieces", random_pieces),
    ]
}

/// Something of a list, or this where it is empty.
fn some(random: &mut Random, list: &[usize], otherwise: usize) -> usize {
    if list.is_empty() {
        otherwise
    } else {
        *random.pick(list)
    }
}

/// A number that means something here or there: small ones, the ends of both pools, and such as fall on a
/// place or a node when their upper bits are lost.
fn odd<const N: usize>(random: &mut Random) -> u32 {
    let small = random.below(600) as u32;
    let (groups, nodes) = (groups(N) as u32, node_places(N) as u32);
    match random.below(10) {
        0 => *random.pick(&[0, 1, 2, 3, 4, 5]),
        1 => *random.pick(&[
            groups - 1,
            groups,
            groups + 1,
            groups + 2,
            nodes - 1,
            nodes,
            nodes + 1,
            4 * nodes - 1,
            4 * nodes,
        ]),
        2 => *random.pick(&[511, 512, 513, 514, 2051, 2052]),
        3 => *random.pick(&[u32::MAX, u32::MAX - 1, 1 << 31, 1 << 30, 1 << 28, 1 << 16]),
        4 => (1 << *random.pick(&[16, 26, 28, 29, 30, 31])) + small,
        5 => random.bits() as u32,
        6 => small % (groups + 1),
        _ => small,
    }
}

fn flip(random: &mut Random, piece: &mut [u8]) {
    let bit = random.below(8 * piece.len() as u64) as usize;
    piece[bit / 8] ^= 1 << (bit % 8);
}

fn bits<const N: usize>(random: &mut Random, _: &Base<N>, memory: &mut Memory<N>) {
    for _ in 0..random.between(1, 3) {
        let piece = random.below(4) as usize;
        flip(random, memory.pieces_mut()[piece]);
    }
}

fn head_bits<const N: usize>(random: &mut Random, _: &Base<N>, memory: &mut Memory<N>) {
    flip(random, memory.pieces_mut()[0]);
}

/// Words that are in use for the most part.
fn words<const N: usize>(random: &mut Random, base: &Base<N>, memory: &mut Memory<N>) {
    let [_, nodes, links, _] = memory.pieces_mut();
    for _ in 0..random.between(1, 2) {
        let value = odd::<N>(random);
        match random.below(4) {
            0 => set_word(nodes, random.below(nodes.len() as u64 / 4) as usize, value),
            1 => set_word(links, random.below(513) as usize, value),
            2 => set_word(nodes, 4 * *random.pick(&base.nodes) + random.below(4) as usize, value),
            _ => set_word(links, some(random, &base.places, 0), value),
        }
    }
}

fn swapped<const N: usize>(random: &mut Random, base: &Base<N>, memory: &mut Memory<N>) {
    let [_, nodes, links, _] = memory.pieces_mut();
    let (piece, a, b) = match random.below(4) {
        0 => {
            let mut word = || random.below(4 * node_places(N) as u64) as usize;
            (nodes, word(), word())
        }
        1 => (links, random.below(513) as usize, random.below(513) as usize),
        2 => {
            let mut word = || 4 * *random.pick(&base.nodes) + random.below(4) as usize;
            (nodes, word(), word())
        }
        _ => (links, some(random, &base.places, 0), some(random, &base.places, 1)),
    };
    let (x, y) = (word(piece, a), word(piece, b));
    set_word(piece, a, y);
    set_word(piece, b, x);
}

/// The place after a used or a free one is any other.
fn crossed<const N: usize>(random: &mut Random, base: &Base<N>, memory: &mut Memory<N>) {
    let links = &mut *memory.pieces_mut()[2];
    let from = if random.once_in(3) { &base.free_places } else { &base.places };
    let to = if random.once_in(3) { &base.free_places } else { &base.places };
    let (from, to) = (some(random, from, 0), some(random, to, 0));
    set_word(links, from, to as u32);
}

/// A list, the free places, the free groups or the tree comes back to itself.
fn looped<const N: usize>(random: &mut Random, base: &Base<N>, memory: &mut Memory<N>) {
    let [_, nodes, links, _] = memory.pieces_mut();
    match random.below(4) {
        0 => {
            let leaf = some(random, &base.lists, ROOT);
            let list = chain(links, field(nodes, leaf, FIRST));
            set_word(links, list.last().copied().unwrap_or(0), some(random, &list, 1) as u32);
        }
        1 => {
            let last = base.free_places.last().copied().unwrap_or(0);
            set_word(links, last, some(random, &base.free_places, 1) as u32);
        }
        2 => {
            let last = base.free_groups.last().copied().unwrap_or(0);
            set_field(nodes, node(N, last, 0), GROUP, some(random, &base.free_groups, 1));
        }
        _ => {
            let below = *random.pick(&base.nodes);
            let above = *random.pick(&base.way(below));
            set_field(nodes, below, GROUP, field(nodes, above, GROUP));
        }
    }
}

fn counts<const N: usize>(random: &mut Random, base: &Base<N>, memory: &mut Memory<N>) {
    let nodes = &mut *memory.pieces_mut()[1];
    let node = *random.pick(&base.nodes);
    let by = *random.pick(&[1, u32::MAX, 2, 1 << 31]);
    set_field(nodes, node, COUNT, (field(nodes, node, COUNT) as u32).wrapping_add(by) as usize);
}

/// The counts agree with each other and not with the list.
fn path_counts<const N: usize>(random: &mut Random, base: &Base<N>, memory: &mut Memory<N>) {
    let nodes = &mut *memory.pieces_mut()[1];
    let leaf = *random.pick(&base.leaves);
    let by = *random.pick(&[1, u32::MAX]);
    for node in base.way(leaf) {
        set_field(nodes, node, COUNT, (field(nodes, node, COUNT) as u32).wrapping_add(by) as usize);
    }
}

/// Two lists change places, mostly of nodes side by side, where the counts above still match.
fn lists_swapped<const N: usize>(random: &mut Random, base: &Base<N>, memory: &mut Memory<N>) {
    let nodes = &mut *memory.pieces_mut()[1];
    let a = some(random, &base.lists, ROOT);
    let beside = |b: &usize| *b / ways(N) == a / ways(N) && *b != a;
    let beside: Vec<usize> = base.leaves.iter().copied().filter(beside).collect();
    let b = if random.once_in(3) { *random.pick(&base.leaves) } else { some(random, &beside, a) };
    for which in [FIRST, LAST, COUNT] {
        let (x, y) = (field(nodes, a, which), field(nodes, b, which));
        set_field(nodes, a, which, y);
        set_field(nodes, b, which, x);
    }
}

/// A held point elsewhere: a double off, on a midplane, anywhere, outside, NaN.
fn points_moved<const N: usize>(random: &mut Random, base: &Base<N>, memory: &mut Memory<N>) {
    let [head, _, _, points] = memory.pieces_mut();
    let place = some(random, &base.places, 1);
    let axis = random.below(N as u64) as usize;
    let old = at::<N>(points, place)[axis];
    let (corner, extent) = lent::layout::boundary::<N>(head)[axis];
    let new = match random.below(7) {
        0 => moved(old, *random.pick(&[-2, -1, 1, 2])),
        1 => corner + extent / 2.0,
        2 => corner + extent * random.unit(),
        3 => *random.pick(&[corner.next_down(), (corner + extent).next_up(), -old]),
        4 => f64::from_bits(0x7ff0_0000_0000_0001 | random.bits()),
        5 => f64::from_bits(old.to_bits() ^ 1 << random.below(64)),
        _ => special(random.bits()),
    };
    set_float(points, point_words(N) * place + 2 * axis, new);
}

fn points_swapped<const N: usize>(random: &mut Random, base: &Base<N>, memory: &mut Memory<N>) {
    let points = &mut *memory.pieces_mut()[3];
    let (a, b) = (some(random, &base.places, 1), some(random, &base.places, 2));
    let (p, q) = (at::<N>(points, a), at::<N>(points, b));
    let (m, n) = (payload::<N>(points, a), payload::<N>(points, b));
    set_point(points, a, q, n);
    set_point(points, b, p, m);
}

/// A used place is free too, or a free one is used too.
fn places_twice<const N: usize>(random: &mut Random, base: &Base<N>, memory: &mut Memory<N>) {
    let [_, nodes, links, _] = memory.pieces_mut();
    let used = some(random, &base.places, 1) as u32;
    match random.below(3) {
        0 => set_word(links, 0, used),
        1 => set_word(links, base.free_places.last().copied().unwrap_or(0), used),
        _ => {
            let leaf = *random.pick(&base.leaves);
            let free = some(random, &base.free_places, 1);
            let last = field(nodes, leaf, LAST);
            match last {
                0 => set_field(nodes, leaf, FIRST, free),
                _ => set_word(links, last, free as u32),
            }
            set_field(nodes, leaf, LAST, free);
        }
    }
}

/// A place is neither free nor used: cut out of the free ones, or out of a list with all counts lowered.
fn places_lost<const N: usize>(random: &mut Random, base: &Base<N>, memory: &mut Memory<N>) {
    let [_, nodes, links, _] = memory.pieces_mut();
    if random.once_in(2) || base.lists.is_empty() {
        let before = some(random, &[&[0], &base.free_places[..]].concat(), 0);
        let lost = word(links, before) as usize;
        let next = word(links, lost);
        return set_word(links, before, next);
    }
    let leaf = *random.pick(&base.lists);
    let lost = field(nodes, leaf, FIRST);
    let next = word(links, lost) as usize;
    set_field(nodes, leaf, FIRST, next);
    if next == 0 {
        set_field(nodes, leaf, LAST, 0);
    }
    for node in base.way(leaf) {
        set_field(nodes, node, COUNT, field(nodes, node, COUNT).wrapping_sub(1));
    }
}

/// A group of the tree is free too, or stands in the tree twice, or a free one is in the tree.
fn groups_twice<const N: usize>(random: &mut Random, base: &Base<N>, memory: &mut Memory<N>) {
    let nodes = &mut *memory.pieces_mut()[1];
    let used = some(random, &base.groups, 1);
    match random.below(4) {
        0 => set_field(nodes, 0, GROUP, used),
        1 => set_field(nodes, node(N, base.free_groups.last().copied().unwrap_or(0), 0), GROUP, used),
        2 => set_field(nodes, *random.pick(&base.nodes), GROUP, used),
        _ => set_field(nodes, *random.pick(&base.nodes), GROUP, some(random, &base.free_groups, 1)),
    }
}

fn groups_lost<const N: usize>(random: &mut Random, base: &Base<N>, memory: &mut Memory<N>) {
    let nodes = &mut *memory.pieces_mut()[1];
    let before = some(random, &[&[0], &base.free_groups[..]].concat(), 0);
    let lost = field(nodes, node(N, before, 0), GROUP);
    set_field(nodes, node(N, before, 0), GROUP, field(nodes, node(N, lost, 0), GROUP));
}

fn last_place<const N: usize>(random: &mut Random, base: &Base<N>, memory: &mut Memory<N>) {
    let [_, nodes, links, _] = memory.pieces_mut();
    let leaf = *random.pick(&base.leaves);
    let list = chain(links, field(nodes, leaf, FIRST));
    let last = match random.below(3) {
        0 => some(random, &list, 1),
        1 => some(random, &base.places, 0),
        _ => odd::<N>(random) as usize,
    };
    set_field(nodes, leaf, LAST, last);
}

fn capacity<const N: usize>(random: &mut Random, base: &Base<N>, memory: &mut Memory<N>) {
    let [head, nodes, ..] = memory.pieces_mut();
    let old = word(head, capacity_word(N));
    let count = field(nodes, *random.pick(&base.nodes), COUNT) as u32;
    let near = [0, 1, old.wrapping_add(1), old.wrapping_sub(1), old.wrapping_mul(2), u32::MAX];
    let near = [&near[..], &[count, count.wrapping_add(1), count.wrapping_sub(1)]].concat();
    set_word(head, capacity_word(N), *random.pick(&near));
}

fn boundary<const N: usize>(random: &mut Random, _: &Base<N>, memory: &mut Memory<N>) {
    let head = &mut *memory.pieces_mut()[0];
    let first = 2 * random.below(2 * N as u64) as usize;
    let old = float(head, first);
    let new = match random.below(5) {
        0 => special(random.bits()),
        1 => moved(old, *random.pick(&[-1, 1])),
        2 => 2.0 * old,
        3 => -old,
        _ => *random.pick(&[
            f64::NAN,
            f64::INFINITY,
            -1.0,
            moved(2f64.powi(500), 1),
            -moved(2f64.powi(500), 1),
        ]),
    };
    set_float(head, first, new);
}

/// Makes this the list of a node; its count is not set.
fn set_list(nodes: &mut [u8], links: &mut [u8], node: usize, list: &[usize]) {
    for (i, place) in list.iter().enumerate() {
        set_word(links, *place, list.get(i + 1).copied().unwrap_or(0) as u32);
    }
    set_field(nodes, node, FIRST, list.first().copied().unwrap_or(0));
    set_field(nodes, node, LAST, list.last().copied().unwrap_or(0));
}

/// A leaf is divided with everything in order but that it need not be; at depth 32 it must not.
fn divided_early<const N: usize>(random: &mut Random, base: &Base<N>, memory: &mut Memory<N>) {
    let [head, nodes, links, points] = memory.pieces_mut();
    let deep: Vec<usize> = base.leaves.iter().copied().filter(|leaf| base.depth[*leaf] == DEEPEST).collect();
    let leaf = if random.once_in(2) { some(random, &deep, ROOT) } else { *random.pick(&base.leaves) };
    let group = field(nodes, 0, GROUP);
    if group == 0 || field(nodes, leaf, GROUP) != 0 {
        return bits(random, base, memory);
    }
    let mut bounds = lent::layout::boundary::<N>(head);
    for below in base.way(leaf).into_iter().rev().skip(1) {
        bounds = part(&bounds, below % ways(N));
    }
    set_field(nodes, 0, GROUP, field(nodes, node(N, group, 0), GROUP));
    let all = chain(links, field(nodes, leaf, FIRST));
    for child in 0..ways(N) {
        let goes = |place: &usize| route(&bounds, at(points, *place)) == child;
        let list: Vec<usize> = all.iter().copied().filter(goes).collect();
        let new = node(N, group, child);
        set_field(nodes, new, GROUP, 0);
        set_field(nodes, new, COUNT, list.len());
        set_list(nodes, links, new, &list);
    }
    set_field(nodes, leaf, GROUP, group);
}

/// A divided node becomes one list with everything in order but that it holds too many.
fn merged_late<const N: usize>(random: &mut Random, base: &Base<N>, memory: &mut Memory<N>) {
    let [_, nodes, links, _] = memory.pieces_mut();
    let flat = |parent: &usize| {
        let group = field(nodes, *parent, GROUP);
        (0..ways(N)).all(|child| field(nodes, node(N, group, child), GROUP) == 0)
    };
    let lowest: Vec<usize> = base.divided.iter().copied().filter(flat).collect();
    if lowest.is_empty() {
        return bits(random, base, memory);
    }
    let parent = *random.pick(&lowest);
    let group = field(nodes, parent, GROUP);
    let list: Vec<usize> =
        (0..ways(N)).flat_map(|child| chain(links, field(nodes, node(N, group, child), FIRST))).collect();
    set_field(nodes, parent, GROUP, 0);
    set_list(nodes, links, parent, &list);
    set_field(nodes, node(N, group, 0), GROUP, field(nodes, 0, GROUP));
    set_field(nodes, 0, GROUP, group);
}

/// Two of the others, so that one may hide what the other breaks.
fn two<const N: usize>(random: &mut Random, base: &Base<N>, memory: &mut Memory<N>) {
    for _ in 0..2 {
        let kind = random.below(MANY as u64 - 4) as usize;
        kinds()[kind].1(random, base, memory);
    }
}

/// Random bytes, random small words, or all bytes alike, in all pieces or all but the head.
fn random_pieces<const N: usize>(random: &mut Random, _: &Base<N>, memory: &mut Memory<N>) {
    let [head, nodes, links, points] = memory.pieces_mut();
    let kind = random.below(4);
    let most = *random.pick(&[2, 6, groups(N) as u64 + 1, 513, 600]);
    let alike = random.bits() as u8;
    let mut fill = |piece: &mut [u8]| match kind {
        0 => piece.fill_with(|| random.bits() as u8),
        1 => piece.fill(alike),
        _ => (0..piece.len() / 4).for_each(|i| set_word(piece, i, random.below(most) as u32)),
    };
    [nodes, links].into_iter().for_each(&mut fill);
    if kind < 2 {
        fill(points);
    }
    if kind == 0 {
        fill(head);
    }
}

/// Bytes of which soundness says nothing: spare words, unused nodes, a divided node's list, what stands in free
/// groups and free places.
pub fn meaningless<const N: usize>(random: &mut Random, base: &Base<N>, memory: &mut Memory<N>) {
    let [head, nodes, _, points] = memory.pieces_mut();
    set_word(head, capacity_word(N) + 1, random.bits() as u32);
    for _ in 0..random.between(1, 6) {
        let value = random.bits() as usize;
        match random.below(5) {
            0 => set_field(nodes, 0, random.between(1, 3) as usize, value),
            1 => set_field(
                nodes,
                random.between(2, ways(N) as i64 - 1) as usize,
                random.below(4) as usize,
                value,
            ),
            2 if !base.divided.is_empty() => {
                set_field(nodes, *random.pick(&base.divided), *random.pick(&[FIRST, LAST]), value)
            }
            3 if !base.free_groups.is_empty() => {
                // All words of a group but the link to the next free one.
                let words = 4 * ways(N);
                let word =
                    words * *random.pick(&base.free_groups) + random.between(1, words as i64 - 1) as usize;
                set_word(nodes, word, value as u32)
            }
            _ => {
                let place = if random.once_in(2) { 0 } else { some(random, &base.free_places, 0) };
                let words = point_words(N);
                set_word(points, words * place + random.below(words as u64) as usize, value as u32);
                set_word(points, words * some(random, &base.places, 0) + words - 1, value as u32)
            }
        }
    }
}
