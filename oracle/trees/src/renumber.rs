//! The same tree at other place numbers: "Place numbers inside a tree are free".

use crate::layout::*;
use crate::memory::Memory;
use oracle::random::Random;

/// The numbers 1 to `most` in random order, with 0 for 0.
fn numbers(random: &mut Random, most: usize) -> Vec<usize> {
    let mut list: Vec<usize> = (1..=most).collect();
    random.shuffle(&mut list);
    list.insert(0, 0);
    list
}

/// Links these numbers in a row: `put` gets each and the one after it, and the first is given.
fn row(list: &[usize], mut put: impl FnMut(usize, usize)) -> usize {
    for (i, number) in list.iter().enumerate() {
        put(*number, list.get(i + 1).copied().unwrap_or(0));
    }
    list.first().copied().unwrap_or(0)
}

/// Gives a sound tree's places and groups other numbers and its free ones another order, and puts
/// anything where soundness says nothing.
pub fn renumber<const N: usize>(memory: &mut Memory<N>, random: &mut Random) {
    let old = memory.clone();
    let [_, old_nodes, old_links, old_points] = old.pieces();
    let (place, group) = (numbers(random, PLACES), numbers(random, groups(N)));
    let [head, nodes, links, points] = memory.pieces_mut();
    set_word(head, capacity_word(N) + 1, random.bits() as u32);
    for piece in [&mut *nodes, &mut *links, &mut *points] {
        piece.fill_with(|| random.bits() as u8);
    }
    for (old, _) in tree_nodes(N, old_nodes) {
        let new = if old == ROOT { ROOT } else { node(N, group[old / ways(N)], old % ways(N)) };
        let children = field(old_nodes, old, GROUP);
        set_field(nodes, new, GROUP, group[children]);
        set_field(nodes, new, COUNT, field(old_nodes, old, COUNT));
        if children != 0 {
            continue;
        }
        let list = chain(old_links, field(old_nodes, old, FIRST));
        for old in &list {
            set_point::<N>(points, place[*old], at(old_points, *old), payload::<N>(old_points, *old));
        }
        let list: Vec<usize> = list.into_iter().map(|old| place[old]).collect();
        let first = row(&list, |p, next| set_word(links, p, next as u32));
        set_field(nodes, new, FIRST, first);
        set_field(nodes, new, LAST, list.last().copied().unwrap_or(0));
    }
    let mut free: Vec<usize> = free_places(old_links).into_iter().map(|p| place[p]).collect();
    random.shuffle(&mut free);
    let first = row(&free, |p, next| set_word(links, p, next as u32));
    set_word(links, 0, first as u32);
    let mut free: Vec<usize> = free_groups(N, old_nodes).into_iter().map(|g| group[g]).collect();
    random.shuffle(&mut free);
    let first = row(&free, |g, next| set_field(nodes, node(N, g, 0), GROUP, next));
    set_field(nodes, 0, GROUP, first);
}
