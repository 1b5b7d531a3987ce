//! The eleven calls on pieces that may be anything, and what must hold of each.

use crate::fence::Fence;
use lent::layout::*;
use lent::memory::{Answer, Memory};
use lent::sound::sound;
use oracle::random::Random;
use oracle::rules::boxes;
use ralikudo::generic::{bytes, Axes, Lent, Library, Point, Volume};
use ralikudo::Reply;

pub const CALLS: [&str; 11] = [
    "insert",
    "delete",
    "insert_bulk",
    "contains",
    "len",
    "is_empty",
    "clear",
    "range_search",
    "range_search_bbox",
    "knn_search",
    "create",
];

/// Replies other than 8 that a call may give.
const OTHERS: [&[u32]; 11] =
    [&[0, 1, 5, 6], &[0, 1, 2], &[0, 5, 6], &[0], &[0], &[0], &[0], &[0, 7], &[0, 7], &[0, 7], &[0, 3, 4]];

/// The numbers that a call is asked with.
pub struct Words<const N: usize> {
    point: Point<N>,
    boundary: Volume<N>,
    capacity: u32,
    room: usize,
}

impl<const N: usize> Words<N> {
    pub fn new(random: &mut Random, held: [f64; N], payload: u32) -> Self {
        let at = if random.once_in(2) { held } else { [0; N].map(|_| 8.0 * random.unit()) };
        let mut boundary = even(0.0, 8.0);
        boundary.extent[random.below(N as u64) as usize] = *random.pick(&[8.0, 8.0, 0.0, -1.0, f64::NAN]);
        Words {
            point: Point { at, payload },
            boundary,
            capacity: random.below(4) as u32,
            room: *random.pick(&[0, 1, 512]),
        }
    }
}

/// Makes a call by its number.
fn call<const N: usize>(number: usize, words: &Words<N>, mut lent: Lent<N>, answer: &mut Answer<N>) -> Reply
where
    Library: Axes<N>,
{
    let Words { point, boundary, capacity, .. } = words;
    let Point { at, payload } = *point;
    match number {
        0 => lent.insert(*point),
        1 => lent.delete(*point),
        2 => {
            let turned = std::array::from_fn(|axis| at[N - 1 - axis]);
            let (coords, payloads) = bytes(&[*point, Point { at: turned, payload }]);
            lent.insert_bulk(&coords, &payloads)
        }
        3 => lent.shared().contains(*point),
        4 => lent.shared().count(),
        5 => lent.shared().is_empty(),
        6 => lent.clear(),
        7 => lent.shared().range_search_at(at, 2.0, answer.lent()),
        8 => {
            let query = Volume { corner: at, extent: [8.0; N] };
            lent.shared().range_search_bbox(query, answer.lent())
        }
        9 => lent.shared().knn_search_at(at, 1 + payload % 9, answer.lent()),
        _ => lent.create(*boundary, *capacity),
    }
}

/// The points of sound pieces in the order of the tree.
fn held<const N: usize>(memory: &Memory<N>) -> Vec<Point<N>> {
    let [_, nodes, links, points] = memory.pieces();
    let leaves = tree_nodes(N, nodes).into_iter().filter(|(node, _)| field(nodes, *node, GROUP) == 0);
    let places = leaves.flat_map(|(leaf, _)| chain(links, field(nodes, leaf, FIRST)));
    places.map(|place| Point { at: at(points, place), payload: payload::<N>(points, place) }).collect()
}

/// What a query must give on sound pieces, found by looking at every point: the figure, or the answer.
fn by_scan<const N: usize>(
    number: usize,
    words: &Words<N>,
    memory: &Memory<N>,
) -> Option<(u32, Vec<Point<N>>)> {
    let Point { at, payload } = words.point;
    let all = held(memory);
    let found = |keep: &dyn Fn(&Point<N>) -> bool| {
        let list: Vec<Point<N>> = all.iter().copied().filter(|p| keep(p)).collect();
        Some((list.len() as u32, list))
    };
    match number {
        3 => Some((u32::from(all.iter().any(|p| boxes::same(&p.at, &at) && p.payload == payload)), vec![])),
        4 => Some((all.len() as u32, vec![])),
        5 => Some((u32::from(all.is_empty()), vec![])),
        7 => found(&|p| boxes::squared(&p.at, &at) <= 4.0),
        8 => found(&|p| boxes::inside(&[at, [8.0; N]].concat(), &p.at)),
        _ => None,
    }
}

/// Whether a query on sound pieces gave what a look at every point gives.
fn right<const N: usize>(
    number: usize,
    words: &Words<N>,
    reply: Reply,
    memory: &Memory<N>,
    answer: &Answer<N>,
) -> Result<(), String> {
    let Some((figure, list)) = by_scan(number, words, memory) else { return Ok(()) };
    let wanted = match list.len() > words.room {
        true => Reply { number: 7, figure: 0 },
        false => Reply { number: 0, figure },
    };
    if reply != wanted {
        return Err(format!("{} gives {reply:?} and not {wanted:?}", CALLS[number]));
    }
    let (coords, payloads) = bytes(if reply.number == 0 { &list } else { &[] });
    match answer.first(payloads.len() / 4) == (&coords, &payloads) {
        true => Ok(()),
        false => Err(format!("{} gives another answer than a look at every point", CALLS[number])),
    }
}

/// Asks one call of a copy that ends where memory ends: the reply is the same, and nothing behind is read.
pub fn ask_fenced<const N: usize>(
    number: usize,
    words: &Words<N>,
    lengths: [usize; 4],
    memory: &mut Memory<N>,
    fence: &mut Fence,
) -> Result<(), String>
where
    Library: Axes<N>,
{
    let mut answer = Answer::of(words.room);
    let fenced = call(number, words, fence.lent(memory, lengths), &mut answer);
    let before = memory.clone();
    let plain = call(number, words, memory.lent_at(lengths), &mut answer);
    memory.copy(&before);
    match fenced == plain {
        true => Ok(()),
        false => Err(format!("{} gives {fenced:?} at the end of memory and else {plain:?}", CALLS[number])),
    }
}

/// Asks one call of pieces that are sound or not. `before` has the same bytes, and `memory` has them again
/// afterwards.
pub fn ask<const N: usize>(
    number: usize,
    words: &Words<N>,
    is_sound: bool,
    at_lengths: [usize; 4],
    memory: &mut Memory<N>,
    before: &Memory<N>,
) -> Result<(), String>
where
    Library: Axes<N>,
{
    let mut answer = Answer::of(words.room);
    let reply = call(number, words, memory.lent_at(at_lengths), &mut answer);
    let creates = number == 10;
    let refused_by_8 = if creates { at_lengths != lengths(N) } else { !is_sound };
    if refused_by_8 && reply != (Reply { number: 8, figure: 0 }) {
        return Err(format!("{} gives {reply:?} on pieces that are not sound", CALLS[number]));
    }
    if !refused_by_8 && !OTHERS[number].contains(&reply.number) {
        return Err(format!("{} gives {reply:?} on sound pieces", CALLS[number]));
    }
    let searches = (7..10).contains(&number);
    let given = if searches { reply.figure as usize } else { 0 };
    if given > words.room || !answer.untouched_behind(given) {
        return Err(format!("{} wrote behind its answer", CALLS[number]));
    }
    if !refused_by_8 {
        right(number, words, reply, before, &answer)?;
    }
    let may_change = [0, 1, 2, 6, 10].contains(&number) && (reply.number == 0 || reply.figure > 0);
    if may_change {
        let whole = memory.margins_untouched() && sound::<N>(memory.pieces());
        memory.copy(before);
        return if whole { Ok(()) } else { Err(format!("{} leaves an unsound tree", CALLS[number])) };
    }
    if *memory != *before {
        return Err(format!("{} gives {reply:?} and changed a byte", CALLS[number]));
    }
    Ok(())
}
