//! Pieces and answers in memory of the host's own: lengths, bytes that must stay, and pieces that are no tree.

mod common;

use common::*;
use ralikudo::generic::{bytes, points, Answer, Axes, Bulk, Lent, Library, Pieces, Shared, Tree};
use ralikudo::{Refusal, Reply};

both!(
    pieces_of_wrong_length,
    pieces_that_are_no_tree,
    a_refused_creation_changes_nothing,
    creation_takes_any_bytes,
    answers_lent_too_little_room,
    answers_lent_enough_room,
    no_answers_need_no_room,
    bulk_takes_the_shorter_slice_and_skips_what_is_outside,
    bulk_stops_where_there_is_no_room,
    pieces_go_out_and_come_back,
    pieces_may_stand_at_odd_addresses,
    refused_calls_change_nothing,
    clear_keeps_boundary_and_capacity,
);

const UNSOUND: Reply = Reply { number: 8, figure: 0 };
const DONE: Reply = Reply { number: 0, figure: 0 };

/// Head, nodes, links and points.
type Copies = [Vec<u8>; 4];

fn tree<const N: usize>() -> Pieces<N>
where
    Library: Axes<N>,
{
    let points: Vec<_> = (0..40).map(|i| at(f64::from(i % 7), f64::from(i / 7), i)).collect();
    holding(2, &points).pieces().clone()
}

fn copies<const N: usize>(pieces: &Pieces<N>) -> Copies
where
    Library: Axes<N>,
{
    let Shared { head, nodes, links, points } = pieces.shared();
    [head, nodes, links, points].map(<[u8]>::to_vec)
}

fn lent<const N: usize>(pieces: &mut Copies) -> Lent<'_, N> {
    let [head, nodes, links, points] = pieces;
    Lent { head, nodes, links, points }
}

/// The replies of all calls but creation, given 512 places for answers, which must not be touched.
fn replies<const N: usize>(mut pieces: Copies) -> Vec<Reply>
where
    Library: Axes<N>,
{
    let before = pieces.clone();
    let mut lent = lent::<N>(&mut pieces);
    let mut all = vec![
        lent.insert(at(1.0, 1.0, 99)),
        lent.insert_bulk(&[0; 96], &[0; 16]),
        lent.delete(at(1.0, 1.0, 8)),
        lent.clear(),
    ];
    let (mut coords, mut payloads) = (vec![0xa5; 8 * N * 512], vec![0xa5; 4 * 512]);
    let shared = lent.shared();
    all.extend([shared.contains(at(1.0, 1.0, 8)), shared.count(), shared.is_empty()]);
    let mut search = |call: &dyn Fn(Shared<N>, Answer) -> Reply| {
        all.push(call(shared, Answer { coords: &mut coords, payloads: &mut payloads }));
    };
    search(&|tree, answer| tree.range_search_at([1.0; N], 9.0, answer));
    search(&|tree, answer| tree.range_search_bbox(even(0.0, 8.0), answer));
    search(&|tree, answer| tree.knn_search_at([1.0; N], 9, answer));
    assert!(coords.iter().chain(&payloads).all(|byte| *byte == 0xa5));
    assert!(before == pieces);
    all
}

fn pieces_of_wrong_length<const N: usize>()
where
    Library: Axes<N>,
{
    let good = copies(&tree::<N>());
    for piece in 0..4 {
        let right = good[piece].len();
        for length in [0, 1, right / 2, right - 1, right + 1, right + 16, 2 * right] {
            let mut wrong = good.clone();
            wrong[piece].resize(length, 0);
            assert!(replies::<N>(wrong.clone()).iter().all(|reply| *reply == UNSOUND));
            let mut made = wrong.clone();
            assert_eq!(lent::<N>(&mut made).create(even(f64::NAN, 8.0), 0), UNSOUND);
            assert_eq!(lent::<N>(&mut made).create(even(0.0, 8.0), 1), UNSOUND);
            assert!(made == wrong);
        }
    }
}

fn pieces_that_are_no_tree<const N: usize>()
where
    Library: Axes<N>,
{
    let tree = tree::<N>();
    for byte in [0x00, 0x01, 0x55, 0xff] {
        let all = replies::<N>(copies(&tree).map(|piece| vec![byte; piece.len()]));
        assert!(all.iter().all(|reply| *reply == UNSOUND));
    }
    let mut pieces = Box::new(Pieces::zeroed());
    pieces.head = tree.head;
    assert_eq!(Tree::<N>::from_pieces(pieces).err(), Some(Refusal::Unsound));
}

fn a_refused_creation_changes_nothing<const N: usize>()
where
    Library: Axes<N>,
{
    let mut pieces = tree::<N>();
    let before = pieces.clone();
    assert_eq!(pieces.lent().create(even(0.0, 8.0), 0).number, 3);
    for axis in 0..N {
        assert_eq!(pieces.lent().create(volume([0.0; N], but(8.0, axis, -1.0)), 1).number, 4);
    }
    assert!(pieces == before);
}

fn creation_takes_any_bytes<const N: usize>()
where
    Library: Axes<N>,
{
    let mut pieces = Pieces::<N>::zeroed();
    let Lent { head, nodes, links, points } = pieces.lent();
    [head, nodes, links, points].into_iter().for_each(|piece| piece.fill(0xff));
    assert_eq!(pieces.lent().create(even(0.0, 8.0), 1), DONE);
    assert_eq!(pieces.shared().count(), DONE);
    assert_eq!(shape(&pieces), (1, vec![]));
}

/// A search of all 40 points lent this many bytes, in the midst of more: the reply, and how many points were
/// written. Bytes behind them and around the slices must stay.
fn lent_answer<const N: usize>(coords_len: usize, payloads_len: usize) -> (Reply, usize)
where
    Library: Axes<N>,
{
    let pieces = tree::<N>();
    let (mut coords, mut payloads) = (vec![0xa5; coords_len + 32], vec![0xa5; payloads_len + 32]);
    let answer =
        Answer { coords: &mut coords[16..16 + coords_len], payloads: &mut payloads[16..16 + payloads_len] };
    let reply = pieces.shared().range_search_bbox(even(0.0, 8.0), answer);
    let many = reply.figure as usize;
    let (first, last) = (16 + 8 * N * many, 16 + 4 * many);
    assert!(coords[..16].iter().chain(&coords[first..]).all(|byte| *byte == 0xa5));
    assert!(payloads[..16].iter().chain(&payloads[last..]).all(|byte| *byte == 0xa5));
    let wanted = Tree::from_pieces(Box::new(pieces)).unwrap();
    let wanted = wanted.range_search_bbox(even(0.0, 8.0)).unwrap();
    let written: Vec<Own<N>> = points(&coords[16..], &payloads[16..], many);
    assert_eq!(written, wanted[..many]);
    (reply, many)
}

fn answers_lent_too_little_room<const N: usize>()
where
    Library: Axes<N>,
{
    let full = Reply { number: 7, figure: 0 };
    let one = 8 * N;
    let all = 40 * one;
    for (coords, payloads) in
        [(0, 0), (all, 159), (all - 1, 160), (one, 2048), (512 * one, 156), (0, 160), (all, 0)]
    {
        assert_eq!(lent_answer::<N>(coords, payloads), (full, 0));
    }
}

fn answers_lent_enough_room<const N: usize>()
where
    Library: Axes<N>,
{
    let done = Reply { number: 0, figure: 40 };
    let (all, most) = (40 * 8 * N, 512 * 8 * N);
    for (coords, payloads) in
        [(all, 160), (all + 1, 163), (all + 8 * N - 1, 2048), (most, 160), (most, 2048), (most + 808, 2100)]
    {
        assert_eq!(lent_answer::<N>(coords, payloads), (done, 40));
    }
}

fn no_answers_need_no_room<const N: usize>()
where
    Library: Axes<N>,
{
    let pieces = tree::<N>();
    let answer = || Answer { coords: &mut [], payloads: &mut [] };
    assert_eq!(pieces.shared().range_search_at([1.0; N], -1.0, answer()), DONE);
    assert_eq!(pieces.shared().knn_search_at([1.0; N], 0, answer()), DONE);
    assert_eq!(pieces.shared().knn_search_at([1.0; N], 1, answer()), Reply { number: 7, figure: 0 });
}

fn bulk_takes_the_shorter_slice_and_skips_what_is_outside<const N: usize>()
where
    Library: Axes<N>,
{
    let mut tree = plan::<N>(1);
    let list = [at(1.0, 1.0, 1), at(9.0, 1.0, 2), at(f64::NAN, 1.0, 3), at(5.0, 5.0, 4), at(5.0, 1.0, 5)];
    assert_eq!(tree.insert_bulk(&list), Bulk { stored: 3, stopped: None });
    let (coords, payloads) = bytes(&list);
    let mut pieces = plan::<N>(1).into_pieces();
    let short = &coords[..coords.len() - 1];
    assert_eq!(pieces.lent().insert_bulk(short, &payloads), Reply { number: 0, figure: 2 });
    assert_eq!(pieces.lent().insert_bulk(&coords, &payloads[..3]), DONE);
    assert_eq!(pieces.lent().insert_bulk(&[], &[]), DONE);
    assert_eq!(pieces.shared().count().figure, 2);
}

fn bulk_stops_where_there_is_no_room<const N: usize>()
where
    Library: Axes<N>,
{
    let mut tree = plan::<N>(600);
    let list: Vec<_> = (0..600).map(|i| at(1.0, 1.0, i)).collect();
    assert_eq!(tree.insert_bulk(&list[..500]), Bulk { stored: 500, stopped: None });
    assert_eq!(tree.insert_bulk(&list[500..]), Bulk { stored: 12, stopped: Some(Refusal::PointsFull) });
    assert_eq!(tree.insert_bulk(&[at(9.0, 9.0, 1)]), Bulk { stored: 0, stopped: None });
    assert_eq!(tree.len(), Ok(512));
    // The third pair in a quadtree and the second in an octree are too much.
    let mut deep = plan::<N>(1);
    let pairs = [1.0, 1.0, 5.0, 5.0, 3.0, 3.0, 7.0].map(|x| at(x, x, 0));
    let stored = if N == 2 { 5 } else { 3 };
    assert_eq!(deep.insert_bulk(&pairs), Bulk { stored, stopped: Some(Refusal::NodesFull) });
    assert_eq!(deep.len(), Ok(stored));
}

fn pieces_go_out_and_come_back<const N: usize>()
where
    Library: Axes<N>,
{
    let tree = holding::<N>(1, &[at(1.0, 1.0, 1), at(5.0, 5.0, 2)]);
    let moved = Tree::from_pieces(Box::new(tree.pieces().clone())).unwrap();
    assert_eq!(payloads(moved.knn_search_at([8.0; N], 2)), [2, 1]);
    assert!(*moved.into_pieces() == *tree.pieces());
}

fn pieces_may_stand_at_odd_addresses<const N: usize>()
where
    Library: Axes<N>,
{
    let mut odd = copies(&tree::<N>()).map(|piece| [&[0], &piece[..]].concat());
    let [head, nodes, links, points] = odd.each_mut().map(|piece| &mut piece[1..]);
    let mut lent = Lent::<N> { head, nodes, links, points };
    assert_eq!(lent.insert(at(7.5, 7.5, 99)).number, 0);
    assert_eq!(lent.shared().count().figure, 41);
    assert_eq!(lent.shared().contains(at(7.5, 7.5, 99)).figure, 1);
}

fn refused_calls_change_nothing<const N: usize>()
where
    Library: Axes<N>,
{
    let mut pieces = tree::<N>();
    let before = pieces.clone();
    for axis in 0..N {
        for spot in [but(1.0, axis, f64::NAN), but(1.0, axis, -1.0), but(1.0, axis, 9.0)] {
            assert_eq!(pieces.lent().insert(own(spot, 1)).number, 1);
            assert_eq!(pieces.lent().delete(own(spot, 1)).number, 1);
        }
    }
    assert_eq!(pieces.lent().delete(at(1.0, 1.0, 99)).number, 2);
    assert!(pieces == before);
}

fn clear_keeps_boundary_and_capacity<const N: usize>()
where
    Library: Axes<N>,
{
    let mut tree = holding::<N>(2, &[at(1.0, 1.0, 1), at(5.0, 5.0, 2), at(6.0, 6.0, 3)]);
    let head = tree.pieces().head.clone();
    assert_eq!(tree.clear(), Ok(()));
    assert_eq!((tree.len(), tree.is_empty(), nodes(&tree)), (Ok(0), Ok(true), 1));
    assert!(tree.pieces().head == head);
}
