//! Document 01's site-plan examples that a tree's calls can show.

mod common;

use common::*;
use ralikudo::generic::{Axes, Library, Tree};
use ralikudo::Refusal;

both!(
    the_far_corner_is_inside,
    outside_comes_before_full,
    boundaries_of_room,
    a_point_on_the_midplane_goes_to_the_high_side,
    a_point_on_all_midplanes_goes_to_the_last_child,
    every_axis_has_its_bit,
    equal_points_go_down_to_depth_32,
    more_nodes_than_room_allows,
    a_merge_joins_the_lists_in_the_order_of_its_tree,
    radii,
    squares_that_compute_to_0,
    nearest_of_a_nan_centre,
    the_worked_example,
);

fn the_far_corner_is_inside<const N: usize>()
where
    Library: Axes<N>,
{
    let mut tree = plan::<N>(1);
    assert_eq!(tree.insert(at(8.0, 8.0, 1)), Ok(()));
    for axis in 0..N {
        assert_eq!(tree.insert(own(but(8.0, axis, 8.5), 2)), Err(Refusal::Outside));
        assert_eq!(tree.delete(own(but(8.0, axis, 8.5), 2)), Err(Refusal::Outside));
    }
}

fn outside_comes_before_full<const N: usize>()
where
    Library: Axes<N>,
{
    let mut tree = plan::<N>(600);
    for payload in 0..512 {
        assert_eq!(tree.insert(at(1.0, 1.0, payload)), Ok(()));
    }
    assert_eq!(tree.insert(at(8.0, 8.5, 512)), Err(Refusal::Outside));
    assert_eq!(tree.insert(at(8.0, 8.0, 513)), Err(Refusal::PointsFull));
    assert_eq!(tree.len(), Ok(512));
    assert_eq!(tree.delete(at(1.0, 1.0, 77)), Ok(()));
    assert_eq!(tree.insert(at(8.0, 8.0, 513)), Ok(()));
}

fn boundaries_of_room<const N: usize>()
where
    Library: Axes<N>,
{
    let most = 2f64.powi(500);
    let reply = |corner, extent| Tree::<N>::new(volume(corner, extent), 1).err();
    let bad = Some(Refusal::BadBoundary);
    assert_eq!(reply([0.0; N], [-0.0; N]), None);
    assert_eq!(reply(spot(-most, most), [most; N]), None);
    for axis in 0..N {
        assert_eq!(reply([0.0; N], but(8.0, axis, 0.0)), None);
        assert_eq!(reply([0.0; N], but(8.0, axis, -1.0)), bad);
        for wrong in [f64::NAN, f64::INFINITY, f64::NEG_INFINITY, most.next_up(), -most.next_up()] {
            assert_eq!(reply(but(0.0, axis, wrong), [8.0; N]), bad);
            assert_eq!(reply([0.0; N], but(8.0, axis, wrong)), bad);
        }
    }
    assert_eq!(Tree::<N>::new(even(f64::NAN, 8.0), 0).err(), Some(Refusal::NoCapacity));
}

fn a_point_on_the_midplane_goes_to_the_high_side<const N: usize>()
where
    Library: Axes<N>,
{
    let tree = holding::<N>(1, &[at(4.0, 1.0, 1), at(1.0, 1.0, 2)]);
    assert_eq!(shape(tree.pieces()), (divided::<N>(1), vec![(vec![0], vec![2]), (vec![1], vec![1])]));
    assert_eq!(payloads(tree.range_search_bbox(volume(spot(4.0, 0.0), spot(0.0, 8.0)))), [1]);
}

/// In the octree (4,4,4) routes to child 7.
fn a_point_on_all_midplanes_goes_to_the_last_child<const N: usize>()
where
    Library: Axes<N>,
{
    let tree = holding::<N>(1, &[at(4.0, 4.0, 1), at(1.0, 1.0, 2)]);
    let leaves = vec![(vec![0], vec![2]), (vec![(1 << N) - 1], vec![1])];
    assert_eq!(shape(tree.pieces()), (divided::<N>(1), leaves));
}

/// Bit 0 is x, bit 1 y, bit 2 z.
fn every_axis_has_its_bit<const N: usize>()
where
    Library: Axes<N>,
{
    for axis in 0..N {
        let tree = holding::<N>(1, &[at(1.0, 1.0, 1), own(but(1.0, axis, 4.0), 2)]);
        assert_eq!(shape(tree.pieces()).1, [(vec![0], vec![1]), (vec![1 << axis], vec![2])]);
    }
}

/// 129 nodes in a quadtree, 257 in an octree.
fn equal_points_go_down_to_depth_32<const N: usize>()
where
    Library: Axes<N>,
{
    let mut tree = holding::<N>(1, &[at(1.0, 1.0, 1), at(1.0, 1.0, 2)]);
    let (many, leaves) = shape(tree.pieces());
    assert_eq!((many, leaves.len()), (if N == 2 { 129 } else { 257 }, 1));
    assert_eq!((leaves[0].0.len(), &leaves[0].1[..]), (32, &[1, 2][..]));
    assert_eq!(tree.insert(at(1.0, 1.0, 3)), Ok(()));
    assert_eq!(nodes(&tree), many);
    assert_eq!(tree.delete(at(1.0, 1.0, 1)), Ok(()));
    assert_eq!(nodes(&tree), many);
    assert_eq!(tree.delete(at(1.0, 1.0, 3)), Ok(()));
    assert_eq!(shape(tree.pieces()), (1, vec![(vec![], vec![2])]));
}

/// Pairs of equal points, each in a child of its own: two in a quadtree and one in an octree take so many nodes
/// that there is no room for one more.
fn more_nodes_than_room_allows<const N: usize>()
where
    Library: Axes<N>,
{
    let (pairs, taken) = if N == 2 { (vec![1.0, 5.0], 253) } else { (vec![5.0], 257) };
    let points = pairs.iter().flat_map(|v| [at(*v, *v, 3), at(*v, *v, 4)]);
    let mut tree = holding::<N>(1, &points.collect::<Vec<_>>());
    assert_eq!(nodes(&tree), taken);
    assert_eq!(tree.insert(at(5.0, 1.0, 5)), Ok(()));
    let before = tree.pieces().clone();
    assert_eq!(tree.insert(at(5.0, 1.0, 6)), Err(Refusal::NodesFull));
    assert!(*tree.pieces() == before);
    assert_eq!(tree.delete(at(5.0, 5.0, 3)), Ok(()));
    assert_eq!(tree.insert(at(5.0, 1.0, 6)), Ok(()));
    assert_eq!(nodes(&tree), taken);
}

/// NE, NW, SE, SW in a quadtree; by their numbers in an octree.
fn a_merge_joins_the_lists_in_the_order_of_its_tree<const N: usize>()
where
    Library: Axes<N>,
{
    let (a, b, c) = (at(1.0, 1.0, 1), at(5.0, 1.0, 2), at(1.0, 5.0, 3));
    let merged = if N == 2 { vec![2, 1] } else { vec![1, 2] };
    let mut tree = holding::<N>(2, &[a, b]);
    assert_eq!(payloads(tree.knn_search_at(spot(3.0, 1.0), 1)), [1]);
    assert_eq!(tree.insert(c), Ok(()));
    assert_eq!(nodes(&tree), divided::<N>(1));
    assert_eq!(tree.delete(c), Ok(()));
    assert_eq!(payloads(tree.knn_search_at(spot(3.0, 1.0), 1)), merged[..1]);
    assert_eq!(shape(tree.pieces()), (1, vec![(vec![], merged)]));
}

fn radii<const N: usize>()
where
    Library: Axes<N>,
{
    let centre = [1.0; N];
    for axis in 0..N {
        let tree = holding::<N>(2, &[own(centre, 1), own(but(1.0, axis, 5.0), 2)]);
        for none in [-1.0, f64::NEG_INFINITY, f64::NAN] {
            assert_eq!(payloads(tree.range_search_at(centre, none)), []);
        }
        for zero in [0.0, -0.0] {
            assert_eq!(payloads(tree.range_search_at(centre, zero)), [1]);
        }
        assert_eq!(payloads(tree.range_search_at(centre, 4.0)), [1, 2]);
        assert_eq!(payloads(tree.range_search_at(centre, 4f64.next_down())), [1]);
        assert_eq!(payloads(tree.range_search_at(centre, f64::INFINITY)), [1, 2]);
    }
}

fn squares_that_compute_to_0<const N: usize>()
where
    Library: Axes<N>,
{
    let tree = holding::<N>(1, &[at(0.0, 0.0, 1)]);
    for axis in 0..N {
        let centre = but(0.0, axis, 2f64.powi(-540));
        assert_eq!(payloads(tree.range_search_at(centre, 2f64.powi(-600))), [1]);
    }
}

fn nearest_of_a_nan_centre<const N: usize>()
where
    Library: Axes<N>,
{
    let tree = holding::<N>(3, &[at(1.0, 1.0, 1), at(5.0, 1.0, 2), at(1.0, 5.0, 3)]);
    assert_eq!(payloads(tree.knn_search_at([1.0; N], 0)), []);
    for axis in 0..N {
        assert_eq!(payloads(tree.knn_search_at(but(1.0, axis, f64::NAN), 2)), [1, 3]);
        assert_eq!(payloads(tree.knn_search_at(but(1.0, axis, f64::NAN), 3)), [1, 2, 3]);
    }
    assert_eq!(payloads(tree.knn_search_at([f64::NAN; N], 1)), [3]);
}

fn the_worked_example<const N: usize>()
where
    Library: Axes<N>,
{
    let mut tree = holding::<N>(1, &[at(4.0, 1.0, 7), at(1.0, 1.0, 9)]);
    let found = tree.range_search_at(spot(4.0, 1.0), 3.0);
    assert_eq!(found, Ok(vec![at(1.0, 1.0, 9), at(4.0, 1.0, 7)]));
    assert_eq!(tree.delete(at(4.0, 1.0, 8)), Err(Refusal::NotHeld));
    assert_eq!(tree.len(), Ok(2));
}
