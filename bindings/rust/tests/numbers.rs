//! NaN, infinities, both zeros, and the largest and smallest numbers.

mod common;

use common::*;
use ralikudo::generic::{Axes, Library, Tree};
use ralikudo::Refusal;

both!(
    a_point_with_nan_or_an_infinity_is_outside,
    both_zeros_are_one_place,
    the_first_of_equal_points_goes_first,
    equal_points_are_equal_on_every_axis,
    a_boundary_of_no_extent,
    the_largest_and_the_smallest_numbers,
    searches_take_any_numbers,
    a_box_is_closed_on_every_axis,
    k_at_the_edges,
    capacities_at_the_edges,
    payloads_of_all_bits,
);

const ODD: [f64; 3] = [f64::NAN, f64::INFINITY, f64::NEG_INFINITY];

fn a_point_with_nan_or_an_infinity_is_outside<const N: usize>()
where
    Library: Axes<N>,
{
    let mut tree = plan::<N>(1);
    for odd in ODD {
        for spot in (0..N).map(|axis| but(1.0, axis, odd)).chain([[odd; N]]) {
            assert_eq!(tree.insert(own(spot, 1)), Err(Refusal::Outside));
            assert_eq!(tree.delete(own(spot, 1)), Err(Refusal::Outside));
            assert_eq!(tree.contains(own(spot, 1)), Ok(false));
        }
    }
    assert_eq!(tree.is_empty(), Ok(true));
}

fn both_zeros_are_one_place<const N: usize>()
where
    Library: Axes<N>,
{
    let mut tree = Tree::<N>::new(even(-8.0, 16.0), 1).unwrap();
    assert_eq!(tree.insert(at(-0.0, 0.0, 1)), Ok(()));
    assert_eq!(tree.contains(at(0.0, -0.0, 1)), Ok(true));
    assert_eq!(tree.contains(at(0.0, -0.0, 2)), Ok(false));
    let found = tree.range_search_at([0.0; N], 0.0).unwrap();
    assert_eq!((found.len(), negative(found[0])), (1, true));
    assert_eq!(tree.delete(at(0.0, 0.0, 1)), Ok(()));
    assert_eq!(tree.is_empty(), Ok(true));
}

fn the_first_of_equal_points_goes_first<const N: usize>()
where
    Library: Axes<N>,
{
    let mut tree = Tree::<N>::new(even(-8.0, 16.0), 4).unwrap();
    for zero in [0.0, -0.0] {
        assert_eq!(tree.insert(at(zero, 0.0, 1)), Ok(()));
    }
    assert_eq!(tree.delete(at(-0.0, 0.0, 1)), Ok(()));
    let left = tree.range_search_at([0.0; N], 0.0).unwrap();
    assert_eq!((left.len(), negative(left[0])), (1, true));
}

fn equal_points_are_equal_on_every_axis<const N: usize>()
where
    Library: Axes<N>,
{
    let mut tree = holding::<N>(8, &[at(1.0, 1.0, 1)]);
    for axis in 0..N {
        let other = own(but(1.0, axis, 1f64.next_up()), 1);
        assert_eq!(tree.contains(other), Ok(false));
        assert_eq!(tree.delete(other), Err(Refusal::NotHeld));
    }
    assert_eq!(tree.contains(at(1.0, 1.0, 1)), Ok(true));
}

fn a_boundary_of_no_extent<const N: usize>()
where
    Library: Axes<N>,
{
    let mut tree = Tree::<N>::new(volume(spot(3.0, -0.0), spot(0.0, -0.0)), 1).unwrap();
    assert_eq!(tree.insert(at(3.0, 0.0, 1)), Ok(()));
    assert_eq!(tree.insert(at(3.0, -0.0, 2)), Ok(()));
    assert_eq!(tree.insert(at(3f64.next_up(), 0.0, 3)), Err(Refusal::Outside));
    assert_eq!(tree.insert(at(3.0, f64::from_bits(1), 3)), Err(Refusal::Outside));
    assert_eq!(nodes(&tree), divided::<N>(32));
    assert_eq!(payloads(tree.range_search_bbox(volume(spot(3.0, 0.0), [0.0; N]))), [1, 2]);
}

fn the_largest_and_the_smallest_numbers<const N: usize>()
where
    Library: Axes<N>,
{
    let most = 2f64.powi(500);
    let mut tree = Tree::<N>::new(even(-most, most), 1).unwrap();
    let tiny = -f64::from_bits(1);
    for (x, payload) in [(-most, 1), (0.0, 2), (tiny, 3)] {
        assert_eq!(tree.insert(at(x, x, payload)), Ok(()));
    }
    for axis in 0..N {
        assert_eq!(tree.insert(own(but(0.0, axis, f64::from_bits(1)), 4)), Err(Refusal::Outside));
    }
    assert_eq!(payloads(tree.knn_search_at([-most; N], 1)), [1]);
    assert_eq!(payloads(tree.range_search_at([0.0; N], 0.0)), [2, 3]);
}

fn searches_take_any_numbers<const N: usize>()
where
    Library: Axes<N>,
{
    let tree = holding::<N>(1, &[at(1.0, 1.0, 1), at(5.0, 5.0, 2)]);
    for axis in 0..N {
        for odd in ODD {
            let centre = but(1.0, axis, odd);
            assert_eq!(payloads(tree.range_search_at(centre, 1.0)), []);
            assert_eq!(payloads(tree.range_search_bbox(volume(but(0.0, axis, odd), [8.0; N]))), []);
            assert_eq!(payloads(tree.knn_search_at(centre, 9)).len(), 2);
        }
        assert_eq!(payloads(tree.range_search_at(but(1.0, axis, f64::NAN), f64::INFINITY)), []);
        assert_eq!(payloads(tree.range_search_at(but(1.0, axis, f64::INFINITY), f64::INFINITY)), [1, 2]);
    }
    assert_eq!(payloads(tree.range_search_bbox(even(0.0, f64::INFINITY))), [1, 2]);
}

fn a_box_is_closed_on_every_axis<const N: usize>()
where
    Library: Axes<N>,
{
    let tree = holding::<N>(1, &[at(1.0, 1.0, 1), at(5.0, 5.0, 2)]);
    let asked = |corner, extent| payloads(tree.range_search_bbox(volume(corner, extent)));
    for axis in 0..N {
        assert_eq!(asked([5.0; N], but(0.0, axis, -0.0)), [2]);
        assert_eq!(asked([5.0; N], but(1.0, axis, -1.0)), []);
        assert_eq!(asked(but(5.0, axis, 0.0), but(0.0, axis, 5.0)), [2]);
        assert_eq!(asked(but(5.0, axis, 0.0), but(0.0, axis, 5f64.next_down())), []);
        assert_eq!(asked(but(5.0, axis, 5f64.next_up()), [1.0; N]), []);
    }
}

fn k_at_the_edges<const N: usize>()
where
    Library: Axes<N>,
{
    let points: Vec<_> = (0..512).map(|i| at(f64::from(i % 8), f64::from(i / 64), i)).collect();
    let tree = holding::<N>(100, &points);
    for k in [0, 1, 511, 512, 513, 1 << 16, (1 << 16) + 1, 1 << 31, u32::MAX] {
        assert_eq!(payloads(tree.knn_search_at([0.0; N], k)).len(), k.min(512) as usize);
    }
}

fn capacities_at_the_edges<const N: usize>()
where
    Library: Axes<N>,
{
    let points: Vec<_> = (0..512).map(|i| at(f64::from(i % 8), f64::from(i / 64), i)).collect();
    for capacity in [512, 1 << 16, (1 << 16) + 1, 1 << 31, u32::MAX] {
        let mut tree = holding::<N>(capacity, &points);
        assert_eq!(nodes(&tree), 1);
        assert_eq!(tree.delete(points[0]), Ok(()));
        assert_eq!((nodes(&tree), tree.len()), (1, Ok(511)));
    }
}

fn payloads_of_all_bits<const N: usize>()
where
    Library: Axes<N>,
{
    let all = [0, 1 << 8, 1 << 16, 1 << 24, 1 << 31, u32::MAX];
    let mut tree = holding::<N>(8, &all.map(|payload| at(1.0, 1.0, payload)));
    assert_eq!(payloads(tree.range_search_at([1.0; N], 0.0)), all);
    for payload in all {
        assert_eq!(tree.contains(at(1.0, 1.0, payload)), Ok(true));
        assert_eq!(tree.contains(at(1.0, 1.0, payload ^ 2)), Ok(false));
        assert_eq!(tree.delete(at(1.0, 1.0, payload)), Ok(()));
        assert_eq!(tree.contains(at(1.0, 1.0, payload)), Ok(false));
    }
}
