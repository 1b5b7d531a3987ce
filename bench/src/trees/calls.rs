//! A tree's calls of both kinds: the inner ones rely on a sound tree, the public ones test for it first.

use ralikudo::generic::{Answer, Axes, Lent, Library, Point, Shared, Volume};

type In = *const u8;
type Out = *mut u8;

/// The calls that are timed, on whole slices. Each gives its reply number.
pub trait Calls<const N: usize>: 'static {
    fn insert(tree: &mut Lent<N>, point: Point<N>) -> u32;
    fn delete(tree: &mut Lent<N>, point: Point<N>) -> u32;
    fn contains(tree: Shared<N>, point: Point<N>, yes: &mut u32) -> u32;
    fn radius(tree: Shared<N>, at: [f64; N], radius: f64, answer: Answer, count: &mut u32) -> u32;
    fn in_box(tree: Shared<N>, query: Volume<N>, answer: Answer, count: &mut u32) -> u32;
    fn nearest(tree: Shared<N>, at: [f64; N], k: u32, answer: Answer, count: &mut u32) -> u32;
}

/// The soundness test alone.
pub trait Sound<const N: usize> {
    fn sound(tree: Shared<N>) -> bool;
}

/// Those of the host's library.
pub struct Public;

impl<const N: usize> Calls<N> for Public
where
    Library: Axes<N>,
{
    fn insert(tree: &mut Lent<N>, point: Point<N>) -> u32 {
        Library::insert(tree, point)
    }
    fn delete(tree: &mut Lent<N>, point: Point<N>) -> u32 {
        Library::delete(tree, point)
    }
    fn contains(tree: Shared<N>, point: Point<N>, yes: &mut u32) -> u32 {
        Library::contains(tree, point, yes)
    }
    fn radius(tree: Shared<N>, at: [f64; N], radius: f64, answer: Answer, count: &mut u32) -> u32 {
        Library::range_search(tree, at, radius, answer, count)
    }
    fn in_box(tree: Shared<N>, query: Volume<N>, answer: Answer, count: &mut u32) -> u32 {
        Library::range_search_bbox(tree, query, answer, count)
    }
    fn nearest(tree: Shared<N>, at: [f64; N], k: u32, answer: Answer, count: &mut u32) -> u32 {
        Library::knn_search(tree, at, k, answer, count)
    }
}

/// Those that `probe` lets C call.
pub struct Inner;

/// Declares the inner calls of a tree, which have the signatures of the public ones, and makes them safe to
/// call.
#[rustfmt::skip]
macro_rules! inner {
    (
        $axes:literal, [$($axis:ident),*], [$($extent:ident),*];
        $sound:ident, $insert:ident, $delete:ident, $contains:ident,
        $radius:ident, $in_box:ident, $nearest:ident
    ) => {
        extern "C" {
            fn $sound(
                _: In, _: usize, _: In, _: usize, _: In, _: usize, _: In, _: usize,
            ) -> bool;
            fn $insert(
                _: In, _: usize, _: Out, _: usize, _: Out, _: usize, _: Out, _: usize,
                $($axis: f64,)* payload: u32,
            ) -> u32;
            fn $delete(
                _: In, _: usize, _: Out, _: usize, _: Out, _: usize, _: In, _: usize,
                $($axis: f64,)* payload: u32,
            ) -> u32;
            fn $contains(
                _: In, _: usize, _: In, _: usize, _: In, _: usize, _: In, _: usize,
                $($axis: f64,)* payload: u32, yes: *mut u32,
            ) -> u32;
            fn $radius(
                _: In, _: usize, _: In, _: usize, _: In, _: usize, _: In, _: usize,
                $($axis: f64,)* radius: f64, coords: Out, _: usize, payloads: Out, _: usize, count: *mut u32,
            ) -> u32;
            fn $in_box(
                _: In, _: usize, _: In, _: usize, _: In, _: usize, _: In, _: usize,
                $($axis: f64,)* $($extent: f64,)*
                coords: Out, _: usize, payloads: Out, _: usize, count: *mut u32,
            ) -> u32;
            fn $nearest(
                _: In, _: usize, _: In, _: usize, _: In, _: usize, _: In, _: usize,
                $($axis: f64,)* k: u32, coords: Out, _: usize, payloads: Out, _: usize, count: *mut u32,
            ) -> u32;
        }

        // Every call lends whole slices, no two of which overlap.
        impl Calls<$axes> for Inner {
            fn insert(tree: &mut Lent<$axes>, point: Point<$axes>) -> u32 {
                let (Lent { head, nodes, links, points }, [$($axis),*]) = (tree, point.at);
                unsafe {
                    $insert(
                        head.as_ptr(), head.len(), nodes.as_mut_ptr(), nodes.len(),
                        links.as_mut_ptr(), links.len(), points.as_mut_ptr(), points.len(),
                        $($axis,)* point.payload,
                    )
                }
            }
            fn delete(tree: &mut Lent<$axes>, point: Point<$axes>) -> u32 {
                let (Lent { head, nodes, links, points }, [$($axis),*]) = (tree, point.at);
                unsafe {
                    $delete(
                        head.as_ptr(), head.len(), nodes.as_mut_ptr(), nodes.len(),
                        links.as_mut_ptr(), links.len(), points.as_ptr(), points.len(),
                        $($axis,)* point.payload,
                    )
                }
            }
            fn contains(tree: Shared<$axes>, point: Point<$axes>, yes: &mut u32) -> u32 {
                let (Shared { head, nodes, links, points }, [$($axis),*]) = (tree, point.at);
                unsafe {
                    $contains(
                        head.as_ptr(), head.len(), nodes.as_ptr(), nodes.len(),
                        links.as_ptr(), links.len(), points.as_ptr(), points.len(),
                        $($axis,)* point.payload, yes,
                    )
                }
            }
            fn radius(
                tree: Shared<$axes>, [$($axis),*]: [f64; $axes], radius: f64, answer: Answer, count: &mut u32,
            ) -> u32 {
                let (Shared { head, nodes, links, points }, Answer { coords, payloads }) = (tree, answer);
                unsafe {
                    $radius(
                        head.as_ptr(), head.len(), nodes.as_ptr(), nodes.len(),
                        links.as_ptr(), links.len(), points.as_ptr(), points.len(), $($axis,)* radius,
                        coords.as_mut_ptr(), coords.len(), payloads.as_mut_ptr(), payloads.len(), count,
                    )
                }
            }
            fn in_box(tree: Shared<$axes>, query: Volume<$axes>, answer: Answer, count: &mut u32) -> u32 {
                let (Shared { head, nodes, links, points }, Answer { coords, payloads }) = (tree, answer);
                let Volume { corner: [$($axis),*], extent: [$($extent),*] } = query;
                unsafe {
                    $in_box(
                        head.as_ptr(), head.len(), nodes.as_ptr(), nodes.len(),
                        links.as_ptr(), links.len(), points.as_ptr(), points.len(), $($axis,)* $($extent,)*
                        coords.as_mut_ptr(), coords.len(), payloads.as_mut_ptr(), payloads.len(), count,
                    )
                }
            }
            fn nearest(
                tree: Shared<$axes>, [$($axis),*]: [f64; $axes], k: u32, answer: Answer, count: &mut u32,
            ) -> u32 {
                let (Shared { head, nodes, links, points }, Answer { coords, payloads }) = (tree, answer);
                unsafe {
                    $nearest(
                        head.as_ptr(), head.len(), nodes.as_ptr(), nodes.len(),
                        links.as_ptr(), links.len(), points.as_ptr(), points.len(), $($axis,)* k,
                        coords.as_mut_ptr(), coords.len(), payloads.as_mut_ptr(), payloads.len(), count,
                    )
                }
            }
        }

        impl Sound<$axes> for Inner {
            fn sound(tree: Shared<$axes>) -> bool {
                let Shared { head, nodes, links, points } = tree;
                unsafe {
                    $sound(
                        head.as_ptr(), head.len(), nodes.as_ptr(), nodes.len(),
                        links.as_ptr(), links.len(), points.as_ptr(), points.len(),
                    )
                }
            }
        }
    };
}

inner! {
    2, [x, y], [width, height];
    probe_quadtree_sound, probe_quadtree_insert, probe_quadtree_delete, probe_quadtree_contains,
    probe_quadtree_range_search, probe_quadtree_range_search_bbox, probe_quadtree_knn_search
}

inner! {
    3, [x, y, z], [width, height, depth];
    probe_octree_sound, probe_octree_insert, probe_octree_delete, probe_octree_contains,
    probe_octree_range_search, probe_octree_range_search_bbox, probe_octree_knn_search
}
