//! The C functions of quadtree.h and octree.h by their own names. A slice is a pointer and a length.

use crate::generic::{Answer, Axes, Lent, Library, Point, Shared, Volume};

type In = *const u8;
type Out = *mut u8;

/// Declares the functions of a tree and has the library answer with them. The trees differ in the number of
/// coordinates only.
#[rustfmt::skip]
macro_rules! functions {
    (
        $axes:literal: $point:path, [$($axis:ident),*], [$($extent:ident),*];
        head $head:literal, nodes $nodes:literal, points $points:literal;
        $create:ident, $insert:ident, $insert_bulk:ident, $delete:ident, $clear:ident,
        $contains:ident, $len:ident, $is_empty:ident,
        $range_search:ident, $range_search_bbox:ident, $knn_search:ident $(,)?
    ) => {
        extern "C" {
            pub fn $create(
                head: Out, _: usize, nodes: Out, _: usize, links: Out, _: usize, points: In, _: usize,
                $($axis: f64,)* $($extent: f64,)* capacity: u32,
            ) -> u32;

            pub fn $insert(
                head: In, _: usize, nodes: Out, _: usize, links: Out, _: usize, points: Out, _: usize,
                $($axis: f64,)* payload: u32,
            ) -> u32;

            pub fn $insert_bulk(
                head: In, _: usize, nodes: Out, _: usize, links: Out, _: usize, points: Out, _: usize,
                coords: In, _: usize, payloads: In, _: usize, stored: *mut usize,
            ) -> u32;

            pub fn $delete(
                head: In, _: usize, nodes: Out, _: usize, links: Out, _: usize, points: In, _: usize,
                $($axis: f64,)* payload: u32,
            ) -> u32;

            pub fn $clear(
                head: In, _: usize, nodes: Out, _: usize, links: Out, _: usize, points: In, _: usize,
            ) -> u32;

            pub fn $contains(
                head: In, _: usize, nodes: In, _: usize, links: In, _: usize, points: In, _: usize,
                $($axis: f64,)* payload: u32, yes: *mut u32,
            ) -> u32;

            pub fn $len(
                head: In, _: usize, nodes: In, _: usize, links: In, _: usize, points: In, _: usize,
                count: *mut u32,
            ) -> u32;

            pub fn $is_empty(
                head: In, _: usize, nodes: In, _: usize, links: In, _: usize, points: In, _: usize,
                yes: *mut u32,
            ) -> u32;

            pub fn $range_search(
                head: In, _: usize, nodes: In, _: usize, links: In, _: usize, points: In, _: usize,
                $($axis: f64,)* radius: f64,
                coords: Out, _: usize, payloads: Out, _: usize, count: *mut u32,
            ) -> u32;

            pub fn $range_search_bbox(
                head: In, _: usize, nodes: In, _: usize, links: In, _: usize, points: In, _: usize,
                $($axis: f64,)* $($extent: f64,)*
                coords: Out, _: usize, payloads: Out, _: usize, count: *mut u32,
            ) -> u32;

            pub fn $knn_search(
                head: In, _: usize, nodes: In, _: usize, links: In, _: usize, points: In, _: usize,
                $($axis: f64,)* k: u32,
                coords: Out, _: usize, payloads: Out, _: usize, count: *mut u32,
            ) -> u32;
        }

        // Every call lends whole slices, no two of which overlap; the functions take any bytes and any numbers.
        impl Axes<$axes> for Library {
            type Point = $point;
            type Head = [u8; $head];
            type Nodes = [u8; $nodes];
            type Points = [u8; $points];

            fn create(tree: &mut Lent<$axes>, boundary: Volume<$axes>, capacity: u32) -> u32 {
                let Lent { head, nodes, links, points } = tree;
                let Volume { corner: [$($axis),*], extent: [$($extent),*] } = boundary;
                unsafe {
                    $create(
                        head.as_mut_ptr(), head.len(), nodes.as_mut_ptr(), nodes.len(),
                        links.as_mut_ptr(), links.len(), points.as_ptr(), points.len(),
                        $($axis,)* $($extent,)* capacity,
                    )
                }
            }

            fn insert(tree: &mut Lent<$axes>, point: Point<$axes>) -> u32 {
                let Lent { head, nodes, links, points } = tree;
                let Point { at: [$($axis),*], payload } = point;
                unsafe {
                    $insert(
                        head.as_ptr(), head.len(), nodes.as_mut_ptr(), nodes.len(),
                        links.as_mut_ptr(), links.len(), points.as_mut_ptr(), points.len(),
                        $($axis,)* payload,
                    )
                }
            }

            fn insert_bulk(
                tree: &mut Lent<$axes>, coords: &[u8], payloads: &[u8], stored: &mut usize,
            ) -> u32 {
                let Lent { head, nodes, links, points } = tree;
                unsafe {
                    $insert_bulk(
                        head.as_ptr(), head.len(), nodes.as_mut_ptr(), nodes.len(),
                        links.as_mut_ptr(), links.len(), points.as_mut_ptr(), points.len(),
                        coords.as_ptr(), coords.len(), payloads.as_ptr(), payloads.len(), stored,
                    )
                }
            }

            fn delete(tree: &mut Lent<$axes>, point: Point<$axes>) -> u32 {
                let Lent { head, nodes, links, points } = tree;
                let Point { at: [$($axis),*], payload } = point;
                unsafe {
                    $delete(
                        head.as_ptr(), head.len(), nodes.as_mut_ptr(), nodes.len(),
                        links.as_mut_ptr(), links.len(), points.as_ptr(), points.len(),
                        $($axis,)* payload,
                    )
                }
            }

            fn clear(tree: &mut Lent<$axes>) -> u32 {
                let Lent { head, nodes, links, points } = tree;
                unsafe {
                    $clear(
                        head.as_ptr(), head.len(), nodes.as_mut_ptr(), nodes.len(),
                        links.as_mut_ptr(), links.len(), points.as_ptr(), points.len(),
                    )
                }
            }

            fn contains(tree: Shared<$axes>, point: Point<$axes>, yes: &mut u32) -> u32 {
                let Shared { head, nodes, links, points } = tree;
                let Point { at: [$($axis),*], payload } = point;
                unsafe {
                    $contains(
                        head.as_ptr(), head.len(), nodes.as_ptr(), nodes.len(),
                        links.as_ptr(), links.len(), points.as_ptr(), points.len(),
                        $($axis,)* payload, yes,
                    )
                }
            }

            fn len(tree: Shared<$axes>, count: &mut u32) -> u32 {
                let Shared { head, nodes, links, points } = tree;
                unsafe {
                    $len(
                        head.as_ptr(), head.len(), nodes.as_ptr(), nodes.len(),
                        links.as_ptr(), links.len(), points.as_ptr(), points.len(), count,
                    )
                }
            }

            fn is_empty(tree: Shared<$axes>, yes: &mut u32) -> u32 {
                let Shared { head, nodes, links, points } = tree;
                unsafe {
                    $is_empty(
                        head.as_ptr(), head.len(), nodes.as_ptr(), nodes.len(),
                        links.as_ptr(), links.len(), points.as_ptr(), points.len(), yes,
                    )
                }
            }

            fn range_search(
                tree: Shared<$axes>, at: [f64; $axes], radius: f64, answer: Answer, count: &mut u32,
            ) -> u32 {
                let Shared { head, nodes, links, points } = tree;
                let Answer { coords, payloads } = answer;
                let [$($axis),*] = at;
                unsafe {
                    $range_search(
                        head.as_ptr(), head.len(), nodes.as_ptr(), nodes.len(),
                        links.as_ptr(), links.len(), points.as_ptr(), points.len(), $($axis,)* radius,
                        coords.as_mut_ptr(), coords.len(), payloads.as_mut_ptr(), payloads.len(), count,
                    )
                }
            }

            fn range_search_bbox(
                tree: Shared<$axes>, query: Volume<$axes>, answer: Answer, count: &mut u32,
            ) -> u32 {
                let Shared { head, nodes, links, points } = tree;
                let Answer { coords, payloads } = answer;
                let Volume { corner: [$($axis),*], extent: [$($extent),*] } = query;
                unsafe {
                    $range_search_bbox(
                        head.as_ptr(), head.len(), nodes.as_ptr(), nodes.len(),
                        links.as_ptr(), links.len(), points.as_ptr(), points.len(), $($axis,)* $($extent,)*
                        coords.as_mut_ptr(), coords.len(), payloads.as_mut_ptr(), payloads.len(), count,
                    )
                }
            }

            fn knn_search(
                tree: Shared<$axes>, at: [f64; $axes], k: u32, answer: Answer, count: &mut u32,
            ) -> u32 {
                let Shared { head, nodes, links, points } = tree;
                let Answer { coords, payloads } = answer;
                let [$($axis),*] = at;
                unsafe {
                    $knn_search(
                        head.as_ptr(), head.len(), nodes.as_ptr(), nodes.len(),
                        links.as_ptr(), links.len(), points.as_ptr(), points.len(), $($axis,)* k,
                        coords.as_mut_ptr(), coords.len(), payloads.as_mut_ptr(), payloads.len(), count,
                    )
                }
            }
        }
    };
}

functions! {
    2: crate::Point2D, [x, y], [width, height];
    head 40, nodes 5504, points 12312;
    quadtree_create, quadtree_insert, quadtree_insert_bulk, quadtree_delete, quadtree_clear,
    quadtree_contains, quadtree_len, quadtree_is_empty,
    quadtree_range_search, quadtree_range_search_bbox, quadtree_knn_search,
}

functions! {
    3: crate::Point3D, [x, y, z], [width, height, depth];
    head 56, nodes 5248, points 16416;
    octree_create, octree_insert, octree_insert_bulk, octree_delete, octree_clear,
    octree_contains, octree_len, octree_is_empty,
    octree_range_search, octree_range_search_bbox, octree_knn_search,
}
