//! Each tree by its own names: points and boxes with named coordinates, and pieces written out.

macro_rules! named {
    (
        $module:ident, $tree:ident, $point:ident [$($axis:ident),*], $volume:ident [$($extent:ident),*],
        $head:literal, $nodes:literal, $points:literal
    ) => {
        mod $module {
            use ralikudo::$module::calls::{Answer, Lent, Shared};
            use ralikudo::$module::{bytes, points, Pieces};
            use ralikudo::{Bulk, $point, $tree, $volume, Refusal};

            const PLAN: $volume = $volume { $($axis: 0.0,)* $($extent: 8.0),* };

            fn at(value: f64, payload: u32) -> $point {
                $point { $($axis: value,)* payload }
            }

            #[test]
            fn the_tree() -> Result<(), Refusal> {
                let mut tree = $tree::new(PLAN, 1)?;
                let [near, far] = [at(1.0, 7), at(5.0, 9)];
                assert_eq!(tree.insert_bulk(&[near, far]), Bulk { stored: 2, stopped: None });
                $(let $axis = 1.5;)*
                assert_eq!(tree.range_search($($axis,)* 1.0)?, [near]);
                assert_eq!(tree.knn_search($($axis,)* 2)?, [near, far]);
                assert_eq!(tree.range_search_bbox($volume { x: 5.0, ..PLAN })?, [far]);
                assert_eq!(tree.insert($point { x: 9.0, ..near }), Err(Refusal::Outside));
                Ok(())
            }

            #[test]
            fn the_calls() {
                let mut pieces =
                    Pieces { head: [1; $head], nodes: [2; $nodes], links: [3; 2052], points: [4; $points] };
                let Pieces { head, nodes, links, points: places } = &mut pieces;
                let mut lent = Lent { head, nodes, links, points: places };
                assert_eq!(lent.create(PLAN, 1).number, 0);
                let list = [at(1.0, 7), at(5.0, 9)];
                let (mut coords, mut payloads) = bytes(&list);
                assert_eq!(lent.insert_bulk(&coords, &payloads).figure, 2);
                coords.fill(0);
                payloads.fill(0);
                let Shared { head, nodes, links, points: places } = lent.shared();
                let shared = Shared { head, nodes, links, points: places };
                let answer = Answer { coords: &mut coords, payloads: &mut payloads };
                $(let $axis = 1.0;)*
                assert_eq!(shared.range_search($($axis,)* 9.0, answer).figure, 2);
                assert_eq!(points(&coords, &payloads, 2), list);
                let answer = Answer { coords: &mut coords, payloads: &mut payloads };
                assert_eq!(shared.knn_search($($axis,)* 1, answer).figure, 1);
                assert_eq!(points(&coords, &payloads, 1), list[..1]);
            }
        }
    };
}

named!(quadtree, Quadtree, Point2D[x, y], Rectangle[width, height], 40, 5504, 12312);
named!(octree, Octree, Point3D[x, y, z], Cube[width, height, depth], 56, 5248, 16416);
