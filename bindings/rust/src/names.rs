//! What a host names of one tree: its points and boxes with named coordinates, and the generic types for its axes.

macro_rules! names {
    ($axes:literal, $tree:ident, $point:ident { $($axis:ident),* }, $volume:ident { $($extent:ident),* }) => {
        use $crate::generic::{self, Point, Shared, Tree, Volume};
        use $crate::Refusal;

        /// A point with its payload.
        #[derive(Clone, Copy, Debug, PartialEq)]
        pub struct $point {
            $(pub $axis: f64,)*
            pub payload: u32,
        }

        /// A corner and the extents from there.
        #[derive(Clone, Copy, Debug, PartialEq)]
        pub struct $volume {
            $(pub $axis: f64,)*
            $(pub $extent: f64,)*
        }

        impl From<$point> for Point<$axes> {
            fn from($point { $($axis,)* payload }: $point) -> Self {
                Point { at: [$($axis),*], payload }
            }
        }

        impl From<Point<$axes>> for $point {
            fn from(Point { at: [$($axis),*], payload }: Point<$axes>) -> Self {
                $point { $($axis,)* payload }
            }
        }

        impl From<$volume> for Volume<$axes> {
            fn from($volume { $($axis,)* $($extent,)* }: $volume) -> Self {
                Volume { corner: [$($axis),*], extent: [$($extent),*] }
            }
        }

        pub type $tree = Tree<$axes>;
        pub type Pieces = generic::Pieces<$axes>;

        /// The calls on pieces that stand in the host's own memory.
        pub mod calls {
            pub use $crate::generic::Answer;
            pub type Shared<'a> = $crate::generic::Shared<'a, $axes>;
            pub type Lent<'a> = $crate::generic::Lent<'a, $axes>;
        }

        impl Shared<'_, $axes> {
            /// The figure is how many points were found.
            pub fn range_search(self, $($axis: f64,)* radius: f64, answer: calls::Answer) -> $crate::Reply {
                self.range_search_at([$($axis),*], radius, answer)
            }

            /// The figure is how many points were found.
            pub fn knn_search(self, $($axis: f64,)* k: u32, answer: calls::Answer) -> $crate::Reply {
                self.knn_search_at([$($axis),*], k, answer)
            }
        }

        impl Tree<$axes> {
            /// The points whose squared distance is at most the radius squared, in the order of the tree.
            pub fn range_search(&self, $($axis: f64,)* radius: f64) -> Result<Vec<$point>, Refusal> {
                self.range_search_at([$($axis),*], radius)
            }

            /// The k nearest points, the nearest first.
            pub fn knn_search(&self, $($axis: f64,)* k: u32) -> Result<Vec<$point>, Refusal> {
                self.knn_search_at([$($axis),*], k)
            }
        }

        /// Points as the bytes that a bulk insert takes: coordinates and payloads.
        pub fn bytes(points: &[$point]) -> (Vec<u8>, Vec<u8>) {
            generic::bytes(points)
        }

        /// The first `count` points that stand in the bytes of an answer, or as many as there are.
        pub fn points(coords: &[u8], payloads: &[u8], count: usize) -> Vec<$point> {
            generic::points(coords, payloads, count)
        }
    };
}
