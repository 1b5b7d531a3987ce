//! What is private in a tree of the Rust, made readable.

/// A node as it stands in an opened tree.
pub struct Node<'a, V, P> {
    pub boundary: &'a V,
    pub depth: usize,
    pub divided: bool,
    pub count: usize,
    pub points: &'a [P],
}

/// The private functions of a tree.
pub trait Opened: Sized {
    type Volume;
    type Point;

    /// The number of the child that a point routes to.
    fn route(boundary: &Self::Volume, point: &Self::Point) -> usize;

    /// The boxes of the children, in the order of their numbers.
    fn parts(boundary: &Self::Volume) -> Vec<Self::Volume>;

    /// How many nodes the tree has, the root counted.
    fn nodes(&self) -> usize;

    /// How many nodes storing a point that is inside would add: the Rust stores it in a copy of one node.
    fn added(&self, point: &Self::Point) -> usize;

    /// The depth of the undivided node that a point routes to.
    fn depth_at(&self, point: &Self::Point) -> usize;

    /// Shows each node: itself, then its children in the order of their numbers.
    fn look(&self, show: &mut dyn FnMut(Node<Self::Volume, Self::Point>));
}

/// Written behind the text of a tree's module, where its private functions can be seen.
macro_rules! open_tree {
    ($tree:ident, $volume:ident, $point:ident) => {
        impl<T: Clone + PartialEq + std::fmt::Debug> $tree<T> {
            /// The undivided node that a point routes to.
            fn leaf(&self, point: &$point<T>) -> &Self {
                let mut node = self;
                while let Some(child) = node.children()[node.child_index(point)] {
                    node = child;
                }
                node
            }
        }

        impl<T: Clone + PartialEq + std::fmt::Debug> crate::opened::Opened for $tree<T> {
            type Volume = $volume;
            type Point = $point<T>;

            fn route(boundary: &$volume, point: &$point<T>) -> usize {
                Self::with_depth(boundary.clone(), 1, 0).child_index(point)
            }

            fn parts(boundary: &$volume) -> Vec<$volume> {
                let mut node = Self::with_depth(boundary.clone(), 1, 0);
                node.subdivide();
                let children = node.children().into_iter().flatten();
                children.map(|child| child.boundary.clone()).collect()
            }

            fn nodes(&self) -> usize {
                let children = self.children().into_iter().flatten();
                1 + children.map(|child| child.nodes()).sum::<usize>()
            }

            fn added(&self, point: &$point<T>) -> usize {
                let leaf = self.leaf(point);
                if leaf.points.len() < leaf.capacity || leaf.depth >= MAX_DEPTH {
                    return 0;
                }
                let mut grown = leaf.clone();
                grown.insert_within(point.clone());
                grown.nodes() - 1
            }

            fn depth_at(&self, point: &$point<T>) -> usize {
                self.leaf(point).depth
            }

            fn look(&self, show: &mut dyn FnMut(crate::opened::Node<$volume, $point<T>>)) {
                show(crate::opened::Node {
                    boundary: &self.boundary,
                    depth: self.depth,
                    divided: self.divided,
                    count: self.count,
                    points: &self.points,
                });
                for child in self.children().into_iter().flatten() {
                    child.look(show);
                }
            }
        }
    };
}
