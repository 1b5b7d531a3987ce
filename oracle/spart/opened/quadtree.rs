
open_tree!(Quadtree, Rectangle, Point2D);
