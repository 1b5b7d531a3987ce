
open_tree!(Octree, Cube, Point3D);
