//! What the programs are told: a tree, or both, and how many millions there are.

use std::str::FromStr;

/// Which tree a program is asked about.
#[derive(Clone, Copy, Debug, PartialEq, Eq)]
pub enum Tree {
    Quadtree,
    Octree,
}

impl FromStr for Tree {
    type Err = ();

    fn from_str(word: &str) -> Result<Tree, ()> {
        match word {
            "quad" | "quadtree" => Ok(Tree::Quadtree),
            "oct" | "octree" => Ok(Tree::Octree),
            _ => Err(()),
        }
    }
}

/// The words of this program, TREE and then MILLIONS, which is 1 where it is left out.
pub fn words() -> Option<(Tree, f64)> {
    let mut words = std::env::args().skip(1);
    let tree = words.next()?.parse().ok()?;
    let millions = words.next().map_or(Ok(1.0), |word| word.parse()).ok()?;
    words.next().is_none().then_some((tree, millions))
}
