//! No tree yet, and creations that are refused.

use super::{create, each, lined, tree_lines, Named};
use crate::record::Command;
use crate::space::Space;

/// A creation of 8 by 8 with one number replaced.
fn side<S: Space>(value: f64, place: usize, capacity: u32) -> String {
    let mut sides = [vec![0.0; S::AXES], vec![8.0; S::AXES]].concat();
    sides[place] = value;
    Command::Create(sides, capacity).write(S::WORD)
}

/// Creations that are refused, by 3, by 4 and by 9.
fn refused<S: Space>() -> Vec<String> {
    let most = 2f64.powi(500);
    let bad = [f64::NAN, f64::INFINITY, f64::NEG_INFINITY, most.next_up(), -most.next_up()];
    let last = 2 * S::AXES - 1;
    let mut all = vec![
        create::<S>(0),
        side::<S>(f64::NAN, 0, 0),
        side::<S>(-1.0, S::AXES, 0),
        side::<S>(-1.0, S::AXES, 1),
        side::<S>(-f64::from_bits(1), last, 1),
        create::<S>(1) + ",",
    ];
    for place in 0..=last {
        all.extend(bad.iter().map(|value| side::<S>(*value, place, 1)));
    }
    all
}

/// Creations that are just accepted.
fn accepted<S: Space>() -> Vec<String> {
    let values = [0.0, -0.0, 2f64.powi(500), f64::from_bits(1)];
    (0..2 * S::AXES).flat_map(|place| values.map(|value| side::<S>(value, place, 1))).collect()
}

pub fn all<S: Space>() -> Vec<Named> {
    let (tree, no_tree) = (tree_lines::<S>(), each::<S>()[..8].to_vec());
    // Those that leave the tree as it is.
    let asks = &each::<S>()[2..7];
    let asked = |lines: Vec<String>| lines.into_iter().flat_map(|line| [&[line], asks].concat()).collect();
    let bad = no_tree.iter().map(|line| format!("{line},")).collect();
    vec![
        lined("no-tree", &no_tree),
        lined("no-tree-and-refused-creations", [no_tree.clone(), bad, refused::<S>(), no_tree].concat()),
        lined("refused-creations-keep-the-tree", [tree.clone(), asked(refused::<S>())].concat()),
        lined("a-creation-replaces-the-tree", [tree, asks.to_vec(), asked(vec![create::<S>(3)])].concat()),
        lined("boundaries-just-accepted", asked(accepted::<S>()) as Vec<String>),
    ]
}
