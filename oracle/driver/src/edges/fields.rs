//! Words, numbers of fields, floats and whole numbers.

use super::{each, lined, tree_lines, Named};
use crate::space::Space;

/// Floats that are none or nearly none, and some that are one.
const FLOATS: &str = "3ff0000000000000|3FF000000000000|3FF00000000000000|3FF000000000000G|3FF000000000000a|\
    0x3FF00000000000| 3FF000000000000|3FF000000000000 |+3FF000000000000|-3FF000000000000|1|1.0|0||NaN|inf|\
    3FF0_0000_0000_00|@FF0000000000000|/FF0000000000000|:FF0000000000000|`FF0000000000000|gFF0000000000000|\
    3FF0000000000000|BFF0000000000000|FFFFFFFFFFFFFFFF|7FF0000000000000|8000000000000000|0000000000000001|\
    4020000000000001";

/// Whole numbers at the edges, and what is nearly one.
const WHOLES: &str =
    "0|1|9|10|00|01|007|4294967295|4294967296|4294967300|4294967305|4300000000|5000000000|9999999999|\
    10000000000|42949672950|04294967295|18446744073709551615|18446744073709551616|18446744073709551623|\
    340282366920938463463374607431768211456|-1|-0|+1|1.0|1.|.1|1e3|| 1|1 |0x1|1_0|1a|A|/|:|\u{967}|1\t";

pub fn all<S: Space>() -> Vec<Named> {
    let one = ",3FF0000000000000";
    let insert = |x: &str, payload: &str| format!("insert,{x}{},{payload}", one.repeat(S::AXES - 1));
    let nearest = |k: &str| format!("knn{},{k}", one.repeat(S::AXES));
    let create = |capacity: &str| {
        let sides = [",0000000000000000".repeat(S::AXES), ",4020000000000000".repeat(S::AXES)].concat();
        format!("{}{sides},{capacity}", S::WORD)
    };
    vec![
        behind::<S>("words", each::<S>().iter().flat_map(|line| other_words::<S>(line))),
        behind::<S>("numbers-of-fields", each::<S>().iter().flat_map(|line| other_fields(line))),
        behind::<S>("commas", (0..150).map(|many| ",".repeat(many))),
        behind::<S>("floats", FLOATS.split('|').map(|x| insert(x, "3"))),
        behind::<S>("whole-payloads", WHOLES.split('|').map(|payload| insert(&one[1..], payload))),
        behind::<S>("whole-k", WHOLES.split('|').map(nearest)),
        behind::<S>("whole-capacities", WHOLES.split('|').map(create)),
    ]
}

/// A tree, these lines, and `len`.
fn behind<S: Space>(name: &str, lines: impl Iterator<Item = String>) -> Named {
    lined(name, tree_lines::<S>().into_iter().chain(lines).chain(["len".into()]))
}

/// A record with other words for its own.
fn other_words<S: Space>(line: &str) -> Vec<String> {
    let (word, rest) = line.split_at(line.find(',').unwrap_or(line.len()));
    let (first, behind) = word.split_at(1);
    let cut = &word[..word.len() - 1];
    let tree = if S::AXES == 2 { "oct" } else { "quad" };
    let capital = first.to_uppercase() + behind;
    let capitals = word.to_uppercase();
    let words = format!(
        "{capital}|{capitals}|{word}s|{cut}|{behind}| {word}|{word} |{word}{word}||,{word}|{word}\t|{tree}|size|remove|is_empty"
    );
    words.split('|').map(|word| format!("{word}{rest}")).collect()
}

/// A record with fewer fields, and with more.
fn other_fields(line: &str) -> Vec<String> {
    let fields: Vec<&str> = line.split(',').collect();
    let fewer = (0..fields.len()).map(|many| fields[..many].join(","));
    let more = |field: &'static str, most: usize| {
        (1..=most).map(move |many| format!("{line}{}", field.repeat(many)))
    };
    fewer.chain(more(",0", 8)).chain(more(",0000000000000000", 3)).chain(more(",", 3)).collect()
}
