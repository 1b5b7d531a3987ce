//! Document 01's worked example and each of its site-plan examples, and those of the octree beside them.

use super::plain::{self, Step};
use super::report::{Outcome, Report};
use crate::program::answers;
use crate::room::Room;
use crate::space::{Plane, Solid, Space};
use spart::private::span;

const WORKED: &str = "\
quad,0000000000000000,0000000000000000,4020000000000000,4020000000000000,1
insert,4010000000000000,3FF0000000000000,7
insert,3FF0000000000000,3FF0000000000000,9
range,4010000000000000,3FF0000000000000,4008000000000000
delete,4010000000000000,3FF0000000000000,8
len
";

const WORKED_ANSWERS: &str = "\
0
0
0
0,2,3FF0000000000000,3FF0000000000000,9,4010000000000000,3FF0000000000000,7
2
0,2
";

pub fn run(report: &mut Report) {
    report.test("example worked", worked());
    report.test("example span", spans());
    for (name, steps) in PLANE {
        report.test(&format!("example {name}"), plain::run::<Plane>(steps));
    }
    report.test("example outside-with-512-held", full::<Plane>());
    for (name, steps) in SOLID {
        report.test(&format!("example octree-{name}"), plain::run::<Solid>(steps));
    }
    report.test("example octree-outside-with-512-held", full::<Solid>());
}

fn worked() -> Outcome {
    let printed = answers::<Room<Plane>>(Plane::AXES, Plane::WORD, WORKED.as_bytes());
    let wanted = WORKED_ANSWERS.replace('\n', "\r\n");
    if printed == wanted.as_bytes() {
        Ok("6 records".into())
    } else {
        Err(String::from_utf8_lossy(&printed).into_owned())
    }
}

fn spans() -> Outcome {
    let table = [(-3.0 * 2f64.powi(-55), 1.0, 1.0 + 2f64.powi(-52)), (0.0, 0.0, 0.0), (1.0, 0.0, -1.0)];
    match table.iter().find(|(lo, hi, wanted)| span(*lo, *hi).to_bits() != wanted.to_bits()) {
        None => Ok("3 values".into()),
        Some((lo, hi, _)) => Err(format!("span({lo:e}, {hi:e}) is {:e}", span(*lo, *hi))),
    }
}

/// Every example that records can say, as a stream of records with its name.
pub fn streams<S: Space>() -> Vec<(&'static str, Vec<u8>)> {
    let (examples, worked) =
        if S::AXES == 2 { (PLANE, Some(("worked", WORKED.into()))) } else { (SOLID, None) };
    let examples = examples.iter().map(|(name, steps)| (*name, plain::records(steps)));
    let full = full_steps::<S>();
    worked
        .into_iter()
        .chain(examples)
        .chain([("outside-with-512-held", plain::records(&borrowed(&full)))])
        .collect()
}

/// The examples as one stream. Before them stand records that find no tree, the first with the mark before it
/// and CRLF behind it; behind them records that are not understood, the largest whole number, and a last
/// record with no line end.
pub fn joined<S: Space>() -> Vec<u8> {
    let point = vec!["3FF0000000000000"; S::AXES].join(",");
    let fewer = vec!["3FF0000000000000"; S::AXES - 1].join(",");
    let boundary = [vec!["0000000000000000"; S::AXES], vec!["4020000000000000"; S::AXES]].concat().join(",");
    let other = if S::AXES == 2 { "oct" } else { "quad" };
    let before = format!("len\r\ninsert,{point},1\nclear\nnothing\n");
    let behind = [
        format!("insert,3ff0000000000000,{fewer},1"),
        format!("insert,\"3FF0000000000000\",{fewer},1"),
        format!("insert,{point},01"),
        format!("insert,{point},4294967296"),
        format!("insert,{fewer},1"),
        format!("insert,{point},1,"),
        "Len".into(),
        " len".into(),
        String::new(),
        format!("{other},{boundary},1"),
        "x".repeat(129),
        format!("{},{boundary},4294967295", S::WORD),
        format!("insert,{point},4294967295"),
        format!("contains,{point},4294967295"),
        "len\r\nlen".into(),
    ];
    let examples = streams::<S>().into_iter().flat_map(|(_, stream)| stream).collect();
    [b"\xef\xbb\xbf".to_vec(), before.into(), examples, behind.join("\n").into()].concat()
}

type Owned = (String, String);

fn borrowed(steps: &[Owned]) -> Vec<Step<'_>> {
    steps.iter().map(|(asked, answer)| (asked.as_str(), answer.as_str())).collect()
}

fn full<S: Space>() -> Outcome {
    plain::run::<S>(&borrowed(&full_steps::<S>()))
}

/// (8,8.5) gets 1 also where 512 points are held, and a point inside gets 5.
fn full_steps<S: Space>() -> Vec<Owned> {
    let place = |first: &str, last: &str| [vec![first; S::AXES - 1], vec![last]].concat().join(" ");
    let boundary = [vec!["0"; S::AXES], vec!["8"; S::AXES]].concat().join(" ");
    let mut steps = vec![(format!("{} {boundary} 600", S::WORD), "0".to_string())];
    steps.extend((0..512).map(|i| (format!("insert {} {i}", place("1", "1")), "0".to_string())));
    steps.push((format!("insert {} 512", place("8", "8.5")), "1".into()));
    steps.push((format!("insert {} 513", place("8", "8")), "5".into()));
    steps
}

/// Records in plain numbers with their answers; `plain` says what the lines with a question mark ask.
const PLANE: &[(&str, &[Step])] = &[
    ("inside", &[("quad 0 0 8 8 1", "0"), ("insert 8 8 1", "0"), ("insert 8 8.5 2", "1")]),
    (
        "boundaries",
        &[
            ("quad 0 0 0 8 1", "0"),
            ("quad 0 0 -1 8 1", "4"),
            ("quad 0 0 8 -1 1", "4"),
            ("quad 0 0 2^500 2^500 1", "0"),
            ("quad 0 0 2^500+ 8 1", "4"),
            ("quad NaN 0 8 8 0", "3"),
            ("quad 0 0 -0 -0 1", "0"),
        ],
    ),
    (
        "midplane",
        &[
            ("quad 0 0 8 8 1", "0"),
            ("insert 4 1 1", "0"),
            ("insert 1 1 2", "0"),
            ("?nodes", "5"),
            ("?lists", "1@0,0:2 1@4,0:1"),
            ("box 4 0 0 8", "0 1 | 4 1 1"),
        ],
    ),
    (
        "equal-points",
        &[
            ("quad 0 0 8 8 1", "0"),
            ("insert 1 1 1", "0"),
            ("insert 1 1 2", "0"),
            ("?nodes", "129"),
            ("?lists", "32@1,1:1,2"),
            ("insert 1 1 3", "0"),
            ("?nodes", "129"),
            ("?lists", "32@1,1:1,2,3"),
            ("delete 1 1 1", "0"),
            ("?nodes", "129"),
            ("delete 1 1 3", "0"),
            ("?nodes", "1"),
            ("?lists", "0@0,0:2"),
        ],
    ),
    (
        "node-limit",
        &[
            ("quad 0 0 8 8 1", "0"),
            ("insert 1 1 1", "0"),
            ("insert 1 1 2", "0"),
            ("insert 5 5 3", "0"),
            ("insert 5 5 4", "0"),
            ("?nodes", "253"),
            ("insert 5 1 5", "0"),
            ("?would 5 1", "377"),
            ("insert 5 1 6", "6"),
            ("len", "0 5"),
            ("delete 5 5 3", "0"),
            ("insert 5 1 6", "0"),
            ("?nodes", "253"),
        ],
    ),
    (
        "merge-order",
        &[
            ("quad 0 0 8 8 2", "0"),
            ("insert 1 1 1", "0"),
            ("insert 5 1 2", "0"),
            ("knn 3 1 1", "0 1 | 1 1 1"),
            ("insert 1 5 3", "0"),
            ("?nodes", "5"),
            ("delete 1 5 3", "0"),
            ("?nodes", "1"),
            ("?lists", "0@0,0:2,1"),
            ("knn 3 1 1", "0 1 | 5 1 2"),
            ("range 3 1 8", "0 2 | 5 1 2 | 1 1 1"),
        ],
    ),
    (
        "radii",
        &[
            ("quad 0 0 8 8 2", "0"),
            ("insert 1 1 1", "0"),
            ("insert 5 1 2", "0"),
            ("range 1 1 -1", "0 0"),
            ("range 1 1 NaN", "0 0"),
            ("range 1 1 -0", "0 1 | 1 1 1"),
        ],
    ),
    (
        "nan-centre",
        &[
            ("quad 0 0 8 8 3", "0"),
            ("insert 1 1 1", "0"),
            ("insert 5 1 2", "0"),
            ("insert 1 5 3", "0"),
            ("knn 1 1 0", "0 0"),
            ("knn NaN NaN 2", "0 2 | 1 1 1 | 1 5 3"),
            ("knn NaN 1 2", "0 2 | 1 1 1 | 1 5 3"),
        ],
    ),
    (
        "squares-compute-to-0",
        &[("quad 0 0 8 8 1", "0"), ("insert 0 0 1", "0"), ("range 2^-540 0 2^-600", "0 1 | 0 0 1")],
    ),
];

const SOLID: &[(&str, &[Step])] = &[
    (
        "worked",
        &[
            ("oct 0 0 0 8 8 8 1", "0"),
            ("insert 4 1 0 7", "0"),
            ("insert 1 1 0 9", "0"),
            ("range 4 1 0 3", "0 2 | 1 1 0 9 | 4 1 0 7"),
            ("delete 4 1 0 8", "2"),
            ("len", "0 2"),
        ],
    ),
    (
        "route",
        &[
            ("oct 0 0 0 8 8 8 1", "0"),
            ("?route 4 4 4", "7"),
            ("insert 4 4 4 1", "0"),
            ("insert 1 1 1 2", "0"),
            ("?nodes", "9"),
            ("?lists", "1@0,0,0:2 1@4,4,4:1"),
            ("box 4 4 4 0 0 0", "0 1 | 4 4 4 1"),
        ],
    ),
    (
        "equal-points",
        &[
            ("oct 0 0 0 8 8 8 1", "0"),
            ("insert 1 1 1 1", "0"),
            ("insert 1 1 1 2", "0"),
            ("?nodes", "257"),
            ("?lists", "32@1,1,1:1,2"),
            ("insert 1 1 1 3", "0"),
            ("?nodes", "257"),
            ("delete 1 1 1 1", "0"),
            ("delete 1 1 1 3", "0"),
            ("?nodes", "1"),
        ],
    ),
    (
        "boundaries",
        &[
            ("oct 0 0 0 0 8 8 1", "0"),
            ("oct 0 0 0 8 8 -1 1", "4"),
            ("oct 0 0 0 2^500 2^500 2^500 1", "0"),
            ("oct 0 0 -2^500+ 8 8 8 1", "4"),
            ("oct 0 0 NaN 8 8 8 0", "3"),
        ],
    ),
    (
        "node-limit",
        &[
            ("oct 0 0 0 8 8 8 1", "0"),
            ("insert 1 1 1 1", "0"),
            ("insert 1 1 1 2", "0"),
            ("insert 5 5 5 3", "0"),
            ("?would 5 5 5", "505"),
            ("insert 5 5 5 4", "6"),
            ("delete 1 1 1 1", "0"),
            ("insert 5 5 5 4", "0"),
            ("?nodes", "257"),
        ],
    ),
    (
        "merge-order",
        &[
            ("oct 0 0 0 8 8 8 2", "0"),
            ("insert 5 1 1 2", "0"),
            ("insert 1 1 1 1", "0"),
            ("insert 1 5 1 3", "0"),
            ("delete 1 5 1 3", "0"),
            ("?lists", "0@0,0,0:1,2"),
            ("knn 3 1 1 1", "0 1 | 1 1 1 1"),
        ],
    ),
    (
        "nan-centre",
        &[
            ("oct 0 0 0 8 8 8 3", "0"),
            ("insert 1 1 1 1", "0"),
            ("insert 5 1 1 2", "0"),
            ("insert 1 5 1 3", "0"),
            ("knn 1 1 1 0", "0 0"),
            ("knn 1 1 NaN 2", "0 2 | 1 1 1 1 | 1 5 1 3"),
        ],
    ),
];
