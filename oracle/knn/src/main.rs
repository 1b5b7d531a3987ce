//! Compares our compiled candidate table with the Rust's heap, and with document 01's words where a heap
//! cannot be brought to the same state. The word MILLIONS says how many distances of each kind are offered.

mod case;
mod children;
mod judge;
mod lent;
mod sequences;

use case::Case;
use judge::{judge, judge_piece, Rule, Rust};
use oracle::check::Report;
use oracle::compare::{run as compare, Verdict};
use oracle::inputs::Form;
use oracle::random::Random;
use oracle::rules::table::before;
use oracle::space::{Plane, Solid};
use std::iter::repeat_with;
use std::process::ExitCode;

fn main() -> ExitCode {
    let millions = std::env::args().nth(1).map_or(Ok(1), |word| word.parse::<u64>());
    let Ok(millions) = millions else {
        eprintln!("oracle: knn takes a number of millions");
        return ExitCode::from(2);
    };
    let mut report = Report::default();
    offers(&mut report, millions * 1_000_000);
    offers_to_a_piece(&mut report, millions * 1_000_000);
    children(&mut report, millions * 500_000);
    less(&mut report, millions * 10_000_000);
    if report.all_passed() {
        ExitCode::SUCCESS
    } else {
        ExitCode::FAILURE
    }
}

/// Tells how the cases came out, or the smallest that failed.
fn test(
    report: &mut Report,
    name: &str,
    judge: impl Fn(&Case) -> Result<(), String>,
    cases: impl Iterator<Item = Case>,
) {
    let (mut many, mut offers) = (0u64, 0);
    for case in cases {
        many += 1;
        offers += case.offers.len();
        if judge(&case).is_err() {
            let smallest = case.smallest(|case| judge(case).is_err());
            let what = judge(&smallest).err().unwrap_or_default();
            return report.test(name, Err(format!("{smallest}: {what}")));
        }
    }
    let offers = if offers > 0 { format!(", {offers} offers") } else { String::new() };
    report.test(name, Ok(format!("{many} cases{offers}")));
}

fn offers(report: &mut Report, most: u64) {
    for (seed, (kind, draw)) in (100..).zip(sequences::KINDS) {
        let mut random = Random::new(seed);
        let mut offered = 0;
        let cases = std::iter::from_fn(|| {
            let case = sequences::sequence(&mut random, draw);
            let more = offered < most;
            offered += case.offers.len() as u64;
            more.then_some(case)
        });
        test(report, &format!("knn offers {kind}"), judge::<Rust>, cases);
    }
    let mut random = Random::new(2);
    let short = repeat_with(|| sequences::short(&mut random)).take(most as usize / 500);
    let prefixes = short.flat_map(|case| (0..=case.offers.len()).map(move |many| case.first(many)));
    test(report, "knn offers one by one", judge::<Rust>, prefixes);
    test(report, "knn offers, all short lists", judge::<Rust>, all_lists());
    test(report, "knn offers, all small tables", judge::<Rule>, all_tables());
    let mut random = Random::new(3);
    let any = repeat_with(|| sequences::any_table(&mut random)).take(most as usize);
    test(report, "knn offers, any table", judge::<Rule>, any);
}

/// The same offers to a table that is one piece: sequences of all kinds, and any tables.
fn offers_to_a_piece(report: &mut Report, most: u64) {
    let mut random = Random::new(5);
    let (mut offered, mut turn) = (0, 0);
    let cases = std::iter::from_fn(|| {
        let (_, draw) = sequences::KINDS[turn % sequences::KINDS.len()];
        let case = sequences::sequence(&mut random, draw);
        let more = offered < most;
        offered += case.offers.len() as u64;
        turn += 1;
        more.then_some(case)
    });
    test(report, "knn offers to a table in one piece", judge_piece::<Rust>, cases);
    let mut random = Random::new(6);
    let any = repeat_with(|| sequences::any_table(&mut random)).take(most as usize / 10);
    test(report, "knn offers to any table in one piece", judge_piece::<Rule>, any);
}

/// Numbers by which all short lists are made.
const FEW: [f64; 6] = [0.0, -0.0, 1.0, 2.0, f64::INFINITY, f64::NAN];

/// All lists of this length of those numbers.
fn lists(length: u32) -> impl Iterator<Item = Vec<f64>> {
    let of = FEW.len();
    (0..of.pow(length)).map(move |i| (0..length).map(|place| FEW[i / of.pow(place) % of]).collect())
}

/// Lists of up to six offers to empty tables of eight places, for k up to 7.
fn all_lists() -> impl Iterator<Item = Case> {
    let offers = (0..7).flat_map(lists);
    let empty = |k| Case { k, dist: vec![-1.0; 8], item: vec![7; 8], ..Case::default() };
    offers.flat_map(move |offers| (0..8).map(move |k| Case { offers: offers.clone(), ..empty(k) }))
}

/// Arrays of up to four places each with any distances of six, counts and k up to 5, one offer.
fn all_tables() -> impl Iterator<Item = Case> {
    let tables = (0..5).flat_map(lists);
    tables.flat_map(|dist| {
        (0..5 * 6 * 6 * 6).map(move |i| Case {
            k: i % 6,
            count: i / 6 % 6,
            dist: dist.clone(),
            item: vec![7; i / 216],
            offers: vec![FEW[i / 36 % 6]],
        })
    })
}

fn children(report: &mut Report, most: u64) {
    let by_rust = |case: &Case| children::judge(case, children::by_rust);
    let by_rule = |case: &Case| children::judge(case, children::by_rule);
    let mut random = Random::new(4);
    let four = repeat_with(|| children::of_nodes::<Plane>(&mut random)).take(most as usize);
    test(report, "knn order_children of four", by_rust, four);
    let eight = repeat_with(|| children::of_nodes::<Solid>(&mut random)).take(most as usize);
    test(report, "knn order_children of eight", by_rust, eight);
    let any = repeat_with(|| children::any(&mut random)).take(most as usize);
    test(report, "knn order_children of any", by_rule, any);
}

fn less(report: &mut Report, inputs: u64) {
    let form = Form::PlacePlace(1);
    let tally = compare(form, inputs, |n, _| {
        let ours = ours::knn::less(n[0], n[1]);
        let rust = spart::private::less(n[0], n[1]);
        if rust == before(n[0], n[1]) && ours == u8::from(rust) {
            Verdict::Same
        } else {
            Verdict::Failed
        }
    });
    let what = format!("{} inputs", tally.compared);
    report.test("knn less", tally.failed.map_or(Ok(what), |group| Err(group.input(form))));
}
