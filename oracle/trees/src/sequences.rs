//! Sequences drawn at random. What comes next may depend on what the Rust holds.

use crate::call::{Call, Room};
use crate::draw::{self, Places};
use crate::kind::Kind;
use crate::run::Run;
use lent::layout::even;
use oracle::calls::NODES_FULL;
use oracle::room::most_nodes;
use ralikudo::generic::{Library, Point, Volume};

pub type Round<const N: usize> = fn(&mut Run<N>);

/// Each kind's name, one round of it, and the part of a fair share of calls that it gets: bulk calls are long.
pub fn kinds<const N: usize>() -> [(String, Round<N>, u64); 4]
where
    Library: Kind<N>,
{
    [
        ("all calls mixed".into(), mixed, 1),
        ("bulk".into(), bulk, 4),
        ("512 points".into(), full, 1),
        (format!("{} nodes", most_nodes(N)), nodes, 1),
    ]
}

fn create<const N: usize>(run: &mut Run<N>) -> Volume<N>
where
    Library: Kind<N>,
{
    let (boundary, capacity) = (draw::boundary(&mut run.random), draw::capacity(&mut run.random));
    if run.say(Call::Create(boundary, capacity)) == 0 {
        return boundary;
    }
    let boundary = even(0.0, 8.0);
    run.say(Call::Create(boundary, 1 + capacity % 8));
    boundary
}

fn any<const N: usize>(run: &mut Run<N>, places: &Places<N>, r: &Volume<N>, grows: u64) -> Call<N>
where
    Library: Kind<N>,
{
    match run.random.below(40) {
        0 => Call::Renumber(run.random.bits()),
        1 if run.random.once_in(20) => Call::Clear,
        2 => bulk_of(run, places, r, 12),
        3..=13 => draw::query(run, places, r),
        14 | 15 => Call::Contains(draw::held(run, places, r)),
        _ if run.random.below(100) < grows => Call::Insert(draw::point(run, places, r)),
        _ => Call::Delete(draw::held(run, places, r)),
    }
}

/// Growing, then in balance, then shrinking.
fn mixed<const N: usize>(run: &mut Run<N>)
where
    Library: Kind<N>,
{
    run.begin();
    if run.random.once_in(10) {
        let r = even(0.0, 8.0);
        let call = any(run, &Places::Uniform, &r, 50);
        run.say(call);
    }
    let r = create(run);
    let places = Places::any(&mut run.random, &r);
    let longest = *run.random.pick(&[10, 40, 150]);
    for grows in [90, 50, 15] {
        for _ in 0..run.random.between(1, longest) {
            let call = any(run, &places, &r, grows);
            run.say(call);
        }
    }
}

fn bulk_of<const N: usize>(run: &mut Run<N>, places: &Places<N>, r: &Volume<N>, most: i64) -> Call<N>
where
    Library: Kind<N>,
{
    let many = run.random.between(0, most);
    let list: Vec<Point<N>> = (0..many).map(|_| draw::point(run, places, r)).collect();
    let mut more = |size: i64| match run.random.below(6) {
        0 => -1,
        1 => -run.random.between(0, size * (many + 1)),
        2 => run.random.between(1, 3 * size),
        _ => 0,
    };
    let room = Room { coords: more(8 * N as i64), payloads: more(4) };
    Call::Bulk(list, room)
}

/// Lists of up to some 600 points, one after the other, with the limits of Room in their midst.
fn bulk<const N: usize>(run: &mut Run<N>)
where
    Library: Kind<N>,
{
    run.begin();
    let r = create(run);
    for _ in 0..run.random.between(1, 5) {
        let places = Places::any(&mut run.random, &r);
        let most = *run.random.pick(&[3, 30, 200, 620]);
        let call = bulk_of(run, &places, &r, most);
        run.say(call);
        for _ in 0..3 {
            let call = any(run, &places, &r, 30);
            run.say(call);
        }
    }
}

/// All 512 places taken, then given back and taken again.
fn full<const N: usize>(run: &mut Run<N>)
where
    Library: Kind<N>,
{
    run.begin();
    let r = even(0.0, 8.0);
    let capacity =
        *run.random.pick(&[1, 4, 7, 8, 9, 12, 16, 64, 511, 512, 513, (1 << 16) + 1, 1 << 31, u32::MAX]);
    run.say(Call::Create(r, capacity));
    let places = match capacity {
        1 | 4 => Places::Few(vec![[1.0; N]]),
        _ => Places::Uniform,
    };
    let list: Vec<Point<N>> =
        (0..run.random.between(505, 530)).map(|_| draw::point(run, &places, &r)).collect();
    run.say(Call::Bulk(list, Room { coords: 0, payloads: 0 }));
    for _ in 0..120 {
        let call = any(run, &places, &r, 60);
        run.say(call);
        if run.random.once_in(3) {
            let call = Call::Insert(draw::point(run, &Places::Grid(33), &r));
            run.say(call);
        }
    }
}

/// Nearly all groups taken: refusals by 6, deletes that free groups, the refused points again.
fn nodes<const N: usize>(run: &mut Run<N>)
where
    Library: Kind<N>,
{
    run.begin();
    let r = even(0.0, 8.0);
    let capacity = run.random.between(1, 3) as u32;
    run.say(Call::Create(r, capacity));
    let mut refused = Vec::new();
    let centres: Vec<[f64; N]> = (0..12).map(|_| Places::Uniform.draw(&mut run.random, &r)).collect();
    let near = Places::Near(centres);
    while refused.len() < 6 && !run.done() {
        let point = draw::point(run, &near, &r);
        if run.say(Call::Insert(point)) == NODES_FULL {
            refused.push(point);
        }
    }
    if refused.is_empty() {
        return;
    }
    for _ in 0..60 {
        let call = any(run, &near, &r, 55);
        run.say(call);
        if run.random.once_in(2) {
            let gone = draw::held(run, &near, &r);
            run.say(Call::Delete(gone));
        }
        let again = *run.random.pick(&refused);
        run.say(Call::Insert(again));
    }
}
