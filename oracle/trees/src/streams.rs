//! The streams of records that `oracle::generate` writes, as calls.

use crate::call::{Call, Room};
use crate::draw;
use crate::kind::{Kind, SpaceOf};
use crate::run::Run;
use oracle::generate::generate;
use oracle::record::{records, Command, Record};
use oracle::space::Space;
use ralikudo::generic::{Library, Point, Volume};

/// Those whose records are calls.
pub const KINDS: [&str; 12] = [
    "uniform",
    "clustered",
    "grid",
    "coincident",
    "midplanes",
    "full",
    "nodes",
    "merges",
    "special",
    "radii",
    "nearest",
    "spans",
];

/// The numbers that a record has for each axis.
fn list<const N: usize>(numbers: &[f64]) -> [f64; N] {
    numbers.try_into().expect("one for each axis")
}

fn point<const N: usize>(p: &oracle::calls::Point) -> Point<N> {
    Point { at: list(&p.at), payload: p.payload }
}

fn volume<const N: usize>(sides: &[f64]) -> Volume<N> {
    Volume { corner: list(&sides[..N]), extent: list(&sides[N..]) }
}

fn call<const N: usize>(command: Command, room: Room) -> Call<N> {
    match command {
        Command::Create(sides, capacity) => Call::Create(volume(&sides), capacity),
        Command::Insert(p) => Call::Insert(point(&p)),
        Command::Delete(p) => Call::Delete(point(&p)),
        Command::Contains(p) => Call::Contains(point(&p)),
        Command::Range(at, radius) => Call::Radius(list(&at), radius, room),
        Command::Nearest(at, k) => Call::Nearest(list(&at), k, room),
        Command::InBox(sides) => Call::InBox(volume(&sides), room),
        Command::Len => Call::Len,
        Command::Clear => Call::Clear,
    }
}

/// A stream of so many calls, with our tree renumbered once in a while.
pub fn stream<const N: usize>(run: &mut Run<N>, kind: &str, seed: u64, count: usize)
where
    Library: Kind<N>,
{
    run.begin();
    let bytes = generate::<SpaceOf<N>>(kind, seed, count).expect("a kind that there is");
    for record in records(&bytes) {
        let Record::Line(line) = record else { continue };
        let Some(command) = Command::read(line, N, SpaceOf::<N>::WORD) else { continue };
        let room = draw::room::<N>(&mut run.random);
        run.say(call(command, room));
        if run.random.once_in(50) {
            let seed = run.random.bits();
            run.say(Call::Renumber(seed));
        }
        if run.done() {
            return;
        }
    }
}
