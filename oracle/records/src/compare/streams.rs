//! The streams that both programs are given: the examples, the edges of the format, and generated ones.

use oracle::check::example_streams;
use oracle::edges::{self, Named};
use oracle::generate::{generate, kinds, Stream};
use oracle::random::Random;
use oracle::recorded::PLAN;
use oracle::space::Space;

/// Records of this kind are up to 140 KB long.
pub const LONG: &str = "long";

/// The streams of every run: examples, edges of the format, those that are recorded, and so many records of each kind.
pub fn standard<S: Space>(records: usize) -> Vec<Named> {
    let examples = example_streams::<S>();
    let mut all: Vec<Named> =
        examples.into_iter().map(|(name, bytes)| Named { name: format!("example-{name}"), bytes }).collect();
    all.extend(edges::all::<S>());
    all.extend(PLAN.iter().map(|(kind, seed, records)| {
        let bytes = generate::<S>(kind, *seed, *records).unwrap_or_default();
        Named { name: format!("recorded-{kind}"), bytes }
    }));
    let makers = makers::<S>();
    all.extend(makers.iter().map(|maker| maker.make(1, records)));
    all
}

/// Makes streams of one sort by seed and number of records.
pub struct Maker {
    pub name: &'static str,
    make: fn(&str, u64, usize) -> Vec<u8>,
}

impl Maker {
    pub fn make(&self, seed: u64, records: usize) -> Named {
        // A long record is as many bytes as a thousand others.
        let records = if self.name == LONG { records.div_ceil(60) } else { records };
        Named { name: self.name.into(), bytes: (self.make)(self.name, seed, records) }
    }
}

/// Every kind of the generator, all kinds by turns in one stream, and streams with bytes spoilt.
pub fn makers<S: Space>() -> Vec<Maker> {
    let mut all: Vec<Maker> = kinds::<S>()
        .iter()
        .map(|kind| Maker {
            name: kind.name,
            make: |kind, seed, many| generate::<S>(kind, seed, many).unwrap_or_default(),
        })
        .collect();
    all.push(Maker { name: "mixed", make: |_, seed, many| mixed::<S>(seed, many) });
    all.push(Maker { name: "spoilt", make: |_, seed, many| spoilt::<S>(seed, many) });
    all
}

/// Rounds of all kinds but the long one, in random order.
fn mixed<S: Space>(seed: u64, many: usize) -> Vec<u8> {
    let kinds: Vec<_> = kinds::<S>().into_iter().filter(|kind| kind.name != LONG).collect();
    let mut stream = Stream::<S>::new(seed, many);
    while !stream.done() {
        let which = stream.random.below(kinds.len() as u64) as usize;
        (kinds[which].round)(&mut stream);
    }
    stream.bytes()
}

/// A mixed stream in which a byte is changed, lost or put in now and then, line ends too.
fn spoilt<S: Space>(seed: u64, many: usize) -> Vec<u8> {
    let mut random = Random::new(seed);
    let mut out = Vec::new();
    for byte in mixed::<S>(seed, many) {
        if !random.once_in(150) {
            out.push(byte);
            continue;
        }
        let odd = *random.pick(b"\n\r\n\r,,\"\0 0F");
        match random.below(4) {
            0 => out.push(odd),
            1 => out.extend([byte, odd]),
            2 => out.push(random.bits() as u8),
            _ => {}
        }
    }
    out
}
