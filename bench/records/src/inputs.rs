//! What the programs are given.

use oracle::calls::Point;
use oracle::random::Random;
use oracle::record::Command;
use oracle::space::Space;

pub struct Input {
    pub name: &'static str,
    pub what: String,
    pub records: usize,
    pub bytes: Vec<u8>,
}

const SIDE: f64 = 1024.0;
const CAPACITY: u32 = 16;

/// Points held between these numbers.
const FEWEST: usize = 384;
const MOST: usize = 512;

/// A stream under way, and the points that its tree holds.
struct Stream<S: Space> {
    random: Random,
    out: Vec<u8>,
    records: usize,
    held: Vec<Point>,
    space: std::marker::PhantomData<S>,
}

impl<S: Space> Stream<S> {
    /// A tree with as many points as it keeps at least.
    fn new() -> Self {
        let space = std::marker::PhantomData;
        let mut stream =
            Stream { random: Random::new(1), out: Vec::new(), records: 0, held: Vec::new(), space };
        let sides = [vec![0.0; S::AXES], vec![SIDE; S::AXES]].concat();
        stream.say(Command::Create(sides, CAPACITY));
        while stream.held.len() < FEWEST {
            stream.insert();
        }
        stream
    }

    fn line(&mut self, line: &str) {
        self.out.extend_from_slice(line.as_bytes());
        self.out.push(b'\n');
        self.records += 1;
    }

    fn say(&mut self, command: Command) {
        self.line(&command.write(S::WORD));
    }

    fn place(&mut self) -> Vec<f64> {
        (0..S::AXES).map(|_| SIDE * self.random.unit()).collect()
    }

    fn insert(&mut self) {
        let point = Point { at: self.place(), payload: self.records as u32 };
        self.held.push(point.clone());
        self.say(Command::Insert(point));
    }

    fn delete(&mut self) {
        let which = self.random.below(self.held.len() as u64) as usize;
        let point = self.held.swap_remove(which);
        self.say(Command::Delete(point));
    }

    fn contains(&mut self) {
        let mut point = self.random.pick(&self.held).clone();
        point.payload += u32::from(self.random.once_in(2));
        self.say(Command::Contains(point));
    }

    /// All calls: half of them change the tree, and a search has about as many points as in the trees' benchmarks.
    fn any(&mut self) {
        let part = if S::AXES == 2 { SIDE / 16.0 } else { SIDE / 8.0 };
        match self.random.below(20) {
            0..=4 if self.held.len() < MOST => self.insert(),
            0..=9 if self.held.len() > FEWEST => self.delete(),
            0..=9 => self.insert(),
            10 | 11 => self.contains(),
            12..=14 => {
                let at = self.place();
                self.say(Command::Range(at, part));
            }
            15 | 16 => {
                let (at, k) = (self.place(), *self.random.pick(&[1, 8]));
                self.say(Command::Nearest(at, k));
            }
            17 | 18 => {
                let sides = [self.place(), vec![2.0 * part; S::AXES]].concat();
                self.say(Command::InBox(sides));
            }
            _ => self.say(Command::Len),
        }
    }

    fn input(self, name: &'static str, what: String) -> Input {
        Input { name, what, records: self.records, bytes: self.out }
    }
}

/// So many records of all calls.
pub fn mixed<S: Space>(records: usize) -> Input {
    let mut stream = Stream::<S>::new();
    while stream.records < records {
        stream.any();
    }
    stream.input("mixed", format!("all calls, {FEWEST} to {MOST} points"))
}

/// A tree and then one line again and again, for so many megabytes.
fn repeated<S: Space>(name: &'static str, what: &str, line: &str, megabytes: f64) -> Input {
    let mut stream = Stream::<S>::new();
    let bytes = stream.out.len() + (megabytes * 1e6) as usize;
    while stream.out.len() < bytes {
        stream.line(line);
    }
    stream.input(name, what.into())
}

/// Every input; those of one line have so many megabytes.
pub fn all<S: Space>(records: usize, megabytes: f64) -> Vec<Input> {
    let nearest = Command::Nearest(vec![SIDE / 2.0; S::AXES], MOST as u32).write(S::WORD);
    let not_understood = "insert,".repeat(18);
    vec![
        mixed::<S>(records),
        repeated::<S>("len", "`len`", "len", megabytes),
        repeated::<S>("nearest", &format!("answers of {FEWEST} points"), &nearest, megabytes / 50.0),
        repeated::<S>("broken", "not understood, 126 bytes", &not_understood, megabytes),
    ]
}
