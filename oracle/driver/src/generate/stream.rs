//! A stream under way. It runs the Rust beside it, so that what comes next can depend on what is held.

use crate::calls::{Calls, Point, DONE};
use crate::program::Program;
use crate::random::Random;
use crate::record::{Command, Record};
use crate::room::Room;
use crate::space::Space;

pub struct Stream<S: Space> {
    pub random: Random,
    program: Program<Room<S>>,
    left: usize,
    out: Vec<u8>,
    /// The boundary of the tree in hand and the points that it took, oldest first.
    pub boundary: Vec<f64>,
    pub held: Vec<Point>,
    payload: u32,
    /// What ends a record. If `cut` is set the last one of all is a `len` that goes without.
    pub line_end: &'static [u8],
    pub cut: bool,
}

impl<S: Space> Stream<S> {
    pub fn new(seed: u64, count: usize) -> Self {
        Stream {
            random: Random::new(seed),
            program: Program::new(S::AXES, S::WORD),
            left: count,
            out: Vec::new(),
            boundary: vec![0.0; 2 * S::AXES],
            held: Vec::new(),
            payload: 0,
            line_end: b"\n",
            cut: false,
        }
    }

    pub fn done(&self) -> bool {
        self.left == 0
    }

    pub fn at_start(&self) -> bool {
        self.out.is_empty()
    }

    pub fn bytes(self) -> Vec<u8> {
        self.out
    }

    /// Bytes that belong to no record, as the mark at the start.
    pub fn prefix(&mut self, bytes: &[u8]) {
        self.out.extend_from_slice(bytes);
    }

    /// Adds a record of any bytes that hold no line feed, and gives its reply number.
    pub fn raw(&mut self, line: &[u8]) -> u8 {
        if self.done() {
            return DONE;
        }
        self.left -= 1;
        let last = self.done() && self.cut;
        let piece = if last { b"len".to_vec() } else { [line, self.line_end].concat() };
        self.out.extend_from_slice(&piece);
        let record = Record::of(&piece);
        let command = self.program.read(&record);
        let answer = self.program.answer(&record);
        let reply = answer.split(',').next().and_then(|number| number.parse().ok());
        let reply = reply.expect("an answer begins with its number");
        if let (DONE, Some(command)) = (reply, command) {
            self.keep_track(command);
        }
        reply
    }

    /// Adds a command and gives its reply number.
    pub fn say(&mut self, command: Command) -> u8 {
        self.raw(command.write(S::WORD).as_bytes())
    }

    fn keep_track(&mut self, command: Command) {
        match command {
            Command::Create(boundary, _) => {
                self.boundary = boundary;
                self.held.clear();
            }
            Command::Insert(point) => self.held.push(point),
            Command::Delete(gone) => {
                let equal = |p: &Point| p.at == gone.at && p.payload == gone.payload;
                if let Some(i) = self.held.iter().position(equal) {
                    self.held.remove(i);
                }
            }
            Command::Clear => self.held.clear(),
            _ => {}
        }
    }

    /// Begins a tree over a box that is the same on every axis.
    pub fn create(&mut self, corner: f64, extent: f64, capacity: u32) -> u8 {
        let axes = S::AXES;
        let sides = [vec![corner; axes], vec![extent; axes]].concat();
        self.say(Command::Create(sides, capacity))
    }

    /// Inserts with the next payload.
    pub fn insert(&mut self, at: Vec<f64>) -> u8 {
        self.payload += 1;
        let payload = self.payload;
        self.say(Command::Insert(Point { at, payload }))
    }

    pub fn delete(&mut self, point: &Point) -> u8 {
        self.say(Command::Delete(point.clone()))
    }

    /// Searches the whole boundary by box, which shows the lists in visiting order.
    pub fn show_all(&mut self) -> u8 {
        self.say(Command::InBox(self.boundary.clone()))
    }

    /// How many points the tree in hand holds.
    pub fn count(&self) -> usize {
        self.program.held.as_ref().map_or(0, Calls::count)
    }

    /// One of the points held, or the place given with payload 0 where there is none.
    pub fn any_held(&mut self, otherwise: Vec<f64>) -> Point {
        if self.held.is_empty() {
            return Point { at: otherwise, payload: 0 };
        }
        self.random.pick(&self.held).clone()
    }

    /// A place that lies uniformly in the boundary.
    pub fn uniform_place(&mut self) -> Vec<f64> {
        let axes = S::AXES;
        (0..axes).map(|i| self.boundary[i] + self.boundary[i + axes] * self.random.unit()).collect()
    }

    /// The number k of a search, mostly small, and at the edges of what is held.
    pub fn any_k(&mut self) -> u32 {
        let n = self.count() as u32;
        let edges = [0, 1, n.saturating_sub(1), n, n + 1, 512, 513, u32::MAX];
        if self.random.once_in(4) {
            *self.random.pick(&edges)
        } else {
            self.random.below(6) as u32
        }
    }
}
