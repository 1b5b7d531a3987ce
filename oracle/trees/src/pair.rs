//! Both sides, asked the same calls. After each call everything that may show is compared.

use crate::call::{Call, Room};
use crate::kind::Kind;
use crate::rust::Rust;
use crate::shape::{same_bits, same_shape};
use lent::memory::{Answer, Memory};
use lent::renumber::renumber;
use lent::sound::sound;
use oracle::calls::DONE;
use oracle::random::Random;
use ralikudo::generic::{self, bytes, points, Lent, Library, Point, Shared, Volume};
use ralikudo::Reply;

const NO_ROOM: u8 = 7;
const UNSOUND: u8 = 8;

pub struct Pair<const N: usize>
where
    Library: Kind<N>,
{
    ours: Memory<N>,
    before: Memory<N>,
    pub rust: Option<Rust<N>>,
}

impl<const N: usize> Default for Pair<N>
where
    Library: Kind<N>,
{
    /// Memory that holds no tree; any bytes will do.
    fn default() -> Self {
        let mut ours = Memory::default();
        let mut random = Random::new(9);
        ours.pieces_mut().into_iter().for_each(|piece| piece.fill_with(|| random.bits() as u8));
        Pair { before: ours.clone(), ours, rust: None }
    }
}

fn wanted(number: u8, figure: u32) -> Reply {
    Reply { number: number.into(), figure }
}

/// So many bytes and some more or fewer.
fn length(bytes: usize, more: i64) -> usize {
    (bytes as i64 + more).max(0) as usize
}

impl<const N: usize> Pair<N>
where
    Library: Kind<N>,
{
    /// Asks both sides: the reply number, or how they differ.
    pub fn ask(&mut self, call: &Call<N>) -> Result<u8, String> {
        self.before.copy(&self.ours);
        let reply = match call {
            Call::Create(boundary, capacity) => self.create(boundary, *capacity),
            Call::Insert(p) => self.change(|lent| lent.insert(*p), |rust| (rust.insert(p), 0)),
            Call::Bulk(list, room) => self.bulk(list, *room),
            Call::Delete(p) => self.change(|lent| lent.delete(*p), |rust| (rust.delete(p), 0)),
            Call::Clear => {
                let clear = |rust: &mut Rust<N>| {
                    rust.clear();
                    (DONE, 0)
                };
                self.change(|lent| lent.clear(), clear)
            }
            Call::Contains(p) => self.query(|tree| tree.contains(*p), |rust| rust.contains(p).into()),
            Call::Len => self.query(|tree| tree.count(), |rust| rust.len() as u32),
            Call::IsEmpty => self.query(|tree| tree.is_empty(), |rust| rust.is_empty().into()),
            Call::Radius(at, radius, room) => {
                let found = |rust: &Rust<N>| rust.range_search(*at, *radius);
                self.search(*room, |tree, answer| tree.range_search_at(*at, *radius, answer), found)
            }
            Call::InBox(query, room) => {
                let found = |rust: &Rust<N>| rust.range_search_bbox(query);
                self.search(*room, |tree, answer| tree.range_search_bbox(*query, answer), found)
            }
            Call::Nearest(at, k, room) => {
                let found = |rust: &Rust<N>| rust.knn_search(*at, *k);
                self.search(*room, |tree, answer| tree.knn_search_at(*at, *k, answer), found)
            }
            Call::Renumber(seed) => self.renumber(*seed),
        }?;
        if !self.ours.margins_untouched() {
            return Err("a byte around the pieces was touched".into());
        }
        Ok(reply)
    }

    fn create(&mut self, boundary: &Volume<N>, capacity: u32) -> Result<u8, String> {
        let reply = self.ours.lent().create(*boundary, capacity);
        let number = match Rust::create(boundary, capacity) {
            Ok(made) => {
                self.rust = Some(made);
                DONE
            }
            Err(refused) => refused,
        };
        self.changed(reply, wanted(number, 0))
    }

    /// A call that may change the tree.
    fn change(
        &mut self,
        ours: impl FnOnce(&mut Lent<N>) -> Reply,
        rust: impl FnOnce(&mut Rust<N>) -> (u8, u32),
    ) -> Result<u8, String> {
        let reply = ours(&mut self.ours.lent());
        let (number, figure) = self.rust.as_mut().map_or((UNSOUND, 0), rust);
        if self.ours.pieces()[0] != self.before.pieces()[0] {
            return Err("the head was written".into());
        }
        self.changed(reply, wanted(number, figure))
    }

    fn bulk(&mut self, list: &[Point<N>], room: Room) -> Result<u8, String> {
        let (mut coords, mut payloads) = bytes(list);
        coords.resize(length(coords.len(), room.coords), 0x3f);
        payloads.resize(length(payloads.len(), room.payloads), 7);
        let many = (coords.len() / (8 * N)).min(payloads.len() / 4);
        let list: Vec<Point<N>> = points(&coords, &payloads, many);
        self.change(|lent| lent.insert_bulk(&coords, &payloads), |rust| rust.insert_bulk(&list))
    }

    /// After a refused call every byte is as before; after any other the tree is the Rust's, and sound.
    fn changed(&mut self, reply: Reply, wanted: Reply) -> Result<u8, String> {
        if reply != wanted {
            return Err(format!("the reply is {reply:?} and not {wanted:?}"));
        }
        let number = wanted.number as u8;
        if number != DONE && wanted.figure == 0 {
            return if self.ours == self.before { Ok(number) } else { Err("a refused call wrote".into()) };
        }
        let Some(rust) = &self.rust else {
            return Ok(number);
        };
        same_shape(&self.ours, rust.shape())?;
        if !sound::<N>(self.ours.pieces()) {
            return Err("the tree is not sound afterwards".into());
        }
        Ok(number)
    }

    /// No query changes a byte of the pieces.
    fn unchanged(&self, number: u8) -> Result<u8, String> {
        if self.ours == self.before {
            Ok(number)
        } else {
            Err("a query wrote to the pieces".into())
        }
    }

    fn query(
        &mut self,
        ours: impl FnOnce(Shared<N>) -> Reply,
        rust: impl FnOnce(&Rust<N>) -> u32,
    ) -> Result<u8, String> {
        let reply = ours(self.ours.shared());
        let wanted = self.rust.as_ref().map_or(wanted(UNSOUND, 0), |tree| wanted(DONE, rust(tree)));
        if reply != wanted {
            return Err(format!("the reply is {reply:?} and not {wanted:?}"));
        }
        self.unchanged(wanted.number as u8)
    }

    fn search(
        &mut self,
        room: Room,
        ours: impl FnOnce(Shared<N>, generic::Answer) -> Reply,
        rust: impl FnOnce(&Rust<N>) -> Vec<Point<N>>,
    ) -> Result<u8, String> {
        let found = self.rust.as_ref().map(rust);
        let many = found.as_ref().map_or(0, Vec::len);
        let (coords, payloads) = (length(8 * N * many, room.coords), length(4 * many, room.payloads));
        let mut answer = Answer::<N>::new(coords, payloads);
        let reply = ours(self.ours.shared(), answer.lent());
        let wanted = match &found {
            None => wanted(UNSOUND, 0),
            Some(_) if many > (coords / (8 * N)).min(payloads / 4) => wanted(NO_ROOM, 0),
            Some(_) => wanted(DONE, many as u32),
        };
        if reply != wanted {
            return Err(format!("the reply is {reply:?} and not {wanted:?}"));
        }
        let given = wanted.figure as usize;
        let (coords, payloads) = answer.first(given);
        let written: Vec<Point<N>> = points(coords, payloads, given);
        let list = found.unwrap_or_default();
        if let Some(i) = (0..given).find(|i| !same_bits(&written[*i], &list[*i])) {
            return Err(format!("answer {i} is {:?} and not {:?}", written[i], list[i]));
        }
        if !answer.untouched_behind(given) {
            return Err("a byte behind the answer was touched".into());
        }
        self.unchanged(wanted.number as u8)
    }

    fn renumber(&mut self, seed: u64) -> Result<u8, String> {
        if let Some(rust) = &self.rust {
            renumber(&mut self.ours, &mut Random::new(seed));
            same_shape(&self.ours, rust.shape())?;
            if !sound::<N>(self.ours.pieces()) {
                return Err("the renumbered tree is not sound".into());
            }
        }
        Ok(DONE)
    }

    /// Whether the opened tree prints as the unchanged one.
    pub fn opened_is_unchanged(&self) -> bool {
        let print = |rust: &Rust<N>| (format!("{:?}", rust.shape()), format!("{:?}", rust.unchanged()));
        self.rust.as_ref().map(print).is_none_or(|(opened, unchanged)| opened == unchanged)
    }
}
