//! Runs a program on bytes that come to it in one of three ways.

use oracle::random::Random;
use std::fs::File;
use std::io::{Read, Write};
use std::os::fd::OwnedFd;
use std::os::unix::net::UnixDatagram;
use std::path::{Path, PathBuf};
use std::process::{Child, Command, Stdio};
use std::sync::mpsc;
use std::thread;
use std::time::Duration;

/// No stream takes a program so long.
const PATIENCE: Duration = Duration::from_secs(30);

/// A program and the words that it is told.
#[derive(Clone)]
pub struct Program {
    pub path: PathBuf,
    pub words: Vec<String>,
}

#[derive(Clone, Copy, Debug)]
pub enum How {
    /// From a file, as much at a time as the program likes.
    Whole,
    /// Through a pipe, in pieces of random sizes.
    Pieces(u64),
    /// One byte for each read: each is a datagram of its own, and empty ones are the end.
    Bytes,
}

impl Program {
    /// What the program prints for these bytes, which stand in the file too.
    pub fn run(&self, bytes: &[u8], file: &Path, how: How) -> Result<Vec<u8>, String> {
        match how {
            How::Whole => {
                let file = File::open(file).map_err(|e| format!("{}: {e}", file.display()))?;
                self.ends(self.start(file.into())?)
            }
            How::Pieces(seed) => {
                let mut child = self.start(Stdio::piped())?;
                let mut input = child.stdin.take().expect("its input is a pipe");
                let bytes = bytes.to_vec();
                let writer = thread::spawn(move || pieces(&mut input, &bytes, seed));
                let printed = self.ends(child);
                drop(writer.join());
                printed
            }
            How::Bytes => {
                let (ours, theirs) = UnixDatagram::pair().map_err(|e| e.to_string())?;
                let child = self.start(OwnedFd::from(theirs).into())?;
                let bytes = bytes.to_vec();
                let writer = thread::spawn(move || one_by_one(&ours, &bytes));
                let printed = self.ends(child);
                drop(writer.join());
                printed
            }
        }
    }

    fn start(&self, input: Stdio) -> Result<Child, String> {
        let mut command = Command::new(&self.path);
        command.args(&self.words).stdin(input).stdout(Stdio::piped());
        command.spawn().map_err(|e| format!("{}: {e}", self.path.display()))
    }

    /// All that it prints until it ends, which must be soon and by itself.
    fn ends(&self, mut child: Child) -> Result<Vec<u8>, String> {
        let name = self.path.display();
        let mut output = child.stdout.take().expect("its output is a pipe");
        let (tell, told) = mpsc::channel();
        thread::spawn(move || {
            let mut printed = Vec::new();
            let read = output.read_to_end(&mut printed);
            drop(tell.send(read.map(|_| printed)));
        });
        let Ok(printed) = told.recv_timeout(PATIENCE) else {
            drop(child.kill());
            drop(child.wait());
            return Err(format!("{name} does not end"));
        };
        let status = child.wait().map_err(|e| e.to_string())?;
        if !status.success() {
            return Err(format!("{name} stops with {status}"));
        }
        printed.map_err(|e| format!("{name}: {e}"))
    }
}

/// A program that ends early is found out by what it printed, so that nothing is said here.
fn pieces(input: &mut impl Write, bytes: &[u8], seed: u64) {
    let mut random = Random::new(seed);
    let mut left = bytes;
    while !left.is_empty() {
        let most = *random.pick(&[1, 3, 20, 200, 200, 5000, 140_000]);
        let (piece, rest) = left.split_at(left.len().min(1 + random.below(most) as usize));
        if input.write_all(piece).and_then(|()| input.flush()).is_err() {
            return;
        }
        left = rest;
        if random.once_in(16) {
            thread::sleep(Duration::from_micros(50));
        }
    }
}

fn one_by_one(input: &UnixDatagram, bytes: &[u8]) {
    for byte in bytes {
        if input.send(&[*byte]).is_err() {
            return;
        }
    }
    // A program may ask once more after the end.
    for _ in 0..8 {
        drop(input.send(&[]));
    }
}
