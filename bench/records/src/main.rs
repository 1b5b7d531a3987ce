//! Our programs against the oracle's on the same files, by turns; and the memory that each takes. The words are the
//! folder of our programs, a folder for the inputs, a file for the figures as CSV, and quick for a short trial.

#[path = "../../src/figures.rs"]
mod figures;
mod inputs;
mod memory;
mod side;

use figures::Figures;
use inputs::Input;
use oracle::space::{Plane, Solid, Space};
use side::Side;
use std::path::Path;
use std::process::ExitCode;

/// How much there is of everything.
struct Sizes {
    records: usize,
    megabytes: f64,
    runs: usize,
    memory: [usize; 2],
}

const WHOLE: Sizes = Sizes { records: 1_000_000, megabytes: 20.0, runs: 11, memory: [10, 100] };
const QUICK: Sizes = Sizes { records: 20_000, megabytes: 0.5, runs: 3, memory: [1, 10] };

struct Line {
    tree: &'static str,
    input: Input,
    printed: usize,
    figures: Figures,
}

/// Both sides print the same for an input, and then their times are taken.
fn line<S: Space>(sides: &[Side; 2], folder: &Path, input: Input, runs: usize) -> Result<Line, String> {
    let file = folder.join(format!("{}-{}", S::WORD, input.name));
    std::fs::write(&file, &input.bytes).map_err(|e| format!("{}: {e}", file.display()))?;
    let [ours, rust] = sides;
    let printed = ours.printed(&file)?;
    if printed != rust.printed(&file)? {
        return Err(format!("{} {}: ours prints another answer than the Rust", S::WORD, input.name));
    }
    let time = |side: &Side| side.time(&file).unwrap_or(f64::NAN);
    let figures = Figures::of(runs, |ours_first| {
        if ours_first {
            let mine = time(ours);
            (mine, time(rust))
        } else {
            let theirs = time(rust);
            (time(ours), theirs)
        }
    });
    Ok(Line { tree: S::WORD, input, printed: printed.len(), figures })
}

fn megabytes(bytes: usize) -> f64 {
    bytes as f64 / 1e6
}

impl Line {
    fn print(&self) {
        let Line { tree, input, printed, figures: Figures { ours, other: rust, ratio, low, high } } = self;
        let (size, printed) = (megabytes(input.bytes.len()), megabytes(*printed));
        print!("| {tree}: {} | {} | {size:.1} | {printed:.1} ", input.what, input.records);
        print!("| {:.1} | {:.1} | {:.0} | {:.0} ", ours * 1e3, rust * 1e3, size / ours, size / rust);
        println!("| {ratio:.2} | {low:.2} to {high:.2} |");
    }

    fn csv(&self) -> String {
        let Line { tree, input, printed, figures: Figures { ours, other: rust, ratio, low, high } } = self;
        let Input { name, records, bytes, .. } = input;
        format!(
            "{tree},{name},{records},{},{printed},{ours:.6},{rust:.6},{ratio:.4},{low:.4},{high:.4}\n",
            bytes.len()
        )
    }
}

/// The lines of a tree, and how much memory its programs take.
fn tree<S: Space>(words: (&Path, &Path), sizes: &Sizes) -> Result<(Vec<Line>, Vec<String>), String> {
    let sides = [Side::ours::<S>(words.0)?, Side::rust::<S>()?];
    let mut lines = Vec::new();
    for input in inputs::all::<S>(sizes.records, sizes.megabytes) {
        lines.push(line::<S>(&sides, words.1, input, sizes.runs)?);
    }
    let mixed = inputs::mixed::<S>(sizes.records.min(100_000));
    let mut memory = Vec::new();
    for size in sizes.memory {
        let [ours, rust] =
            [&sides[0], &sides[1]].map(|side| memory::taken(side, &mixed.bytes, size * 1_000_000));
        let ((mine, my_stack), (theirs, their_stack)) = (ours?, rust?);
        memory.push(format!("| {} | {size} MB | {mine} | {my_stack} | {theirs} | {their_stack} |", S::WORD));
    }
    Ok((lines, memory))
}

fn all(words: (&Path, &Path), sizes: &Sizes) -> Result<String, String> {
    let (mut lines, mut memory) = tree::<Plane>(words, sizes)?;
    let solid = tree::<Solid>(words, sizes)?;
    lines.extend(solid.0);
    memory.extend(solid.1);
    println!(
        "Medians of {} runs of each program, by turns: a whole process, from a file to /dev/null.",
        sizes.runs
    );
    println!("The ratio is our time by the Rust's: below 1 ours is faster.");
    println!();
    print!(
        "| what | records | MB in | MB out | ours, ms | the Rust, ms | ours, MB/s in | the Rust, MB/s in "
    );
    println!("| ratio | half of the ratios |");
    println!("|---|---|---|---|---|---|---|---|---|---|");
    lines.iter().for_each(Line::print);
    println!();
    println!("The most memory that was resident, and the stack, in kB, when an input was read and its end not yet there:");
    println!();
    println!("| tree | input | ours | stack of it | the Rust | stack of it |");
    println!("|---|---|---|---|---|---|");
    memory.iter().for_each(|line| println!("{line}"));
    let head = "tree,what,records,bytes_in,bytes_out,ours_s,rust_s,ratio,low,high\n".to_string();
    Ok(lines.iter().fold(head, |text, line| text + &line.csv()))
}

fn main() -> ExitCode {
    let words: Vec<String> = std::env::args().skip(1).collect();
    let words: Vec<&str> = words.iter().map(String::as_str).collect();
    let (ours, folder, file, sizes) = match words[..] {
        [ours, folder, file] => (ours, folder, file, WHOLE),
        [ours, folder, file, "quick"] => (ours, folder, file, QUICK),
        _ => {
            eprintln!("bench: the words are the folder of our programs, one for inputs, a file for figures, and quick");
            return ExitCode::from(2);
        }
    };
    let done = std::fs::create_dir_all(folder)
        .map_err(|e| format!("{folder}: {e}"))
        .and_then(|()| all((Path::new(ours), Path::new(folder)), &sizes))
        .and_then(|text| std::fs::write(file, text).map_err(|e| format!("{file}: {e}")));
    if let Err(error) = done {
        eprintln!("bench: {error}");
        return ExitCode::FAILURE;
    }
    ExitCode::SUCCESS
}
