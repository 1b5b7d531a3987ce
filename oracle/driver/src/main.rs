//! Words: answer quad|oct, generate quad|oct KIND SEED COUNT, record FOLDER, check FOLDER.

use oracle::check;
use oracle::generate::generate;
use oracle::program::answers;
use oracle::recorded;
use oracle::room::Room;
use oracle::space::{Plane, Solid, Space};
use std::io::{Read, Write};
use std::path::Path;
use std::process::ExitCode;

fn main() -> ExitCode {
    let words: Vec<String> = std::env::args().skip(1).collect();
    let words: Vec<&str> = words.iter().map(String::as_str).collect();
    let done = match words[..] {
        ["answer", "quad"] => answer::<Plane>(),
        ["answer", "oct"] => answer::<Solid>(),
        ["generate", "quad", kind, seed, count] => stream::<Plane>(kind, seed, count),
        ["generate", "oct", kind, seed, count] => stream::<Solid>(kind, seed, count),
        ["record", folder] => recorded::write(Path::new(folder)),
        ["check", folder] => match check::run(Path::new(folder)).all_passed() {
            true => Ok(()),
            false => return ExitCode::FAILURE,
        },
        _ => {
            Err("words: answer quad|oct, generate quad|oct KIND SEED COUNT, record FOLDER, check FOLDER"
                .into())
        }
    };
    if let Err(error) = done {
        eprintln!("oracle: {error}");
        return ExitCode::from(2);
    }
    ExitCode::SUCCESS
}

fn answer<S: Space>() -> Result<(), String> {
    let mut stream = Vec::new();
    std::io::stdin().read_to_end(&mut stream).map_err(|e| e.to_string())?;
    print(&answers::<Room<S>>(S::AXES, S::WORD, &stream))
}

fn stream<S: Space>(kind: &str, seed: &str, count: &str) -> Result<(), String> {
    let seed = seed.parse().map_err(|_| format!("not a seed: {seed}"))?;
    let count = count.parse().map_err(|_| format!("not a count: {count}"))?;
    print(&generate::<S>(kind, seed, count).ok_or(format!("no kind {kind}"))?)
}

fn print(bytes: &[u8]) -> Result<(), String> {
    std::io::stdout().write_all(bytes).map_err(|e| e.to_string())
}
