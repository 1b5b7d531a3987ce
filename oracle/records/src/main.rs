//! The oracle's program: answers the records on standard input. The word is quad or oct.

use oracle::space::{Plane, Solid};
use std::process::ExitCode;

fn main() -> ExitCode {
    let words: Vec<String> = std::env::args().skip(1).collect();
    let (input, output) = (std::io::stdin().lock(), std::io::stdout().lock());
    let done = match words.iter().map(String::as_str).collect::<Vec<_>>()[..] {
        ["quad"] => records::run::<Plane>(input, output),
        ["oct"] => records::run::<Solid>(input, output),
        _ => {
            eprintln!("records: the word is quad or oct");
            return ExitCode::from(2);
        }
    };
    if let Err(error) = done {
        eprintln!("records: {error}");
        return ExitCode::from(2);
    }
    ExitCode::SUCCESS
}
