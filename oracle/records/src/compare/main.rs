//! Compares our programs with the oracle's, byte by byte. The words are the folder of our programs, a folder for the
//! streams, and MILLIONS of records more for each tree, or nothing.

mod feed;
mod shrink;
mod streams;

use feed::{How, Program};
use oracle::check::Report;
use oracle::edges::Named;
use oracle::program::answers;
use oracle::room::Room;
use oracle::space::{Plane, Solid, Space};
use shrink::shrink;
use std::fs;
use std::path::{Path, PathBuf};
use std::process::ExitCode;
use std::sync::atomic::{AtomicUsize, Ordering};
use std::sync::Mutex;
use streams::{makers, standard, LONG};

/// Records of each generated stream in every run, and in those of millions.
const STANDARD: usize = 1500;
const MANY: usize = 20_000;

/// Streams up to this size come byte by byte too.
const SMALL: usize = 20_000;

type Outcome = Result<String, String>;

/// A piece of work: its name, and what does it.
type Job<'a> = (String, Box<dyn Fn() -> Outcome + Sync + 'a>);

/// Both programs of one tree, and where the streams go.
struct Pair {
    ours: Program,
    theirs: Program,
    folder: PathBuf,
}

impl Pair {
    fn new<S: Space>(ours: &Path, folder: &Path) -> Result<Pair, String> {
        let ours = Program { path: ours.join(S::WORD), words: Vec::new() };
        if !ours.path.is_file() {
            return Err(format!("{} is missing: run tools/build {}", ours.path.display(), S::WORD));
        }
        let mut path = std::env::current_exe().map_err(|e| e.to_string())?;
        path.set_file_name("records");
        let folder = folder.join(S::WORD);
        fs::create_dir_all(&folder).map_err(|e| format!("{}: {e}", folder.display()))?;
        Ok(Pair { ours, theirs: Program { path, words: vec![S::WORD.into()] }, folder })
    }

    fn file(&self, name: &str, ending: &str) -> PathBuf {
        self.folder.join(format!("{name}.{ending}"))
    }

    fn write(&self, name: &str, ending: &str, bytes: &[u8]) -> Result<PathBuf, String> {
        let path = self.file(name, ending);
        fs::write(&path, bytes).map_err(|e| format!("{}: {e}", path.display()))?;
        Ok(path)
    }

    /// Both answer the stream alike, however it comes, and the oracle's as the unchanged trees do.
    fn alike<S: Space>(&self, stream: &Named, hows: &[How]) -> Result<usize, String> {
        let Named { name, bytes } = stream;
        let file = self.write(name, "csv", bytes)?;
        let theirs = self.theirs.run(bytes, &file, How::Whole)?;
        if theirs != answers::<Room<S>>(S::AXES, S::WORD, bytes) {
            return Err("the oracle's program does not answer as the unchanged trees do".into());
        }
        self.write(name, "answers", &theirs)?;
        for how in hows {
            let ours = self.ours.run(bytes, &file, *how)?;
            if ours != theirs {
                return Err(self.part(name, bytes, *how, (&ours, &theirs)));
            }
            if !matches!(how, How::Whole) && self.theirs.run(bytes, &file, *how)? != theirs {
                return Err(format!("the oracle's program answers otherwise when read {how:?}"));
            }
        }
        Ok(lines(&theirs).count())
    }

    /// What is told where the two part: the first line, and a short stream that fails.
    fn part(&self, name: &str, bytes: &[u8], how: How, printed: (&[u8], &[u8])) -> String {
        let fails = |bytes: &[u8]| {
            let Ok(file) = self.write(name, "trying", bytes) else { return false };
            let answers = [&self.ours, &self.theirs].map(|program| program.run(bytes, &file, how));
            matches!(answers, [Ok(ours), Ok(theirs)] if ours != theirs)
        };
        let short = shrink(bytes, fails);
        drop(fs::remove_file(self.file(name, "trying")));
        let place = self.write(name, "fails", &short).map_or_else(|e| e, |path| path.display().to_string());
        let number = lines(printed.0).zip(lines(printed.1)).take_while(|(a, b)| a == b).count();
        let line = |printed| shown(lines(printed).nth(number));
        let record = oracle::record::records(bytes).nth(number).map(|record| match record {
            oracle::record::Record::Line(line) => shown(Some(line)),
            oracle::record::Record::Broken => "(too long, or no line end)".into(),
        });
        format!(
            "read {how:?}, record {}: {}: ours says {}, the Rust says {}; a stream of {} records that fails is {place}",
            number + 1,
            record.unwrap_or("(no record)".into()),
            line(printed.0),
            line(printed.1),
            lines(&short).count(),
        )
    }
}

fn lines(printed: &[u8]) -> impl Iterator<Item = &[u8]> {
    printed.split_inclusive(|byte| *byte == b'\n')
}

/// A line as it can be printed, cut short.
fn shown(line: Option<&[u8]>) -> String {
    let Some(line) = line else { return "nothing".into() };
    let cut = &line[..line.len().min(160)];
    format!("{}{}", cut.escape_ascii(), if cut.len() < line.len() { ".." } else { "" })
}

/// Every standard stream, however it can come.
fn standard_jobs<'a, S: Space>(pair: &'a Pair) -> Vec<Job<'a>> {
    let job = |(seed, stream): (u64, Named)| -> Job<'a> {
        let mut hows = vec![How::Whole, How::Pieces(seed)];
        let mut ways = "whole, in pieces".to_string();
        if stream.bytes.len() <= SMALL {
            hows.push(How::Bytes);
            ways += ", byte by byte";
        }
        let name = format!("{} {}", S::WORD, stream.name);
        let told = move |many: usize, bytes: usize| format!("{many} answers to {bytes} bytes; {ways}");
        (name, Box::new(move || Ok(told(pair.alike::<S>(&stream, &hows)?, stream.bytes.len()))))
    };
    (1..).zip(standard::<S>(STANDARD)).map(job).collect()
}

/// So many records in all, every sort of generated stream taking its share.
fn many_jobs<'a, S: Space>(pair: &'a Pair, records: usize) -> Vec<Job<'a>> {
    let makers = makers::<S>();
    // There are few long ones, so that the others have to make up the number.
    let share = records.div_ceil(makers.iter().filter(|maker| maker.name != LONG).count());
    let job = |maker: streams::Maker| -> Job<'a> {
        let name = format!("{} {} by the million", S::WORD, maker.name);
        let work = move || {
            let mut done = 0;
            for seed in (1000..).take(share.div_ceil(MANY)) {
                let mut stream = maker.make(seed, MANY);
                stream.name = format!("{}-many", stream.name);
                let how = if seed % 8 == 0 { How::Pieces(seed) } else { How::Whole };
                done += pair.alike::<S>(&stream, &[how]).map_err(|e| format!("seed {seed}: {e}"))?;
            }
            Ok(format!("{done} answers"))
        };
        (name, Box::new(work))
    };
    makers.into_iter().map(job).collect()
}

/// Does the jobs two at a time and tells of them in order.
fn all(report: &mut Report, jobs: &[Job]) {
    let next = AtomicUsize::new(0);
    let outcomes: Vec<Mutex<Outcome>> = jobs.iter().map(|_| Mutex::new(Err("it stopped".into()))).collect();
    let thread = || loop {
        let number = next.fetch_add(1, Ordering::Relaxed);
        let Some((_, work)) = jobs.get(number) else { return };
        *outcomes[number].lock().expect("nobody else takes it") = work();
    };
    std::thread::scope(|scope| {
        for thread in [scope.spawn(thread), scope.spawn(thread)] {
            drop(thread.join());
        }
    });
    for ((name, _), outcome) in jobs.iter().zip(outcomes) {
        let outcome = outcome.into_inner().unwrap_or(Err("it stopped".into()));
        report.test(&format!("records {name}"), outcome);
    }
}

fn compare<S: Space>(report: &mut Report, ours: &Path, folder: &Path, records: usize) {
    match Pair::new::<S>(ours, folder) {
        Err(missing) => report.test(&format!("records {}", S::WORD), Err(missing)),
        Ok(pair) => {
            all(report, &standard_jobs::<S>(&pair));
            if records > 0 {
                all(report, &many_jobs::<S>(&pair, records));
            }
        }
    }
}

fn main() -> ExitCode {
    let words: Vec<String> = std::env::args().skip(1).collect();
    let millions = words.get(2).map_or(Ok(0.0), |word| word.parse::<f64>());
    let (2..=3, Ok(millions)) = (words.len(), millions) else {
        eprintln!("compare: the words are the folder of our programs, a folder for streams, and a number of millions");
        return ExitCode::from(2);
    };
    let (ours, folder) = (Path::new(&words[0]), Path::new(&words[1]));
    let records = (millions * 1e6) as usize;
    let mut report = Report::default();
    compare::<Plane>(&mut report, ours, folder, records);
    compare::<Solid>(&mut report, ours, folder, records);
    ExitCode::from(u8::from(!report.all_passed()))
}
