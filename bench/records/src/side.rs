//! A program, its answers and its time.

use oracle::space::Space;
use std::fs::File;
use std::path::{Path, PathBuf};
use std::process::{Command, Stdio};
use std::time::Instant;

pub struct Side {
    path: PathBuf,
    words: Vec<&'static str>,
}

impl Side {
    pub fn ours<S: Space>(folder: &Path) -> Result<Side, String> {
        Side { path: folder.join(S::WORD), words: Vec::new() }.there()
    }

    /// The oracle's program, which stands beside this one.
    pub fn rust<S: Space>() -> Result<Side, String> {
        let mut path = std::env::current_exe().map_err(|e| e.to_string())?;
        path.set_file_name("records");
        Side { path, words: vec![S::WORD] }.there()
    }

    fn there(self) -> Result<Side, String> {
        if self.path.is_file() {
            Ok(self)
        } else {
            Err(format!("{} is missing", self.path.display()))
        }
    }

    pub fn command(&self) -> Command {
        let mut command = Command::new(&self.path);
        command.args(&self.words).stdout(Stdio::null());
        command
    }

    fn reading(&self, file: &Path) -> Result<Command, String> {
        let input = File::open(file).map_err(|e| format!("{}: {e}", file.display()))?;
        let mut command = self.command();
        command.stdin(input);
        Ok(command)
    }

    pub fn printed(&self, file: &Path) -> Result<Vec<u8>, String> {
        let done = self.reading(file)?.stdout(Stdio::piped()).output().map_err(|e| e.to_string())?;
        if done.status.success() {
            Ok(done.stdout)
        } else {
            Err(format!("{}: {}", self.path.display(), done.status))
        }
    }

    /// Seconds from the start of the process to its end.
    pub fn time(&self, file: &Path) -> Result<f64, String> {
        let mut command = self.reading(file)?;
        let start = Instant::now();
        command.status().map_err(|e| e.to_string())?;
        Ok(start.elapsed().as_secs_f64())
    }
}
