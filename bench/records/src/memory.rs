//! How much memory a program takes. The kernel is asked while the program waits for more input, so that what is read is its
//! own and not that of the process that started it.

use crate::side::Side;
use std::io::Write;
use std::process::Stdio;
use std::time::Duration;

/// The most that was resident, and the stack, in kB, after so many bytes of this stream again and again.
pub fn taken(side: &Side, stream: &[u8], bytes: usize) -> Result<(u64, u64), String> {
    let mut child = side.command().stdin(Stdio::piped()).spawn().map_err(|e| e.to_string())?;
    let mut input = child.stdin.take().expect("its input is a pipe");
    let mut left = bytes;
    let mut written = Ok(());
    while left > 0 && written.is_ok() {
        let part = &stream[..stream.len().min(left)];
        written = input.write_all(part);
        left -= part.len();
    }
    // What is still in the pipe is read in the meantime.
    std::thread::sleep(Duration::from_millis(200));
    let status = std::fs::read_to_string(format!("/proc/{}/status", child.id()));
    drop(input);
    let ended = child.wait();
    written.map_err(|e| e.to_string())?;
    ended.map_err(|e| e.to_string())?;
    let status = status.map_err(|e| e.to_string())?;
    Ok((figure(&status, "VmHWM:")?, figure(&status, "VmStk:")?))
}

fn figure(status: &str, name: &str) -> Result<u64, String> {
    let line = status.lines().find_map(|line| line.strip_prefix(name));
    let number = line.and_then(|line| line.split_whitespace().next()).and_then(|word| word.parse().ok());
    number.ok_or(format!("the kernel tells no {name}"))
}
