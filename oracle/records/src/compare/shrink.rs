//! Makes a stream on which two programs part as short as it easily gets.

/// Tries of one failure.
const TRIES: usize = 300;

/// The stream with lines left out, as long as it still fails.
pub fn shrink(stream: &[u8], fails: impl Fn(&[u8]) -> bool) -> Vec<u8> {
    let mut lines: Vec<&[u8]> = stream.split_inclusive(|byte| *byte == b'\n').collect();
    let mut tries = 0;
    let mut size = lines.len().div_ceil(2);
    while size > 0 && tries < TRIES {
        let mut at = 0;
        while at < lines.len() && tries < TRIES {
            let end = lines.len().min(at + size);
            let rest = [&lines[..at], &lines[end..]].concat();
            tries += 1;
            if fails(&rest.concat()) {
                lines = rest;
            } else {
                at = end;
            }
        }
        size /= 2;
    }
    lines.concat()
}
