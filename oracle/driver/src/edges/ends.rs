//! The start of a stream, line ends, and a last record without one.

use super::{begun, each, named, word_of, Named, LEN};
use crate::record::MARK;
use crate::space::Space;

/// The very start: nothing, the mark, and what is nearly the mark.
pub fn starts<S: Space>() -> Vec<Named> {
    let tree = &begun::<S>()[..];
    vec![
        named("no-input", &[]),
        named("mark-alone", &[MARK]),
        named("mark-one-byte", &[&MARK[..1]]),
        named("mark-two-bytes", &[&MARK[..2]]),
        named("mark-then-records", &[MARK, tree, LEN]),
        named("mark-then-crlf", &[MARK, b"\r\n", tree, LEN]),
        named("mark-then-lf", &[MARK, b"\n", tree, LEN]),
        named("mark-then-cr", &[MARK, b"\r"]),
        named("mark-then-no-line-end", &[MARK, b"len"]),
        named("mark-twice", &[MARK, MARK, tree, LEN]),
        named("mark-cut-short", &[&MARK[..2], tree, LEN]),
        named("mark-with-a-wrong-last-byte", &[b"\xef\xbb\xbe", tree, LEN]),
        named("mark-behind-a-line-end", &[b"\n", MARK, tree, LEN]),
        named("mark-in-mid-stream", &[tree, MARK, LEN, LEN]),
        named("mark-at-the-end", &[tree, LEN, MARK]),
        named("mark-of-utf-16", &[b"\xff\xfe", tree, LEN]),
    ]
}

/// Line ends, and a last record without one.
pub fn line_ends<S: Space>() -> Vec<Named> {
    let tree = &begun::<S>()[..];
    let crlf = String::from_utf8_lossy(tree).replace('\n', "\r\n").into_bytes();
    let mut all = vec![
        named("line-ends-lf", &[tree, LEN, LEN]),
        named("line-ends-crlf", &[&crlf, b"len\r\nlen\r\n"]),
        named("line-ends-mixed", &[tree, b"len\r\nlen\nlen\r\n", LEN]),
        named("line-end-lf-alone", &[b"\n"]),
        named("line-end-crlf-alone", &[b"\r\n"]),
        named("empty-lines", &[tree, b"\n\r\n\n\n\r\n\r\n", LEN]),
        named("a-thousand-empty-lines", &[tree, &b"\n".repeat(1000), LEN]),
        named("cr-alone", &[b"\r"]),
        named("cr-at-the-end", &[tree, b"len\r"]),
        named("cr-for-a-line-end", &[tree, b"len\rlen\rlen\r\n", LEN]),
        named("cr-twice-before-lf", &[tree, b"len\r\r\n\r\r\n", LEN]),
        named("cr-before-a-record", &[tree, b"\rlen\n\r\rlen\r\n", LEN]),
        named("cr-within", &[tree, b"le\rn\nlen\r,\n,\rlen\n", LEN]),
        named("lf-and-then-cr", &[tree, b"len\n\rlen\n\r", LEN]),
        named("many-cr", &[tree, &b"\r".repeat(500)]),
        named("many-cr-and-lf", &[tree, &b"\r".repeat(500), b"\n", LEN]),
        named("no-line-end", &[tree, b"len"]),
        named("no-line-end-one-byte", &[tree, b","]),
        named("no-line-end-nul", &[tree, b"\0"]),
    ];
    all.extend(
        each::<S>()
            .iter()
            .map(|line| named(&format!("no-line-end-{}", word_of(line)), &[tree, line.as_bytes()])),
    );
    all
}
