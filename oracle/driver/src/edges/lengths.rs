//! Lengths about 128, far above, and about the sizes of buffers.

use super::{begun, create, named, Named, LEN};
use crate::record::{LONGEST, MARK};
use crate::space::Space;

/// These bytes again and again, so many in all.
fn filled(with: &[u8], many: usize) -> Vec<u8> {
    with.iter().copied().cycle().take(many).collect()
}

/// A line that is no record for any reason but its last fields, and its length.
fn line(many: usize) -> Vec<u8> {
    filled(b"insert,0000000000000000,", many)
}

/// Lines of each length with this end, and `len` behind each.
fn lines(lengths: impl IntoIterator<Item = usize>, end: &[u8]) -> Vec<u8> {
    lengths.into_iter().flat_map(|many| [&line(many), end, LEN].concat()).collect()
}

/// The longest good record, and what is just short enough or just too long.
pub fn about_the_longest<S: Space>() -> Vec<Named> {
    let tree = &begun::<S>()[..];
    let good = create::<S>(u32::MAX).into_bytes();
    let near = LONGEST - 4..LONGEST + 9;
    let mut all = vec![
        named("length-of-the-longest-good-record", &[&good, b"\r\n", LEN, &good, b"\n", LEN]),
        named("length-of-the-longest-behind-the-mark", &[MARK, &good, b"\r\n", LEN]),
        named("length-of-the-longest-no-line-end", &[tree, &good]),
        named("length-about-128-lf", &[tree, &lines(near.clone(), b"\n")]),
        named("length-about-128-crlf", &[tree, &lines(near, b"\r\n")]),
        named("length-0-to-400", &[tree, &lines(0..400, b"\n")]),
    ];
    for many in [LONGEST, LONGEST + 1] {
        let name = |what: &str| format!("length-{many}-{what}");
        let line = &line(many)[..];
        all.extend([
            named(&name("lf"), &[tree, line, b"\n", LEN]),
            named(&name("crlf"), &[tree, line, b"\r\n", LEN]),
            named(&name("and-two-cr"), &[tree, line, b"\r\r\n", LEN]),
            named(&name("no-line-end"), &[tree, line]),
            named(&name("and-cr-no-line-end"), &[tree, line, b"\r"]),
            named(&name("behind-the-mark"), &[MARK, line, b"\r\n", tree, LEN]),
        ]);
    }
    all
}

/// Records much longer than any that is good.
pub fn long<S: Space>() -> Vec<Named> {
    let tree = &begun::<S>()[..];
    let sizes = [511, 512, 513, 4095, 4096, 4097, 65_535, 65_536, 65_537, 131_072, 1_000_000];
    let words: Vec<u8> = (100..180).flat_map(|many| [&filled(b"x", many), LEN].concat()).collect();
    let in_a_row = [&line(LONGEST + 1)[..], b"\n"].concat().repeat(1500);
    vec![
        named("long-records", &[tree, &lines(sizes, b"\r\n")]),
        named("long-records-in-a-row", &[tree, &in_a_row, LEN]),
        named("long-records-end-with-a-word", &[tree, &words, LEN]),
        named("long-record-no-line-end", &[tree, LEN, &line(300_000)]),
        named("long-record-first", &[&line(70_000), b"\n", tree, LEN]),
        named("long-record-behind-the-mark", &[MARK, &line(70_000), b"\n", tree, LEN]),
        named("long-record-ends-with-a-field", &[tree, &line(200), b",len\n", LEN]),
        named("long-record-ends-with-cr-and-a-word", &[tree, &line(200), b"\rlen\n", LEN]),
        named("long-record-of-good-ones-with-cr", &[tree, &filled(b"len\r", 2000), b"\n", LEN]),
        named("long-record-of-nul", &[tree, &filled(b"\0", 100_000), b"\n", LEN]),
        named("long-record-of-quotes", &[tree, &filled(b"\"", 5000), b"\n", LEN]),
        named("long-record-of-marks", &[tree, &filled(MARK, 3000), b"\n", LEN]),
    ]
}

/// The first line shifts what follows, so that line ends fall on every place about a buffer's end.
pub fn shifted<S: Space>() -> Vec<Named> {
    let lines = b"len\r\n".repeat(30_000);
    let stream = |shift| {
        named(&format!("line-ends-shifted-by-{shift}"), &[&begun::<S>(), &line(shift), b"\n", &lines])
    };
    (0..5).map(stream).collect()
}
