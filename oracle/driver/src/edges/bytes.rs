//! Bytes that no record has, and every byte at every place of good ones.

use super::{begun, each, lined, named, tree_lines, word_of, Named, LEN};
use crate::space::Space;

/// NUL, quotes, and each byte alone.
pub fn odd<S: Space>() -> Vec<Named> {
    let tree = &begun::<S>()[..];
    let single: Vec<u8> = (0..=255).flat_map(|byte| [byte, b'\n']).collect();
    let quotes = r#""len" len" " "" """" "len l"en len,"" clear" "clear""#;
    let fields = each::<S>().into_iter().flat_map(|line| quoted(&line));
    vec![
        named("nul", &[tree, b"len\0\n\0len\nle\0n\n\0\n\0\0\0\0\nlen,\0\n", LEN]),
        named("single-bytes", &[tree, &single, LEN]),
        lined("quotes", tree_lines::<S>().into_iter().chain(quotes.split(' ').map(String::from))),
        lined("quoted-fields", tree_lines::<S>().into_iter().chain(fields).chain(["len".into()])),
        named("quote-around-a-line-end", &[tree, b"\"len\n\"\n", LEN]),
        named("quote-around-a-comma", &[tree, b"\"len,\"\n", LEN]),
    ]
}

/// A record with one of its fields in quotes, for each field.
fn quoted(line: &str) -> Vec<String> {
    let fields: Vec<&str> = line.split(',').collect();
    let one = |which: usize| {
        let mut fields: Vec<String> = fields.iter().map(|field| field.to_string()).collect();
        fields[which] = format!("\"{}\"", fields[which]);
        fields.join(",")
    };
    (0..fields.len()).map(one).collect()
}

/// For each command a stream with every byte at every place, and one with a byte more or less at every place.
pub fn every<S: Space>() -> Vec<Named> {
    let mut all = Vec::new();
    for line in each::<S>() {
        let word = word_of(&line);
        all.push(spoilt::<S>(&format!("every-byte-in-{word}"), line.as_bytes(), changed));
        all.push(spoilt::<S>(&format!("a-byte-more-or-less-in-{word}"), line.as_bytes(), more_or_less));
    }
    all
}

fn changed(line: &[u8], at: usize) -> Vec<Vec<u8>> {
    (0..=255).map(|byte| [&line[..at], &[byte], &line[at + 1..]].concat()).collect()
}

/// Without the byte at a place, cut off there, and with a byte put in.
fn more_or_less(line: &[u8], at: usize) -> Vec<Vec<u8>> {
    let with = |byte: u8| [&line[..at], &[byte], &line[at..]].concat();
    let mut all = vec![[&line[..at], &line[at + 1..]].concat(), line[..at].to_vec(), with(line[at])];
    all.extend(b"0 ,\"\r\0-+".map(with));
    all
}

/// A good record spoilt at each place in many ways. Some stay good, so that the tree is begun anew for each place.
fn spoilt<S: Space>(name: &str, line: &[u8], ways: impl Fn(&[u8], usize) -> Vec<Vec<u8>>) -> Named {
    let mut bytes = Vec::new();
    for at in 0..line.len() {
        bytes.extend(begun::<S>());
        for way in ways(line, at) {
            bytes.extend(way);
            bytes.push(b'\n');
        }
        bytes.extend_from_slice(LEN);
    }
    Named { name: name.into(), bytes }
}
