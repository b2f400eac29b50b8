//! Damaged texts, and texts of a wished size.

use super::{long_vector, short_names};
use crate::random::Random;

const ODD_BYTES: [u8; 16] = [0, 9, 10, 11, 13, b' ', b',', b'-', b'/', b'0', b'A', b'_', b'{', 127, 128, 255];

#[rustfmt::skip]
const ODD_WORDS: [&str; 36] = [
    "", "0", "00", "1", "01", "15", "16", "32", "33", "64", "65", "255", "256", "999", "1000", "65536", "4294967296", "+1", "-1",
    "context", "constrain", "vector", "grant", "property", "domain", "integrity", "become", "Read", "a", "b", "a,b", "a,", ",a",
    "a,,b", "nobody", "a,nobody,B",
];

/// A text with one to three things in it damaged.
pub fn damaged(mut text: Vec<u8>, random: &mut Random) -> Vec<u8> {
    for _ in 0..random.pick(&[1, 1, 1, 2, 3]) {
        text = match random.below(10) {
            0..=2 => one_byte(text, random),
            3..=5 => one_line(&text, random),
            6..=8 => one_word(&text, random),
            _ => cut(text, random),
        };
    }
    text
}

/// A text brought to a bound: of its bytes, of a line's bytes, of a name's, or of its contexts.
pub fn sized(text: Vec<u8>, random: &mut Random) -> Vec<u8> {
    match random.below(4) {
        0 => of_size(text, random.within(65_535, 65_537)),
        1 => with_line(text, random.within(1023, 1025)),
        2 => with_name(text, random.within(15, 17)),
        _ => with_contexts(text, random.within(255, 257)),
    }
}

fn one_byte(mut text: Vec<u8>, random: &mut Random) -> Vec<u8> {
    if text.is_empty() {
        return vec![random.pick(&ODD_BYTES)];
    }
    let at = random.below(text.len());
    match random.below(4) {
        0 => text[at] = random.pick(&ODD_BYTES),
        1 => text.insert(at, random.pick(&ODD_BYTES)),
        2 => text[at] ^= 1 << random.below(8),
        _ => {
            text.remove(at);
        }
    }
    text
}

fn one_line(text: &[u8], random: &mut Random) -> Vec<u8> {
    let mut lines: Vec<&[u8]> = text.split_inclusive(|&byte| byte == b'\n').collect();
    if lines.is_empty() {
        return b"\n".to_vec();
    }
    let (at, other) = (random.below(lines.len()), random.below(lines.len()));
    match random.below(4) {
        0 => drop(lines.remove(at)),
        1 => lines.insert(at, lines[other]),
        2 => lines.insert(at, b"\n"),
        _ => lines.swap(at, other),
    }
    lines.concat()
}

fn one_word(text: &[u8], random: &mut Random) -> Vec<u8> {
    let mut lines: Vec<&[u8]> = text.split(|&byte| byte == b'\n').collect();
    let at = random.below(lines.len());
    let mut words: Vec<&[u8]> = lines[at].split(|&byte| byte == b' ').collect();
    let (word, other) = (random.below(words.len()), random.below(words.len()));
    match random.below(6) {
        0 => drop(words.remove(word)),
        1 => words.insert(word, words[other]),
        2 => words.swap(word, other),
        _ => words[word] = random.pick(&ODD_WORDS).as_bytes(),
    }
    let line = words.join(&b' ');
    lines[at] = &line;
    lines.join(&b'\n')
}

fn cut(mut text: Vec<u8>, random: &mut Random) -> Vec<u8> {
    let left = if random.once_in(2) { text.len().saturating_sub(1) } else { random.below(text.len() + 1) };
    text.truncate(left);
    text
}

/// Fills a text up with vector lines.
fn of_size(mut text: Vec<u8>, size: usize) -> Vec<u8> {
    let name = first_name(&text);
    while text.len() < size {
        let left = size - text.len();
        let line = match left {
            2001.. => 1000,
            1001.. => left / 2,
            _ => left,
        };
        text.extend_from_slice(long_vector(&name, line - 1).as_bytes());
    }
    text
}

/// Adds a vector line of that many bytes.
fn with_line(mut text: Vec<u8>, length: usize) -> Vec<u8> {
    let name = first_name(&text);
    text.extend_from_slice(long_vector(&name, length).as_bytes());
    text
}

/// Puts in front a context with a name of that many bytes.
fn with_name(text: Vec<u8>, length: usize) -> Vec<u8> {
    let line = format!("context {:z<length$} 0 0\n", "z9_");
    [line.as_bytes(), &text].concat()
}

/// Puts contexts in front until a text declares that many.
fn with_contexts(text: Vec<u8>, count: usize) -> Vec<u8> {
    let declared = text.split(|&byte| byte == b'\n').filter(|line| line.starts_with(b"context ")).count();
    let names = short_names(count - declared);
    let lines: String = names.iter().map(|name| format!("context spare_{name} 0 0\n")).collect();
    [lines.as_bytes(), &text].concat()
}

fn first_name(text: &[u8]) -> String {
    let word = text.split(|&byte| byte == b' ').nth(1).unwrap_or(b"a");
    String::from_utf8_lossy(word).into_owned()
}
