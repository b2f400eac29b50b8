//! Policy texts: small ones, damaged ones, and the largest.

pub mod arcade;
mod damage;
pub mod large;
mod small;

use crate::operations::NAMES;
use crate::random::Random;

/// The text of a seed: mostly small ones, half of them damaged, and a few at the bounds of what a text may hold.
pub fn text(seed: u64) -> Vec<u8> {
    let mut random = Random::new(seed);
    match random.below(100) {
        0 => small::crowded(&mut random),
        1 | 2 => small::wide(&mut random),
        3..=6 => damage::sized(small::text(&mut random), &mut random),
        7..=52 => damage::damaged(small::text(&mut random), &mut random),
        _ => small::text(&mut random),
    }
}

/// As many short names: a to z, then those of two bytes.
pub fn short_names(count: usize) -> Vec<String> {
    let letters = || ('a'..='z').map(String::from);
    let seconds = || ('0'..='9').chain('a'..='z');
    let longer = seconds().flat_map(|second| letters().map(move |first| format!("{first}{second}")));
    letters().chain(longer).take(count).collect()
}

/// A vector line of exactly `length` bytes and its line feed, which names operations again and again.
fn long_vector(name: &str, length: usize) -> String {
    let mut line = format!("vector {name} {name}");
    while line.len() < length {
        let word = if (length - line.len()).is_multiple_of(5) { " read" } else { " write" };
        line.push_str(word);
    }
    line + "\n"
}

fn operation(random: &mut Random) -> &'static str {
    const TRANSFERRING: [&str; 9] = ["read", "write", "append", "update", "stat", "signal", "send", "receive", "read"];
    match random.below(5) {
        0 => "become",
        1 => random.pick(&NAMES),
        _ => random.pick(&TRANSFERRING),
    }
}

fn operations(random: &mut Random) -> String {
    let count = random.pick(&[1, 1, 1, 2, 3]);
    let names: Vec<&str> = (0..count).map(|_| operation(random)).collect();
    names.join(" ")
}
