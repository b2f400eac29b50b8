//! Small texts, nearly all of them faultless, and two kinds at the bounds.

use super::{operation, operations, short_names};
use crate::random::Random;

const TEMPLATES: [&str; 4] = ["integrity", "confidentiality", "domain", "consistency"];

/// A text of 1 to 8 contexts.
pub fn text(random: &mut Random) -> Vec<u8> {
    let n = random.within(1, 8).max(random.within(1, 8));
    let names = if random.once_in(4) { odd_names(n, random) } else { short_names(n) };
    let vectors = random.below(3 * n + 1);
    let grants = random.below(5);
    let properties = random.within(1, 6);
    Plan { names, vectors, grants, properties, members: n }.text(random)
}

/// A text of up to 256 contexts, with few moves for each, so that chains get long.
pub fn wide(random: &mut Random) -> Vec<u8> {
    let names = short_names(random.within(9, 256));
    let vectors = random.below(4 * names.len());
    let grants = random.below(33);
    Plan { names, vectors, grants, properties: 8, members: 12 }.text(random)
}

/// A text in which about as many pairs are set as a policy takes.
pub fn crowded(random: &mut Random) -> Vec<u8> {
    let names = short_names(random.within(33, 80));
    let mut pairs: Vec<(&String, &String)> = names.iter().flat_map(|s| names.iter().map(move |t| (s, t))).collect();
    random.shuffle(&mut pairs);
    let mut text: String = names.iter().map(|name| format!("context {name} 0 0\n")).collect();
    for &(s, t) in &pairs[..random.within(1023, 1025)] {
        text += &format!("vector {s} {t} {}\n", operation(random));
    }
    text += &format!("property 1 integrity {} {}\n", names[0], names[1]);
    text.into_bytes()
}

/// What a text is to hold.
struct Plan {
    names: Vec<String>,
    vectors: usize,
    grants: usize,
    properties: usize,
    /// As many members a set has at most.
    members: usize,
}

impl Plan {
    fn text(&self, random: &mut Random) -> Vec<u8> {
        let mut text = self.contexts(random);
        if random.once_in(2) {
            for _ in 0..random.within(1, 2) {
                text += &format!("constrain {}\n", operations(random));
            }
        }
        let mut lines: Vec<String> = (0..self.vectors).map(|_| self.vector(random)).collect();
        let numbers = numbers(self.grants, 32, random);
        lines.extend(numbers.iter().map(|&number| self.grant(number, random)));
        let numbers = self::numbers(self.properties, 64, random);
        lines.extend(numbers.iter().map(|&number| self.property(number, random)));
        random.shuffle(&mut lines);
        text += &lines.concat();
        text.into_bytes()
    }

    fn contexts(&self, random: &mut Random) -> String {
        let level = random.pick(&[0, 0, 1, 2, 15]);
        let owner = random.pick(&[0, 1, 1, 3, 15]);
        let line = |name| format!("context {name} {} {}\n", random.within(0, level), random.within(0, owner));
        self.names.iter().map(line).collect()
    }

    fn vector(&self, random: &mut Random) -> String {
        let (s, t) = (random.pick(&self.names), random.pick(&self.names));
        format!("vector {s} {t} {}\n", operations(random))
    }

    fn grant(&self, number: usize, random: &mut Random) -> String {
        let sets = [(); 2].map(|()| self.members(random, &self.names).join(","));
        format!("grant {number} {} {} {}\n", sets[0], sets[1], operations(random))
    }

    fn property(&self, number: usize, random: &mut Random) -> String {
        let template = random.pick(&TEMPLATES);
        let mut names = self.names.clone();
        random.shuffle(&mut names);
        let (one, other) = names.split_at(names.len().div_ceil(2));
        let first = self.members(random, one);
        let other = if other.is_empty() || random.once_in(40) { &names } else { other };
        let second = self.members(random, other).join(",");
        let one_set = (template == "domain") != random.once_in(60);
        let sets = if one_set { first.join(",") } else { format!("{} {second}", first.join(",")) };
        format!("property {number} {template} {sets}\n")
    }

    /// Some of these names, at least one, and seldom one of them twice.
    fn members(&self, random: &mut Random, names: &[String]) -> Vec<String> {
        let most = names.len().min(self.members);
        let count = random.within(1, most).min(random.within(1, most));
        let mut names = names.to_vec();
        random.shuffle(&mut names);
        names.truncate(count);
        if random.once_in(30) {
            names.push(names[0].clone());
        }
        names
    }
}

/// Numbers for entries: nearly always different and in range.
fn numbers(count: usize, most: usize, random: &mut Random) -> Vec<usize> {
    let mut numbers: Vec<usize> = (1..=most).collect();
    random.shuffle(&mut numbers);
    numbers.truncate(count);
    if count > 1 && random.once_in(40) {
        numbers[0] = random.pick(&[0, most + 1, 999, numbers[1]]);
    }
    numbers
}

/// Different names of any length.
fn odd_names(count: usize, random: &mut Random) -> Vec<String> {
    let bytes: Vec<char> = ('a'..='z').chain('0'..='9').chain(['_']).collect();
    let rests = [(); 8].map(|()| (0..random.below(16)).map(|_| random.pick(&bytes)).collect::<String>());
    ('a'..='h').zip(rests).map(|(first, rest)| format!("{first}{rest}")).take(count).collect()
}
