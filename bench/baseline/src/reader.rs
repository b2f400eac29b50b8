//! Reading a policy text: its lines in order, and the first fault.

use crate::operations::{by_name, Operations, NONE};
use crate::sheet::{Context, Grant, Marks, Property, Sheet, Template, CAPACITY};
use std::collections::btree_map::{BTreeMap, Entry};
use std::collections::HashMap;
use std::fmt;

pub const LONGEST_TEXT: usize = 65_536;
pub const LONGEST_LINE: usize = 1024;
pub const MOST_CONTEXTS: usize = 256;
pub const MOST_GRANTS: usize = 32;
pub const MOST_PROPERTIES: usize = 64;
const LONGEST_NAME: usize = 16;

/// The first fault of a text. Line and column count from 1.
#[derive(Clone, Copy, PartialEq, Eq, Debug)]
pub struct Fault {
    pub number: u8,
    pub line: usize,
    pub column: usize,
}

impl Fault {
    /// 1 for lines, 2 for words, 3 for what the sheet refuses.
    pub fn layer(&self) -> u8 {
        match self.number {
            13..=15 => 1,
            16 | 17 => 2,
            _ => 3,
        }
    }
}

impl fmt::Display for Fault {
    fn fmt(&self, f: &mut fmt::Formatter) -> fmt::Result {
        write!(f, "fault {} line {} column {} layer {}", self.number, self.line, self.column, self.layer())
    }
}

/// A fault whose line is not yet said.
struct Unfit {
    number: u8,
    column: usize,
}

impl Unfit {
    /// A fault of a whole line.
    fn line(number: u8) -> Unfit {
        Unfit { number, column: 1 }
    }
}

/// A word and the column of its first byte.
#[derive(Clone, Copy)]
struct Word<'a> {
    bytes: &'a [u8],
    column: usize,
}

impl Word<'_> {
    fn unfit(&self, number: u8) -> Unfit {
        Unfit { number, column: self.column }
    }
}

/// Each space parts two words, perhaps empty.
fn words(line: &[u8]) -> Vec<Word<'_>> {
    let mut column = 1;
    let mut found = Vec::new();
    for bytes in line.split(|&byte| byte == b' ') {
        found.push(Word { bytes, column });
        column += bytes.len() + 1;
    }
    found
}

#[derive(Clone, Copy, PartialEq, Eq, PartialOrd, Ord)]
enum Keyword {
    Context,
    Constrain,
    Vector,
    Grant,
    Property,
}

impl Keyword {
    fn of(word: &[u8]) -> Option<Keyword> {
        match word {
            b"context" => Some(Keyword::Context),
            b"constrain" => Some(Keyword::Constrain),
            b"vector" => Some(Keyword::Vector),
            b"grant" => Some(Keyword::Grant),
            b"property" => Some(Keyword::Property),
            _ => None,
        }
    }

    fn takes(self, count: usize) -> bool {
        match self {
            Keyword::Context => count == 3,
            Keyword::Constrain => count >= 1,
            Keyword::Vector => count >= 3,
            Keyword::Grant => count >= 4,
            Keyword::Property => count == 3 || count == 4,
        }
    }

    /// Contexts come first, then constrain lines, then the others in any order.
    fn rank(self) -> u8 {
        match self {
            Keyword::Context => 0,
            Keyword::Constrain => 1,
            _ => 2,
        }
    }
}

/// Reads a whole text, or says its first fault.
pub fn read(text: &[u8]) -> Result<Sheet, Fault> {
    if text.len() > LONGEST_TEXT {
        return Err(Fault { number: 13, line: 1, column: 1 });
    }
    if text.is_empty() {
        return Err(Fault { number: 15, line: 1, column: 1 });
    }
    let mut reader = Reader::new();
    for (index, line) in text.split_inclusive(|&byte| byte == b'\n').enumerate() {
        let accepted = match line {
            [line @ .., b'\n'] => reader.line(line),
            _ => Err(Unfit::line(14)),
        };
        accepted.map_err(|Unfit { number, column }| Fault { number, line: index + 1, column })?;
    }
    Ok(reader.finish())
}

/// What the lines read so far lay out.
struct Reader {
    contexts: Vec<Context>,
    numbers: HashMap<Vec<u8>, usize>,
    rank: u8,
    constrained: Operations,
    written: HashMap<(usize, usize), Operations>,
    grants: BTreeMap<usize, Grant>,
    properties: BTreeMap<usize, Property>,
}

impl Reader {
    fn new() -> Reader {
        Reader {
            contexts: Vec::new(),
            numbers: HashMap::new(),
            rank: 0,
            constrained: NONE,
            written: HashMap::new(),
            grants: BTreeMap::new(),
            properties: BTreeMap::new(),
        }
    }

    fn finish(self) -> Sheet {
        let n = self.contexts.len();
        let mut written = vec![NONE; n * n];
        for ((s, t), operations) in self.written {
            written[s * n + t] = operations;
        }
        let Reader { contexts, constrained, grants, properties, .. } = self;
        Sheet { contexts, constrained, written, grants, properties }
    }

    fn line(&mut self, line: &[u8]) -> Result<(), Unfit> {
        if line.len() > LONGEST_LINE {
            return Err(Unfit::line(14));
        }
        let words = words(line);
        let keyword = Keyword::of(words[0].bytes).ok_or(Unfit::line(14))?;
        let words = &words[1..];
        if !keyword.takes(words.len()) || keyword.rank() < self.rank {
            return Err(Unfit::line(14));
        }
        let declares = keyword == Keyword::Context;
        if !declares && self.contexts.is_empty() || declares && self.contexts.len() == MOST_CONTEXTS {
            return Err(Unfit::line(15));
        }
        self.rank = keyword.rank();
        match keyword {
            Keyword::Context => self.context(words),
            Keyword::Constrain => self.constrain(words),
            Keyword::Vector => self.vector(words),
            Keyword::Grant => self.grant(words),
            Keyword::Property => self.property(words),
        }
    }

    fn context(&mut self, words: &[Word]) -> Result<(), Unfit> {
        let name = name(words[0])?;
        if self.numbers.contains_key(name) {
            return Err(words[0].unfit(17));
        }
        let level = number(words[1], 15)?;
        let owner = number(words[2], 15)?;
        self.numbers.insert(name.to_vec(), self.contexts.len());
        self.contexts.push(Context { name: name.to_vec(), level, owner });
        Ok(())
    }

    fn constrain(&mut self, words: &[Word]) -> Result<(), Unfit> {
        self.constrained |= operations(words)?;
        Ok(())
    }

    fn vector(&mut self, words: &[Word]) -> Result<(), Unfit> {
        let s = self.known(words[0])?;
        let t = self.known(words[1])?;
        let added = operations(&words[2..])?;
        let room = self.written.len() < CAPACITY;
        match self.written.entry((s, t)) {
            std::collections::hash_map::Entry::Occupied(mut pair) => *pair.get_mut() |= added,
            std::collections::hash_map::Entry::Vacant(pair) if room => {
                pair.insert(added);
            }
            _ => return Err(Unfit::line(11)),
        }
        Ok(())
    }

    fn grant(&mut self, words: &[Word]) -> Result<(), Unfit> {
        let number = number(words[0], 999)?;
        let subjects = self.set(words[1])?;
        let targets = self.set(words[2])?;
        let operations = operations(&words[3..])?;
        let grant = Grant { subjects, targets, operations };
        enter(&mut self.grants, MOST_GRANTS, number, || Ok(grant))
    }

    fn property(&mut self, words: &[Word]) -> Result<(), Unfit> {
        let number = number(words[0], 999)?;
        let template = template(words[1])?;
        let first = self.set(words[2])?;
        let second = words.get(3).map(|&word| self.set(word)).transpose()?;
        enter(&mut self.properties, MOST_PROPERTIES, number, || {
            if (template == Template::Domain) != second.is_none() {
                return Err(Unfit::line(6));
            }
            let second = second.unwrap_or_else(|| vec![false; first.len()]);
            if first.iter().zip(&second).any(|(&a, &b)| a && b) {
                return Err(Unfit::line(7));
            }
            Ok(Property { template, first, second })
        })
    }

    /// The number of a declared context.
    fn known(&self, word: Word) -> Result<usize, Unfit> {
        let name = name(word)?;
        self.numbers.get(name).copied().ok_or(word.unfit(17))
    }

    /// A set is names parted by commas. Their shape is looked at first, then whether they are known.
    fn set(&self, word: Word) -> Result<Marks, Unfit> {
        let parts = || word.bytes.split(|&byte| byte == b',');
        if !parts().all(is_name) {
            return Err(word.unfit(16));
        }
        let mut marks = vec![false; self.contexts.len()];
        for part in parts() {
            let &context = self.numbers.get(part).ok_or(word.unfit(17))?;
            marks[context] = true;
        }
        Ok(marks)
    }
}

/// Puts an entry under a free number from 1 to `most`.
fn enter<E>(
    entries: &mut BTreeMap<usize, E>,
    most: usize,
    number: usize,
    entry: impl FnOnce() -> Result<E, Unfit>,
) -> Result<(), Unfit> {
    if number < 1 || number > most {
        return Err(Unfit::line(1));
    }
    match entries.entry(number) {
        Entry::Occupied(_) => Err(Unfit::line(2)),
        Entry::Vacant(free) => {
            free.insert(entry()?);
            Ok(())
        }
    }
}

fn is_name(bytes: &[u8]) -> bool {
    bytes.len() <= LONGEST_NAME
        && bytes.first().is_some_and(u8::is_ascii_lowercase)
        && bytes.iter().all(|byte| matches!(byte, b'a'..=b'z' | b'0'..=b'9' | b'_'))
}

fn name<'a>(word: Word<'a>) -> Result<&'a [u8], Unfit> {
    if is_name(word.bytes) {
        Ok(word.bytes)
    } else {
        Err(word.unfit(16))
    }
}

/// A number is 0 or starts with another digit.
fn number(word: Word, most: usize) -> Result<usize, Unfit> {
    let digits = word.bytes;
    let shaped = match digits {
        b"0" => true,
        [b'1'..=b'9', rest @ ..] => rest.len() <= 2 && rest.iter().all(u8::is_ascii_digit),
        _ => false,
    };
    let value = if shaped { digits.iter().fold(0, |value, &digit| value * 10 + usize::from(digit - b'0')) } else { most + 1 };
    if value <= most {
        Ok(value)
    } else {
        Err(word.unfit(16))
    }
}

fn template(word: Word) -> Result<Template, Unfit> {
    match word.bytes {
        b"integrity" => Ok(Template::Integrity),
        b"confidentiality" => Ok(Template::Confidentiality),
        b"domain" => Ok(Template::Domain),
        b"consistency" => Ok(Template::Consistency),
        _ => Err(word.unfit(16)),
    }
}

fn operations(words: &[Word]) -> Result<Operations, Unfit> {
    words.iter().try_fold(NONE, |operations, word| {
        let operation = by_name(word.bytes).ok_or(word.unfit(16))?;
        Ok(operations | 1 << operation)
    })
}
