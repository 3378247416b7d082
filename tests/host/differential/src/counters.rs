//! What a run reached.

use std::collections::BTreeMap;
use std::fmt::{self, Write as _};

/// What is counted under a name: a number, mostly an answer or a code, or a word.
#[derive(Clone, Copy, Debug, PartialEq, Eq, PartialOrd, Ord)]
pub enum Key {
    Number(u32),
    Word(&'static str),
}

impl From<u32> for Key {
    fn from(number: u32) -> Key {
        Key::Number(number)
    }
}

impl From<&'static str> for Key {
    fn from(word: &'static str) -> Key {
        Key::Word(word)
    }
}

impl fmt::Display for Key {
    fn fmt(&self, f: &mut fmt::Formatter<'_>) -> fmt::Result {
        match self {
            Key::Number(number) => number.fmt(f),
            Key::Word(word) => word.fmt(f),
        }
    }
}

/// What a run must reach, under a name.
pub enum Need {
    Numbers(&'static str, &'static [u32]),
    Words(&'static str, &'static [&'static str]),
    /// The largest is this.
    Largest(&'static str, usize),
    /// Of all that was counted under the name, this part at least, in a hundred.
    Share(&'static str, &'static str, u64),
}

#[derive(Default)]
pub struct Counters {
    counts: BTreeMap<&'static str, BTreeMap<Key, u64>>,
    largest: BTreeMap<&'static str, usize>,
}

impl Counters {
    pub fn count(&mut self, name: &'static str, key: impl Into<Key>) {
        self.add(name, key, 1);
    }

    pub fn add(&mut self, name: &'static str, key: impl Into<Key>, times: u64) {
        *self.counts.entry(name).or_default().entry(key.into()).or_default() += times;
    }

    /// Keeps the largest of all under a name.
    pub fn largest(&mut self, name: &'static str, size: usize) {
        let largest = self.largest.entry(name).or_default();
        *largest = size.max(*largest);
    }

    fn reached(&self, name: &str, key: Key) -> bool {
        self.counts.get(name).and_then(|counts| counts.get(&key)).is_some_and(|&count| count > 0)
    }

    /// Whether so many in a hundred of what was counted under a name have this key.
    fn share(&self, name: &str, key: Key, percent: u64) -> bool {
        self.counts.get(name).is_some_and(|counts| {
            let all: u64 = counts.values().sum();
            100 * counts.get(&key).copied().unwrap_or(0) >= percent * all && all > 0
        })
    }

    /// What the run did not reach of this, and must.
    pub fn missing(&self, need: &Need) -> Vec<String> {
        let without = |name: &str, keys: Vec<Key>| {
            let missing = keys.into_iter().filter(|&key| !self.reached(name, key));
            missing.map(|key| format!("{name}: {key}")).collect()
        };
        match *need {
            Need::Numbers(name, numbers) => without(name, numbers.iter().map(|&number| number.into()).collect()),
            Need::Words(name, words) => without(name, words.iter().map(|&word| word.into()).collect()),
            Need::Largest(name, size) if self.largest.get(name) == Some(&size) => vec![],
            Need::Largest(name, size) => vec![format!("{name}: {size}")],
            Need::Share(name, key, percent) if self.share(name, key.into(), percent) => vec![],
            Need::Share(name, key, percent) => vec![format!("{name}: {percent} in a hundred {key}")],
        }
    }

    /// Each name with its counts: by number on one line, behind their sum, by word on one line each.
    pub fn table(&self) -> String {
        let mut text = String::new();
        for (name, counts) in &self.counts {
            let sum: u64 = counts.values().sum();
            let numbers = counts.iter().filter(|(key, _)| matches!(key, Key::Number(_)));
            let numbers: Vec<String> = numbers.map(|(number, count)| format!("{number}: {count}")).collect();
            let sum = if numbers.is_empty() { String::new() } else { format!("{sum:<10}") };
            writeln!(text, "  {}", format!("{name:<44}{sum}{}", numbers.join(", ")).trim_end()).unwrap();
            for (word, count) in counts.iter().filter(|(key, _)| matches!(key, Key::Word(_))) {
                writeln!(text, "    {word:<42}{count}").unwrap();
            }
        }
        for (name, size) in &self.largest {
            writeln!(text, "  {name:<44}{size}").unwrap();
        }
        text
    }
}
