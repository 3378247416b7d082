//! The lines that a proved program prints.

use std::str::FromStr;

use serde_json::{json, Value};
use yaslaurel::Refusal;

use crate::status::Outcome;

/// How far the lines of a program have come.
#[derive(Debug, Default)]
pub struct Progress {
    begun: bool,
    /// Whether the last line has come.
    pub ended: bool,
    policy_refused: bool,
}

impl Progress {
    /// Before each line: none may stand behind the last. The first may say that the policy is refused, by its object, and is the last then.
    fn next(&mut self, line: &str) -> Result<Option<Value>, String> {
        if self.ended {
            return Err("expected nothing behind the last line".into());
        }
        if std::mem::replace(&mut self.begun, true) {
            return Ok(None);
        }
        let refused = refused_policy(line)?;
        (self.ended, self.policy_refused) = (refused.is_some(), refused.is_some());
        Ok(refused)
    }
}

/// What reads the lines of a program.
pub trait Reader {
    /// How far the lines have come.
    fn progress(&mut self) -> &mut Progress;

    /// Takes a line that does not say that the policy is refused.
    fn line(&mut self, line: &str) -> Result<Vec<Value>, String>;

    /// Whether there were alerts or blocked accesses, and whether something was refused or left out.
    fn found(&self) -> (bool, bool);

    /// Takes the next line, and gives the objects that it ends. An error says what was expected.
    fn take(&mut self, line: &str) -> Result<Vec<Value>, String> {
        match self.progress().next(line)? {
            Some(object) => Ok(vec![object]),
            None => self.line(line),
        }
    }

    /// Whether the last line has come.
    fn complete(&mut self) -> bool {
        self.progress().ended
    }

    /// What came of the run.
    fn outcome(&mut self) -> Outcome {
        let (alerts, gaps) = self.found();
        Outcome { alerts, gaps, policy_refused: self.progress().policy_refused, own: None }
    }
}

/// The fields of a line, one after the other.
pub struct Fields<'a> {
    rest: std::str::Split<'a, char>,
}

impl<'a> Fields<'a> {
    /// The fields of a line, which stand one space apart.
    pub fn new(line: &'a str) -> Fields<'a> {
        Fields { rest: line.split(' ') }
    }

    /// The next field; `what` it is to be is told where it is missing.
    pub fn word(&mut self, what: &str) -> Result<&'a str, String> {
        self.rest.next().filter(|word| !word.is_empty()).ok_or_else(|| format!("expected {what}"))
    }

    /// The next field, a decimal number.
    pub fn number<T: FromStr>(&mut self, what: &str) -> Result<T, String> {
        let word = self.word(what)?;
        let digits = word.bytes().all(|digit| digit.is_ascii_digit());
        word.parse().ok().filter(|_| digits).ok_or_else(|| format!("expected {what}, found `{word}`"))
    }

    /// The next field, 16 hexadecimal digits, as they are: the number does not fit every reader of JSON.
    pub fn set(&mut self, what: &str) -> Result<&'a str, String> {
        let word = self.word(what)?;
        let good = word.len() == 16 && word.bytes().all(|digit| matches!(digit, b'0'..=b'9' | b'a'..=b'f'));
        Some(word).filter(|_| good).ok_or_else(|| format!("expected {what}, found `{word}`"))
    }

    /// The next field must be this word.
    pub fn literal(&mut self, word: &str) -> Result<(), String> {
        let found = self.word(&format!("`{word}`"))?;
        (found == word).then_some(()).ok_or_else(|| format!("expected `{word}`, found `{found}`"))
    }

    /// Takes the next field if it is this word.
    pub fn next_is(&mut self, word: &str) -> bool {
        let there = self.rest.clone().next() == Some(word);
        if there {
            self.rest.next();
        }
        there
    }

    /// All that are left, as numbers.
    pub fn numbers(&mut self, what: &str) -> Result<Vec<u64>, String> {
        let mut found = Vec::new();
        while self.rest.clone().next().is_some() {
            found.push(self.number(what)?);
        }
        Ok(found)
    }

    /// Nothing may be left.
    pub fn end(mut self) -> Result<(), String> {
        self.rest.next().map_or(Ok(()), |found| Err(format!("expected the end of the line, found `{found}`")))
    }
}

/// The object of a line `policy refused NUMBER`; nothing for another line.
fn refused_policy(line: &str) -> Result<Option<Value>, String> {
    let Some(rest) = line.strip_prefix("policy refused ") else { return Ok(None) };
    let mut fields = Fields::new(rest);
    let number = fields.number("the number of a refusal")?;
    fields.end()?;
    Ok(Some(json!({ "kind": "policy refused", "refusal": number, "meaning": meaning(number) })))
}

/// What a refusal means, in the library's words; of 19, which only the month program gives, in the words of `docs/FORMATS.md`.
pub fn meaning(number: u32) -> Value {
    if number == 19 {
        return "the trace has over 1,000,000 records".into();
    }
    let known = Refusal::all().find(|refusal| refusal.number() == number);
    known.map_or(Value::Null, |refusal| {
        let text = refusal.to_string();
        text.split_once(": ").map_or(text.clone(), |(_, meaning)| meaning.to_string()).into()
    })
}
