//! Explanations as JSON.

use std::fmt::Write;

use super::{ChainTold, Explanation, From, Hop};

/// A value of JSON.
enum Value {
    Null,
    Bool(bool),
    Number(usize),
    Text(String),
    List(Vec<Value>),
    Object(Vec<(String, Value)>),
}

use Value::{List, Null, Number, Object, Text};

fn texts(names: &[String]) -> Value {
    List(names.iter().cloned().map(Text).collect())
}

fn object<const FIELDS: usize>(fields: [(&str, Value); FIELDS]) -> Value {
    Object(fields.into_iter().map(|(name, value)| (name.into(), value)).collect())
}

fn optional(name: &Option<String>) -> Value {
    name.clone().map_or(Null, Text)
}

/// A string of JSON: what must be escaped is.
pub(crate) fn spelled(text: &str) -> String {
    let mut out = String::from('"');
    for c in text.chars() {
        match c {
            '"' | '\\' => out.extend(['\\', c]),
            c if (c as u32) < 0x20 => {
                let _ = write!(out, "\\u{:04x}", c as u32);
            }
            c => out.push(c),
        }
    }
    out.push('"');
    out
}

impl Value {
    /// The value as text, a line for each field of an object and each value of a list but for a list of texts.
    fn write(&self, out: &mut String, depth: usize) {
        match self {
            Null => out.push_str("null"),
            Value::Bool(value) => out.push_str(if *value { "true" } else { "false" }),
            Number(number) => out.push_str(&number.to_string()),
            Text(text) => out.push_str(&spelled(text)),
            List(values) if values.iter().all(|value| matches!(value, Text(_))) => {
                out.push('[');
                for (place, value) in values.iter().enumerate() {
                    out.push_str(if place == 0 { "" } else { ", " });
                    value.write(out, depth);
                }
                out.push(']');
            }
            List(values) => {
                let parts = values.iter().map(|value| (String::new(), value));
                lines(out, depth, ['[', ']'], parts);
            }
            Object(fields) => {
                let parts = fields.iter().map(|(name, value)| (format!("{}: ", spelled(name)), value));
                lines(out, depth, ['{', '}'], parts);
            }
        }
    }
}

/// Values between two marks, each in lines of its own.
fn lines<'a>(out: &mut String, depth: usize, marks: [char; 2], parts: impl Iterator<Item = (String, &'a Value)>) {
    let mut empty = true;
    out.push(marks[0]);
    for (name, value) in parts {
        out.push_str(if empty { "\n" } else { ",\n" });
        empty = false;
        out.push_str(&" ".repeat(depth + 1));
        out.push_str(&name);
        value.write(out, depth + 1);
    }
    if !empty {
        out.push('\n');
        out.push_str(&" ".repeat(depth));
    }
    out.push(marks[1]);
}

fn step(hop: &Hop) -> Value {
    let mut fields = vec![
        ("step".into(), Number(hop.step)),
        ("process".into(), Text(hop.process.clone())),
        ("verb".into(), Text(hop.verb.into())),
        ("object".into(), Text(hop.object.clone())),
        ("to".into(), Text(hop.to.name.clone())),
    ];
    if hop.blocked {
        fields.push(("blocked".into(), Value::Bool(true)));
    }
    Object(fields)
}

fn chain(chain: &ChainTold) -> Value {
    let steps = chain.hops.iter().map(step).collect();
    object([("begins", Text(chain.begins.name.clone())), ("steps", List(steps))])
}

impl Explanation {
    fn origin(&self) -> Value {
        let known = |kind: &str, step: usize| [("kind".into(), Text(kind.into())), ("step".into(), Number(step))];
        let mut fields: Vec<(String, Value)> = match &self.rule.from {
            From::Own => vec![("kind".into(), Text("own".into()))],
            From::Unknown(origin) => vec![("kind".into(), Text(origin.clone()))],
            From::Made { step, user } => {
                known("made", *step).into_iter().chain([("user".into(), Text(user.clone()))]).collect()
            }
            From::User { step, user, by } => {
                let more = [("user".into(), Text(user.clone())), ("by".into(), optional(by))];
                known("user", *step).into_iter().chain(more).collect()
            }
            From::Run { step, by, chain: way } => {
                let more = [("by".into(), optional(by)), ("chain".into(), chain(way))];
                known("run", *step).into_iter().chain(more).collect()
            }
        };
        fields.push(("number".into(), Number(self.rule.number.into())));
        fields.push(("owner".into(), optional(&self.rule.owner)));
        Object(fields)
    }

    fn json(&self) -> Value {
        let lacks: Vec<String> = self.mixtures.iter().map(|mixture| mixture.lacks.clone()).collect();
        let mut lacked: Vec<String> = Vec::new();
        for name in &lacks {
            if !lacked.contains(name) {
                lacked.push(name.clone());
            }
        }
        let chains = self.chains.iter().map(|told| (told.atom.clone(), chain(told))).collect();
        object([
            ("step", Number(self.step)),
            ("answer", Text(self.answer().into())),
            ("what", Text(self.what.clone())),
            ("container", Text(self.receiver.name.clone())),
            ("holds", texts(&self.holds)),
            ("stood", texts(&self.stood)),
            ("brought", texts(&self.brought)),
            ("rule", Text(self.rule.words().0)),
            ("origin", self.origin()),
            ("mixtures", List(self.mixtures.iter().map(|mixture| texts(&mixture.atoms)).collect())),
            ("lacks", texts(&lacks)),
            ("lacked", texts(&lacked)),
            ("also", texts(&self.also)),
            ("chains", Object(chains)),
        ])
    }
}

/// Explanations as a list of objects in JSON, as `docs/FORMATS.md` has them.
#[must_use]
pub fn list(explanations: &[Explanation]) -> String {
    let mut out = String::new();
    List(explanations.iter().map(Explanation::json).collect()).write(&mut out, 0);
    out.push('\n');
    out
}

#[cfg(test)]
mod tests {
    use super::*;

    #[test]
    fn strings_are_escaped() {
        assert_eq!(spelled("a\\b\"c\n\u{1}ä"), "\"a\\\\b\\\"c\\u000a\\u0001ä\"");
    }

    #[test]
    fn lists_and_objects() {
        let mut out = String::new();
        let value =
            object([("a", List(vec![Number(1), Null])), ("b", texts(&["x".into(), "y".into()])), ("c", object([]))]);
        value.write(&mut out, 0);
        assert_eq!(out, "{\n \"a\": [\n  1,\n  null\n ],\n \"b\": [\"x\", \"y\"],\n \"c\": {}\n}");
    }
}
