//! The lines of the program `explain`.

use serde_json::{json, Map, Value};

use crate::line::{Fields, Progress, Reader};

/// The owner of a rule that nobody owns.
const NOBODY: u64 = 65535;

/// The explanations so far.
#[derive(Debug, Default)]
pub struct Explanations {
    /// The explanation whose lines come; its object is whole when the next begins.
    open: Option<Value>,
    progress: Progress,
    explained: u64,
}

/// The rule of an explanation.
fn rule(fields: &mut Fields) -> Result<Value, String> {
    let origin = fields.word("where the rule comes from")?;
    let (number, owner): (u64, u64) = (fields.number("a rule")?, fields.number("an owner")?);
    let owner = if owner == NOBODY { Value::Null } else { owner.into() };
    let mut object = Map::from_iter([
        ("origin".to_string(), origin.into()),
        ("number".to_string(), number.into()),
        ("owner".to_string(), owner),
    ]);
    let mut more = |name: &str, value: Value| object.insert(name.into(), value);
    match origin {
        "own" => {}
        "made" | "user" => {
            more("step", fields.number::<u64>("a step")?.into());
            more("user", fields.number::<u64>("a user")?.into());
        }
        "run" => {
            more("step", fields.number::<u64>("a step")?.into());
            more("file", fields.number::<u64>("a file")?.into());
            more("steps", fields.numbers("a step")?.into());
        }
        other => return Err(format!("expected own, made, user or run, found `{other}`")),
    }
    Ok(Value::Object(object))
}

impl Explanations {
    /// The first line of an explanation: gives the one before.
    fn begin(&mut self, kind: &str, mut fields: Fields) -> Result<Option<Value>, String> {
        let (step, container): (u64, u64) = (fields.number("a step")?, fields.number("a container")?);
        fields.end()?;
        self.explained += 1;
        let next = json!({ "kind": kind, "step": step, "container": container, "rule": null, "lacks": [], "ways": [] });
        self.last(Some(next))
    }

    /// The explanation that was open, which must have its rule, and the next in its place.
    fn last(&mut self, next: Option<Value>) -> Result<Option<Value>, String> {
        let done = std::mem::replace(&mut self.open, next);
        match &done {
            Some(object) if object["rule"].is_null() => Err("expected the line of a rule".into()),
            _ => Ok(done),
        }
    }

    /// A line within an explanation.
    fn within(&mut self, word: &str, mut fields: Fields) -> Result<(), String> {
        let open = self.open.as_mut().ok_or_else(|| format!("expected alert, blocked or total, found `{word}`"))?;
        match word {
            "rule" if open["rule"].is_null() => open["rule"] = rule(&mut fields)?,
            "lacks" => {
                let (mixture, atom): (_, u64) = (fields.set("a mixture")?, fields.number("an atom")?);
                push(&mut open["lacks"], json!({ "mixture": mixture, "atom": atom }));
            }
            "way" => {
                let (atom, file): (u64, u64) = (fields.number("an atom")?, fields.number("a file")?);
                let steps = fields.numbers("a step")?;
                push(&mut open["ways"], json!({ "atom": atom, "file": file, "steps": steps }));
            }
            other => return Err(format!("expected alert, blocked, rule, lacks, way or total, found `{other}`")),
        }
        fields.end()
    }

    /// The last line, which must have the count of the explanations above it.
    fn total(&mut self, mut fields: Fields) -> Result<Value, String> {
        let records: u64 = fields.number("a count")?;
        fields.literal("explained")?;
        let explained: u64 = fields.number("a count")?;
        fields.end()?;
        if explained != self.explained {
            return Err(format!("expected {} explained, by the lines above", self.explained));
        }
        self.progress.ended = true;
        Ok(json!({ "kind": "total", "records": records, "explained": explained }))
    }
}

/// Puts a value behind those of a list.
fn push(list: &mut Value, value: Value) {
    if let Value::Array(values) = list {
        values.push(value);
    }
}

impl Reader for Explanations {
    fn progress(&mut self) -> &mut Progress {
        &mut self.progress
    }

    fn line(&mut self, line: &str) -> Result<Vec<Value>, String> {
        let mut fields = Fields::new(line);
        match fields.word("the word of a line")? {
            kind @ ("alert" | "blocked") => Ok(self.begin(kind, fields)?.into_iter().collect()),
            "total" => {
                let (last, total) = (self.last(None)?, self.total(fields)?);
                Ok(last.into_iter().chain([total]).collect())
            }
            word => self.within(word, fields).map(|()| Vec::new()),
        }
    }

    fn found(&self) -> (bool, bool) {
        (self.explained > 0, false)
    }
}

#[cfg(test)]
mod tests {
    use super::*;

    #[test]
    fn damaged_lines_are_none() {
        for lines in [
            vec![""],
            vec!["rule own 1 65535"],
            vec!["alert 12"],
            vec!["alert 12 8", "alert 13 8"],
            vec!["alert 12 8", "total 12 explained 1"],
            vec!["alert 12 8", "rule own 1"],
            vec!["alert 12 8", "rule own 1 65535 3"],
            vec!["alert 12 8", "rule owner 1 65535"],
            vec!["alert 12 8", "rule made 1 65535 6"],
            vec!["alert 12 8", "rule own 1 65535", "rule own 1 65535"],
            vec!["alert 12 8", "rule own 1 65535", "lacks 06 0"],
            vec!["alert 12 8", "rule own 1 65535", "way 0"],
            vec!["alert 12 8", "rule own 1 65535", "way 0 0 x"],
            vec!["alert 12 8", "rule own 1 65535", "total 12 explained 2"],
            vec!["alert 12 8", "rule own 1 65535", "policy refused 1"],
            vec!["total 0 explained 0", "total 0 explained 0"],
        ] {
            let mut explanations = Explanations::default();
            let (last, front) = lines.split_last().expect("there is a line");
            assert!(front.iter().all(|line| explanations.take(line).is_ok()), "{lines:?}");
            assert!(explanations.take(last).is_err(), "{lines:?}");
        }
    }
}
