//! The listing of the watch program.

use serde_json::{json, Value};

use crate::line::{meaning, Fields, Progress, Reader};

const HEADING: &str = "step op p o verdict at tag pos";

/// What stands behind the verdict of a line.
enum Answer<'a> {
    Given { at: u32, tag: &'a str, pos: u32 },
    Refused(u32),
}

/// What stands behind a verdict.
fn answer<'a>(fields: &mut Fields<'a>, verdict: &str) -> Result<Answer<'a>, String> {
    if verdict == "refused" {
        return Ok(Answer::Refused(fields.number("the number of a refusal")?));
    }
    let (at, tag) = (fields.number("a container")?, fields.set("a tag")?);
    Ok(Answer::Given { at, tag, pos: fields.number("a position")? })
}

impl Answer<'_> {
    /// Puts the fields into an object.
    fn fill(&self, object: &mut Value) {
        match *self {
            Answer::Given { at, tag, pos } => {
                object["at"] = at.into();
                object["tag"] = tag.into();
                object["pos"] = pos.into();
            }
            Answer::Refused(number) => {
                object["refusal"] = number.into();
                object["meaning"] = meaning(number);
            }
        }
    }
}

/// The listing so far.
#[derive(Debug, Default)]
pub struct Listing {
    progress: Progress,
    headed: bool,
    /// Whether objects are wanted.
    objects: bool,
    steps: u64,
    alerts: u64,
    blocked: u64,
    refused: u64,
}

impl Listing {
    /// The listing so far: none. Objects are made only if they are wanted: a listing may have millions of lines.
    pub fn new(objects: bool) -> Listing {
        Listing { objects, ..Listing::default() }
    }

    /// A line of a step.
    fn step(&mut self, line: &str) -> Result<Vec<Value>, String> {
        let mut fields = Fields::new(line);
        let step: u64 = fields.number("the number of a step")?;
        if step != self.steps + 1 {
            return Err(format!("expected step {}, found step {step}", self.steps + 1));
        }
        self.steps = step;
        let op = fields.word("an operation")?;
        let (p, o): (u32, u32) = (fields.number("p")?, fields.number("o")?);
        let verdict = fields.word("a verdict")?;
        match verdict {
            "quiet" => {}
            "alert" => self.alerts += 1,
            "blocked" => self.blocked += 1,
            "refused" => self.refused += 1,
            other => return Err(format!("expected quiet, alert, blocked or refused, found `{other}`")),
        }
        let answer = answer(&mut fields, verdict)?;
        fields.end()?;
        let object = self.objects.then(|| {
            let mut object = json!({ "kind": "step", "step": step, "op": op, "p": p, "o": o, "verdict": verdict });
            answer.fill(&mut object);
            object
        });
        Ok(object.into_iter().collect())
    }

    /// The last line, which must have the counts of the lines above it.
    fn total(&mut self, line: &str) -> Result<Value, String> {
        let mut fields = Fields::new(line);
        fields.literal("total")?;
        let records: u64 = fields.number("a count")?;
        fields.literal("alerts")?;
        let alerts: u64 = fields.number("a count")?;
        fields.literal("refused")?;
        let refused: u64 = fields.number("a count")?;
        fields.end()?;
        if (records, alerts, refused) != (self.steps, self.alerts, self.refused) {
            let counts = format!("total {} alerts {} refused {}", self.steps, self.alerts, self.refused);
            return Err(format!("expected `{counts}`, by the lines above"));
        }
        self.progress.ended = true;
        Ok(json!({ "kind": "total", "records": records, "alerts": alerts, "refused": refused }))
    }
}

impl Reader for Listing {
    fn progress(&mut self) -> &mut Progress {
        &mut self.progress
    }

    fn line(&mut self, line: &str) -> Result<Vec<Value>, String> {
        if !self.headed {
            self.headed = line == HEADING;
            return if self.headed { Ok(Vec::new()) } else { Err(format!("expected `{HEADING}`")) };
        }
        if line.starts_with("total ") {
            return Ok(vec![self.total(line)?]);
        }
        self.step(line)
    }

    fn found(&self) -> (bool, bool) {
        (self.alerts + self.blocked > 0, self.refused > 0)
    }
}

#[cfg(test)]
mod tests {
    use super::*;

    #[test]
    fn damaged_lines_are_none() {
        for line in [
            "",
            "1",
            "2 read 4 2 quiet 4 0000000000000004 0",
            "1 read 4 2 quiet 4 0000000000000004",
            "1 read 4 2 quiet 4 0000000000000004 0 0",
            "1 read 4 2 quiet 4 000000000000000g 0",
            "1 read 4 2 quiet 4 000000000000004 0",
            "1  read 4 2 quiet 4 0000000000000004 0",
            "1 read 4 +2 quiet 4 0000000000000004 0",
            "1 read 4 2 loud 4 0000000000000004 0",
            "1 read 4 2 refused",
            "1 read 4 2 refused 12 12",
            "total 0 alerts 0",
            "total 0 alerts 0 refused 1",
            "policy refused 2",
        ] {
            let mut listing = Listing::default();
            assert_eq!(listing.take(HEADING), Ok(Vec::new()));
            assert!(listing.take(line).is_err(), "{line}");
            assert!(!listing.complete(), "{line}");
        }
        for line in ["policy refused", "policy refused x", "policy refused 2 2", "total 0 alerts 0 refused 0"] {
            assert!(Listing::default().take(line).is_err(), "{line}");
        }
    }
}
