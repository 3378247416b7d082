//! The figures of the month program.

use serde_json::{json, Map, Value};

use crate::line::{meaning, Fields, Progress, Reader};

/// The counts of a line, in their order.
const COUNTS: [&str; 4] = ["accepted", "alerts", "refused", "blocked"];
const ALERTS: usize = 1;
const REFUSED: usize = 2;
const BLOCKED: usize = 3;

/// The figures of a line, behind its name.
struct Counted {
    counts: [u64; COUNTS.len()],
    rate: Value,
    containers: Vec<Value>,
}

impl Counted {
    /// Reads the fields of a line behind its name.
    fn read(mut fields: Fields) -> Result<Counted, String> {
        let mut counts = [0; COUNTS.len()];
        for (count, what) in counts.iter_mut().zip(COUNTS) {
            *count = fields.number(what)?;
        }
        let rate = match fields.next_is("none") {
            true => Value::Null,
            false => {
                let (quotient, remainder): (u64, u64) = (fields.number("a rate")?, fields.number("a remainder")?);
                json!({ "quotient": quotient, "remainder": remainder })
            }
        };
        let pairs = fields.numbers("a container or its alerts")?;
        if pairs.len() % 2 != 0 {
            return Err("expected the alerts of the last container".into());
        }
        let containers = pairs.chunks(2).map(|pair| json!({ "container": pair[0], "alerts": pair[1] })).collect();
        Ok(Counted { counts, rate, containers })
    }

    /// Puts the figures into an object.
    fn fill(self, object: &mut Map<String, Value>) {
        object.extend(COUNTS.iter().zip(self.counts).map(|(name, count)| (name.to_string(), count.into())));
        object.insert("rate".into(), self.rate);
        object.insert("containers".into(), self.containers.into());
    }
}

/// The figures so far.
#[derive(Debug)]
pub struct Figures {
    /// The traces by what the arguments call them.
    traces: Vec<String>,
    lines: usize,
    progress: Progress,
    /// Whether some trace is left out.
    left_out: bool,
    sums: [u64; COUNTS.len()],
}

impl Figures {
    /// The figures of these traces.
    pub fn new(traces: Vec<String>) -> Figures {
        let (progress, sums) = (Progress::default(), [0; COUNTS.len()]);
        Figures { traces, lines: 0, progress, left_out: false, sums }
    }

    /// The line of a trace.
    fn trace(&mut self, line: &str) -> Result<Value, String> {
        let (name, mut fields) = (format!("{:02}.bin", self.lines), Fields::new(line));
        let file = self.traces.get(self.lines).ok_or("expected the line of the total")?.clone();
        fields.literal(&name)?;
        self.lines += 1;
        let heading = [("kind", "trace".into()), ("name", name.into()), ("file", Value::from(file))];
        let mut object: Map<String, Value> = heading.into_iter().map(|(name, value)| (name.into(), value)).collect();
        if line.split(' ').count() == 2 {
            let number: u32 = fields.number("the number of a refusal")?;
            self.left_out = true;
            object.insert("refusal".into(), number.into());
            object.insert("meaning".into(), meaning(number));
        } else {
            let counted = Counted::read(fields)?;
            self.sums.iter_mut().zip(counted.counts).for_each(|(sum, count)| *sum += count);
            counted.fill(&mut object);
        }
        Ok(Value::Object(object))
    }

    /// The last line, which must have the sums of the lines above it.
    fn total(&mut self, line: &str) -> Result<Value, String> {
        let mut fields = Fields::new(line);
        fields.literal("total")?;
        let counted = Counted::read(fields)?;
        if self.lines != self.traces.len() {
            return Err(format!("expected the line of {:02}.bin", self.lines));
        }
        if counted.counts != self.sums {
            return Err(format!("expected the sums of the lines above, {:?}", self.sums));
        }
        self.progress.ended = true;
        let mut object = Map::from_iter([("kind".to_string(), Value::from("total"))]);
        counted.fill(&mut object);
        Ok(Value::Object(object))
    }
}

impl Reader for Figures {
    fn progress(&mut self) -> &mut Progress {
        &mut self.progress
    }

    fn line(&mut self, line: &str) -> Result<Vec<Value>, String> {
        Ok(vec![if line.starts_with("total ") { self.total(line)? } else { self.trace(line)? }])
    }

    fn found(&self) -> (bool, bool) {
        (self.sums[ALERTS] + self.sums[BLOCKED] > 0, self.sums[REFUSED] > 0 || self.left_out)
    }
}

#[cfg(test)]
mod tests {
    use super::*;

    #[test]
    fn damaged_lines_are_none() {
        for line in [
            "",
            "00.bin",
            "01.bin 0 0 0 0 none",
            "00.bin 0 0 0 none",
            "00.bin 0 0 0 0 nothing",
            "00.bin 0 0 0 0 0",
            "00.bin 1 1 0 0 1000 0 3",
            "00.bin 1 1 0 0 1000 0 3 x",
            "total 0 0 0 0 none",
            "policy refused x",
        ] {
            let mut figures = Figures::new(vec!["a".into()]);
            assert!(figures.take(line).is_err(), "{line}");
            assert!(!figures.complete(), "{line}");
        }
        let mut figures = Figures::new(vec!["a".into()]);
        assert!(figures.take("00.bin 1 1 0 0 1000 0 3 1").is_ok());
        assert!(figures.take("01.bin 0 0 0 0 none").is_err());
        assert!(figures.take("policy refused 1").is_err());
        assert!(figures.take("total 1 0 0 0 0 0").is_err());
        assert!(figures.take("total 1 1 0 0 1000 0 3 1").is_ok() && figures.complete());
    }
}
