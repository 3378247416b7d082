//! A trace replayed on the library, as columns of numbers for the page.

use std::collections::HashMap;

use policy_text::{held_before, list, Access, Asked, FolderNames};
use serde::Serialize;
use serde_json::Value;
use yaslaurel::layout::record;
use yaslaurel::{ffi, Answer, Operation, Refusal, Session, Verdict};

use crate::figures::Figures;
use crate::folder::{Folder, Trace, TRACE};
use crate::PageError;

/// The records of a trace and their answers: a number for each record in each column.
#[derive(Default, Serialize)]
struct Columns {
    code: Vec<u16>,
    process: Vec<u16>,
    object: Vec<u16>,
    /// As the library answers: 0 quiet, 256 alert, 257 blocked, else the refusal.
    answer: Vec<u32>,
    /// 0 for a refused one, as in the columns below.
    receiver: Vec<u8>,
    /// The place of the tag in the list of tags.
    tag: Vec<usize>,
    /// 255 for none.
    position: Vec<u32>,
}

/// The different tags of a trace.
#[derive(Default)]
struct Tags {
    places: HashMap<u64, usize>,
    /// In 16 hexadecimal digits, as in the listing.
    written: Vec<String>,
}

impl Tags {
    /// The place of a tag, which it gets here if it has none.
    fn place(&mut self, tag: u64) -> usize {
        let written = &mut self.written;
        *self.places.entry(tag).or_insert_with(|| {
            written.push(format!("{tag:016x}"));
            written.len() - 1
        })
    }
}

/// The containers that have been there, in the order in which they came.
#[derive(Default, Serialize)]
struct HolderColumns {
    number: Vec<u8>,
    /// The step that made it, 0 for one of the policy.
    step: Vec<usize>,
    name: Vec<String>,
    /// As in an image.
    kind: Vec<u8>,
    /// The place of the tag that it had first.
    tag: Vec<usize>,
}

/// A trace with its answers.
#[derive(Default, Serialize)]
pub struct Replay {
    columns: Columns,
    tags: Vec<String>,
    holders: HolderColumns,
    /// Explanations as `policy explain --json` has them, each with its words as `text`.
    explanations: Vec<Value>,
    /// How many alerts and blocked accesses have none.
    pub unexplained: usize,
}

/// How much may be explained in one page: each explanation replays the records before it, and takes room.
pub struct Budget {
    /// Records that may still be replayed.
    work: usize,
    /// Bytes that may still be taken.
    room: usize,
    /// How many are explained.
    pub explained: usize,
}

impl Default for Budget {
    fn default() -> Budget {
        Budget { work: 500_000_000, room: 8 << 20, explained: 0 }
    }
}

impl Budget {
    /// Explains an access, if there is work and room left for it.
    fn explanation(&mut self, asked: &Asked<'_>) -> Result<Option<Value>, Refusal> {
        let records = asked.trace.len() / record::LENGTH;
        if self.work < 2 * records || self.room == 0 {
            return Ok(None);
        }
        let told = asked.explanation()?;
        let text = list(std::slice::from_ref(&told));
        let mut value = serde_json::from_str::<Value>(&text).expect("a list in JSON")[0].take();
        value["text"] = told.to_string().into();
        let chains = value["chains"].as_object().map_or(0, serde_json::Map::len);
        self.work = self.work.saturating_sub((1 + chains) * records);
        self.room = self.room.saturating_sub(value.to_string().len());
        self.explained += 1;
        Ok(Some(value))
    }
}

/// A trace on its way through the library.
pub struct Replaying<'a> {
    folder: &'a Folder,
    bytes: &'a [u8],
    session: Session,
    names: FolderNames<'a>,
    tags: Tags,
    replay: Replay,
    /// The figures so far.
    pub figures: Figures,
}

impl<'a> Replaying<'a> {
    /// Before the first record.
    pub fn start(folder: &'a Folder, trace: &'a Trace, bytes: &'a [u8]) -> Result<Replaying<'a>, PageError> {
        let session = Session::start(&folder.image).map_err(|refusal| PageError::Policy(refusal.to_string()))?;
        // The holders that steps make are listed for one trace.
        let holders = folder.holders.as_deref().filter(|_| trace.name == TRACE).unwrap_or_default();
        let names = FolderNames::new(&folder.policy, holders);
        let (tags, replay, figures) = Default::default();
        let mut replaying = Replaying { folder, bytes, session, names, tags, replay, figures };
        for number in 0..folder.policy.containers().len() {
            replaying.hold(number as u8, 0);
        }
        Ok(replaying)
    }

    /// Notes who holds a number since a step.
    fn hold(&mut self, number: u8, step: usize) {
        let container = self.session.container(number).expect("the number is taken");
        let holders = &mut self.replay.holders;
        holders.number.push(number);
        holders.step.push(step);
        holders.name.push(self.names.names().at(number, step).into());
        holders.kind.push(container.kind.number());
        holders.tag.push(self.tags.place(container.tag));
    }

    /// Replays all records. With a budget the alerts and blocked accesses are explained.
    pub fn run(mut self, mut budget: Option<&mut Budget>) -> Result<(Replay, Figures), PageError> {
        for (place, bytes) in self.bytes.chunks(record::LENGTH).enumerate() {
            let operation = Operation::try_from(bytes).ok();
            let before = operation.map_or(0, |operation| held_before(&self.session, operation));
            let answer = self.session.step(bytes);
            self.figures.count(answer);
            self.push(bytes, answer);
            let (Ok(answer), Some(operation)) = (answer, operation) else { continue };
            if answer.verdict != Verdict::Blocked {
                self.accepted(operation, answer.receiver, place + 1);
            }
            if let (Some(budget), true) = (budget.as_deref_mut(), answer.verdict != Verdict::Quiet) {
                self.explain(place, Access::new(operation, answer, before), budget)?;
            }
        }
        self.replay.tags = self.tags.written;
        Ok((self.replay, self.figures))
    }

    /// Notes a new holder.
    fn accepted(&mut self, operation: Operation, receiver: u8, step: usize) {
        self.names.accepted(step, operation);
        if matches!(operation, Operation::Fork { .. } | Operation::NewFile { .. } | Operation::NewVolatile { .. }) {
            self.hold(receiver, step);
        }
    }

    /// A record and its answer behind those so far. A short record has no fields.
    fn push(&mut self, bytes: &[u8], answer: Result<Answer, Refusal>) {
        let whole = bytes.len() == record::LENGTH;
        let number = |at: usize| if whole { u16::from_le_bytes([bytes[at], bytes[at + 1]]) } else { 0 };
        let columns = &mut self.replay.columns;
        columns.code.push(if whole { bytes[record::CODE].into() } else { 0 });
        columns.process.push(number(record::PROCESS));
        columns.object.push(number(record::OBJECT));
        let (number, receiver, tag, position) = match answer {
            Err(refusal) => (refusal.number(), 0, 0, None),
            Ok(answer) => (verdict_number(answer.verdict), answer.receiver, answer.tag, answer.position),
        };
        columns.answer.push(number);
        columns.receiver.push(receiver);
        columns.tag.push(self.tags.place(tag));
        columns.position.push(position.map_or(ffi::NO_POSITION, u32::from));
    }

    /// Explains the record of a place.
    fn explain(&mut self, place: usize, access: Access, budget: &mut Budget) -> Result<(), PageError> {
        let trace = &self.bytes[..(place + 1) * record::LENGTH];
        let Folder { policy, image, .. } = self.folder;
        let asked = Asked { policy, image, trace, names: self.names.names(), access, all: false };
        match budget.explanation(&asked).map_err(|refusal| PageError::Policy(refusal.to_string()))? {
            Some(value) => self.replay.explanations.push(value),
            None => self.replay.unexplained += 1,
        }
        Ok(())
    }
}

/// A verdict as the library answers it.
fn verdict_number(verdict: Verdict) -> u32 {
    match verdict {
        Verdict::Quiet => ffi::QUIET,
        Verdict::Alert => ffi::ALERT,
        Verdict::Blocked => ffi::BLOCKED,
        other => panic!("unknown verdict {other:?}"),
    }
}

#[cfg(test)]
mod tests {
    use policy_text::Story;

    use super::*;

    /// What a page says of two alerts with a budget.
    fn explained(mut budget: Budget) -> (usize, usize, usize) {
        let text = "source north\nsource south\npermit south: south\nprocess job\nstep read job north\n\
            step append job south\nstep append job south\n";
        let story = Story::read(text.as_bytes()).unwrap();
        let (image, bytes) = (story.policy().image(), story.trace());
        let (sha256, name) = (String::new(), TRACE.to_string());
        let trace = Trace { name, sha256: sha256.clone(), bytes: None };
        let policy = story.policy().clone();
        let folder =
            Folder { policy, image, sha256, traces: Vec::new(), holders: None, gaps: Vec::new(), notes: Vec::new() };
        let replaying = Replaying::start(&folder, &trace, &bytes).unwrap();
        let (replay, figures) = replaying.run(Some(&mut budget)).unwrap();
        assert_eq!((figures.records, figures.accepted, figures.alerts), (3, 3, 2));
        (budget.explained, replay.explanations.len(), replay.unexplained)
    }

    #[test]
    fn what_is_not_explained_is_counted() {
        assert_eq!(explained(Budget::default()), (2, 2, 0));
        assert_eq!(explained(Budget { work: 5, room: 1000, explained: 0 }), (1, 1, 1));
        assert_eq!(explained(Budget { work: 1000, room: 1, explained: 0 }), (1, 1, 1));
        assert_eq!(explained(Budget { work: 3, room: 1000, explained: 0 }), (0, 0, 2));
    }
}
