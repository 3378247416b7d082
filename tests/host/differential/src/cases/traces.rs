//! Sessions from their start through a list of records.

use judge::image;
use judge::rules::NO_POSITION;
use judge::session::{self, outcome, Outcome, Record};
use yaslaurel::layout::image::{CONTAINERS, UNRESTRICTED};
use yaslaurel::{Refusal, Session, Verdict, SESSION_LENGTH};

use crate::bench::Bench;
use crate::case::{boxed, differ, hex, Case, Difference, Part};
use crate::cases::histories::judged_by_chains;
use crate::cases::images::{show_image, start_of};
use crate::cases::operations::step;
use crate::counters::Counters;
use crate::generate;
use crate::random::Random;
use crate::shrink;

pub const SHORT: Part = Part {
    name: "short traces, with the judge of chains",
    cases: 40_000,
    make: |r| Box::new(Listed { trace: short(r), chains: true }),
    needs: &[],
};

pub const LONG: Part = Part {
    name: "long traces",
    cases: 1_300,
    make: |r| Box::new(Listed { trace: long(r), chains: false }),
    needs: &[],
};

const LONGEST: &str = "longest trace";

/// An image, and the records that its session is given.
#[derive(Clone)]
pub struct Trace {
    pub image: Vec<u8>,
    pub records: Vec<Vec<u8>>,
}

/// A trace, step by step. With `chains`, the judge of chains is asked too.
struct Listed {
    trace: Trace,
    chains: bool,
}

/// Records made one after the other, each for the session that the judge has come to.
pub fn make(r: &mut Random, class: usize, length: usize) -> Trace {
    let mut spec = generate::policy(r, class);
    // At least two files, a process and a user, or most records are refused.
    let is_file = |kind: u8| kind == 1 || kind == 4;
    while spec.containers.len() < CONTAINERS.most && spec.containers.iter().filter(|c| is_file(c.0)).count() < 2 {
        let rule = if spec.rules.is_empty() { UNRESTRICTED } else { r.below(spec.rules.len()) as u16 };
        let kind = r.pick(&[1, 4]);
        spec.containers.push((kind, r.below(3) as u8, rule, if r.percent(50) { UNRESTRICTED } else { rule }));
    }
    while spec.containers.len() < CONTAINERS.most && spec.containers.iter().filter(|c| c.0 == 3).count() < 1 {
        spec.containers.push(generate::PROCESS_RECORD);
    }
    if spec.users.is_empty() {
        spec.users.push(UNRESTRICTED);
    }
    let image = spec.encode(0);
    let mut session = vec![0; SESSION_LENGTH];
    session::start(&image, &mut session);
    let near = (spec.containers.len() + length / 4).min(CONTAINERS.most);
    let leaving = r.pick(&[0, 3, 15, 30]);
    let mut records = Vec::new();
    for _ in 0..length {
        let record = generate::record(r, &session, near, leaving);
        session::step(&mut session, &record);
        records.push(record);
    }
    Trace { image, records }
}

pub fn short(r: &mut Random) -> Trace {
    let length = r.between(1, 12);
    make(r, 0, length)
}

fn long(r: &mut Random) -> Trace {
    let class = generate::class(r);
    let length = r.pick(&[50, 200, 1_000, 2_000]);
    make(r, class, length)
}

impl Case for Listed {
    fn run(&self, bench: &mut Bench, c: &mut Counters) -> Difference {
        let Trace { image, records } = &self.trace;
        bench.image.fill(image);
        if let Some(difference) = start_of(bench, image, SESSION_LENGTH, c) {
            return Some(difference);
        }
        let Ok(policy) = image::read(image) else { return None };
        // The safe interface runs beside it.
        let mut safe = self.chains.then(|| Session::start(image).expect("the image is accepted"));
        c.largest(LONGEST, records.len());
        let mut given: Vec<(Record, session::Answer)> = Vec::new();
        for (at, record) in records.iter().enumerate() {
            let answer = match self.record(bench, safe.as_mut(), record, c) {
                Ok(answer) => answer,
                Err(difference) => return Some(format!("record {}: {difference}", at + 1)),
            };
            match outcome(answer.number) {
                Outcome::Quiet | Outcome::Alert | Outcome::Blocked => {
                    given.push((session::read_record(record).expect("the record was not refused"), answer));
                }
                Outcome::Refused => {}
            }
        }
        self.chains.then(|| judged_by_chains(&policy, &given, c)).flatten()
    }

    fn simpler(&self) -> Vec<Box<dyn Case>> {
        boxed(self.trace.simpler().into_iter().map(|trace| Listed { trace, chains: self.chains }))
    }

    fn show(&self) -> String {
        self.trace.show()
    }
}

impl Listed {
    /// One record on both sides, and on the session of the safe interface.
    fn record(
        &self,
        bench: &mut Bench,
        safe: Option<&mut Session>,
        record: &[u8],
        c: &mut Counters,
    ) -> Result<session::Answer, String> {
        let answer = step(bench, record, c)?;
        if answer.number == 10 {
            return Err("10 on a session that only start and step have written".into());
        }
        let safe = safe.and_then(|safe| differ("step of the Rust interface", safe_answer(safe.step(record)), answer));
        safe.map_or(Ok(answer), Err)
    }
}

impl Trace {
    /// Fewer records, then a simpler image.
    pub fn simpler(&self) -> Vec<Trace> {
        let Trace { image, records } = self;
        let with = |records: Vec<Vec<u8>>| Trace { image: image.clone(), records };
        let mut found = Vec::new();
        for keep in [records.len() / 2, records.len().saturating_sub(1)] {
            if keep < records.len() {
                found.push(with(records[..keep].to_vec()));
            }
        }
        let mut width = records.len() / 2;
        while width > 0 {
            for at in (0..records.len()).step_by(width) {
                let end = (at + width).min(records.len());
                found.push(with([&records[..at], &records[end..]].concat()));
            }
            width /= 2;
        }
        found.extend(shrink::images(image).into_iter().map(|image| Trace { image, records: records.clone() }));
        found
    }

    pub fn show(&self) -> String {
        let records = self.records.iter().map(|record| format!("record: {}\n", hex(record)));
        show_image(&self.image) + &records.collect::<String>()
    }
}

/// An answer of the safe interface, as the judge has it.
pub fn safe_answer(safe: Result<yaslaurel::Answer, Refusal>) -> session::Answer {
    match safe {
        Ok(answer) => session::Answer {
            number: verdict_number(answer.verdict),
            receiver: u64::from(answer.receiver),
            tag: answer.tag,
            position: answer.position.map_or(NO_POSITION, u32::from),
        },
        Err(refusal) => session::Answer { number: refusal.number(), receiver: 0, tag: 0, position: 0 },
    }
}

/// The judge's number of a verdict.
fn verdict_number(verdict: Verdict) -> u32 {
    match verdict {
        Verdict::Quiet => session::QUIET,
        Verdict::Alert => session::ALERT,
        Verdict::Blocked => session::BLOCKED,
        other => panic!("an unknown verdict: {other:?}"),
    }
}
