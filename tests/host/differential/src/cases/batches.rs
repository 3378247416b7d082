//! Batches of records, some of them short, by runs, on sessions of which some are damaged or of a wrong length.

use judge::session::{self, outcome, Outcome};
use yaslaurel::layout::{self, record};
use yaslaurel::{ffi, SESSION_LENGTH};

use crate::bench::Bench;
use crate::case::{boxed, differ, differ_at, hex, Case, Difference, Part};
use crate::cases::images::show_image;
use crate::cases::operations::{Told, BEFORE};
use crate::cases::traces::{self, safe_answer, Trace};
use crate::counters::{Counters, Need};
use crate::generate;
use crate::lent::Guarded;
use crate::random::Random;
use crate::shrink;

pub const PART: Part = Part {
    name: "batches of records, by runs",
    cases: 100_000,
    make: |r| Box::new(make(r)),
    needs: &[
        Need::Numbers(RUN, &[session::QUIET, session::ALERT, session::BLOCKED, 7, 9, 10, 11, 12, 13, 14, 15, 18]),
        Need::Words(ENDS, &["stopped before the end", "took a short record", "without a record"]),
    ],
};

const RUN: &str = "run, by answer";
const ENDS: &str = "runs by their ends";

#[derive(Clone)]
struct Batches {
    image: Vec<u8>,
    /// What is exchanged of the session that the image starts: place and bits.
    damage: Vec<(usize, u64)>,
    /// The session's length.
    length: usize,
    batches: Vec<Vec<u8>>,
}

/// A trace cut into batches, some of which end inside a record, on a session that is damaged or of a wrong length now
/// and then.
fn make(r: &mut Random) -> Batches {
    let class = r.pick(&[0, 0, 1, 2]);
    let length = r.between(0, 40);
    let Trace { image, records } = traces::make(r, class, length);
    // A record of another length moves those that follow it in its batch: in few cases alone.
    let moved = r.percent(10);
    let mut left = records.into_iter().filter(|bytes| moved || bytes.len() == record::LENGTH).peekable();
    let mut batches = Vec::new();
    while left.peek().is_some() || batches.is_empty() || r.percent(5) {
        let count = r.pick(&[0, 1, 2, 5, 12, 40]);
        let mut batch: Vec<u8> = left.by_ref().take(count).flatten().collect();
        if r.percent(10) {
            batch.truncate(batch.len() - r.below(record::LENGTH).min(batch.len()));
        }
        batches.push(batch);
    }
    let damage = if r.percent(15) {
        let places = layout::session::container(r.below(12));
        vec![(places.start + r.below(places.len()), 1 << r.below(64))]
    } else {
        vec![]
    };
    Batches { image, damage, length: generate::length(r, SESSION_LENGTH, false), batches }
}

impl Case for Batches {
    fn run(&self, bench: &mut Bench, c: &mut Counters) -> Difference {
        bench.judge_session.clear();
        bench.judge_session.resize(SESSION_LENGTH, 0);
        if session::start(&self.image, &mut bench.judge_session) != 0 {
            return None;
        }
        for &(place, bits) in &self.damage {
            bench.judge_session[place] ^= bits;
        }
        bench.judge_session.resize(self.length, 0);
        bench.lend_session();
        for (at, batch) in self.batches.iter().enumerate() {
            // The safe interface runs beside it, on numbers of its own.
            let mut safe = bench.judge_session.clone();
            let difference = match run_batch(bench, batch, c) {
                Ok(loud) => safe_differs(&mut safe, batch, &loud, &bench.judge_session),
                Err(difference) => Some(difference),
            };
            if let Some(difference) = difference {
                return Some(format!("batch {}: {difference}", at + 1));
            }
        }
        None
    }

    fn simpler(&self) -> Vec<Box<dyn Case>> {
        let mut found = Vec::new();
        let mut add = |change: &dyn Fn(&mut Batches)| {
            let mut simpler = self.clone();
            change(&mut simpler);
            found.push(simpler);
        };
        for batches in fewer(&self.batches) {
            add(&|s| s.batches = batches.clone());
        }
        if !self.damage.is_empty() {
            add(&|s| s.damage.clear());
        }
        if self.length != SESSION_LENGTH {
            add(&|s| s.length = SESSION_LENGTH);
        }
        for image in shrink::images(&self.image) {
            add(&|s| s.image = image.clone());
        }
        boxed(found)
    }

    fn show(&self) -> String {
        let Batches { image, damage, length, batches } = self;
        let batches: String = batches.iter().map(|batch| format!("batch: {}\n", hex(batch))).collect();
        show_image(image) + &format!("session of {length} numbers, exchanged in it: {damage:x?}\n") + &batches
    }
}

/// What is not quiet of a batch, by the record's place.
type Loud = Vec<(usize, session::Answer)>;

/// Compares a run of the safe interface with what the judge found.
fn safe_differs(safe: &mut [u64], batch: &[u8], loud: &Loud, after: &[u64]) -> Difference {
    let items: Loud = yaslaurel::run_in(safe, batch).map(|(place, answer)| (place, safe_answer(answer))).collect();
    differ("run of the Rust interface", &items, loud)
        .or_else(|| differ_at("session after the Rust interface", safe, after))
}

/// The number behind `taken` before a run: 9 must leave it.
const TAKEN_BEFORE: usize = 0x1234_5678;

/// A run's answer, then what `taken`, and `receiver`, `tag` and `position`, are behind it.
fn library_run(session: &mut Guarded<u64>, records: &Guarded<u8>) -> (u32, usize, Told) {
    let (mut taken, (mut receiver, mut tag, mut position)) = (TAKEN_BEFORE, BEFORE);
    let (words, length) = (session.pointer_mut(), session.length());
    let (bytes, bytes_length) = (records.pointer(), records.length());
    // SAFETY: as `lent` says; the four numbers are ours.
    let number = unsafe {
        ffi::yaslaurel_run(words, length, bytes, bytes_length, &mut taken, &mut receiver, &mut tag, &mut position)
    };
    (number, taken, (receiver, tag, position))
}

/// One batch on both sides, run to its end: what was not quiet.
fn run_batch(bench: &mut Bench, batch: &[u8], c: &mut Counters) -> Result<Loud, String> {
    let mut loud = Vec::new();
    let mut judged = 0;
    loop {
        let rest = &batch[batch.len().min(record::LENGTH * judged)..];
        let expected = run_once(bench, rest, c)?;
        let number = expected.answer.number;
        judged += expected.taken;
        if number != session::QUIET {
            loud.push((judged.saturating_sub(1), expected.answer));
        }
        if number == session::QUIET || number == 9 || rest.len() <= record::LENGTH * expected.taken {
            return Ok(loud);
        }
    }
}

/// One run on both sides.
fn run_once(bench: &mut Bench, rest: &[u8], c: &mut Counters) -> Result<session::Run, String> {
    bench.record.fill(rest);
    let library = library_run(&mut bench.session, &bench.record);
    let expected = session::run(&mut bench.judge_session, rest);
    let number = expected.answer.number;
    let behind = rest.len().saturating_sub(record::LENGTH * expected.taken);
    c.count(RUN, number);
    c.add(ENDS, "without a record", u64::from(rest.is_empty()));
    c.add(ENDS, "stopped before the end", u64::from(number != session::QUIET && behind > 0));
    c.add(ENDS, "took a short record", u64::from(expected.taken * record::LENGTH > rest.len()));
    // 9 leaves everything, and only an alert and a blocked record have receiver, tag and position.
    let taken = if number == 9 { TAKEN_BEFORE } else { expected.taken };
    let told = match outcome(number) {
        Outcome::Alert | Outcome::Blocked => (expected.answer.receiver, expected.answer.tag, expected.answer.position),
        Outcome::Quiet | Outcome::Refused => BEFORE,
    };
    let difference = differ("run", library, (number, taken, told))
        .or_else(|| differ_at("session after the run", bench.session.content(), &bench.judge_session))
        .or_else(|| differ_at("the records themselves", bench.record.content(), rest))
        .or_else(|| bench.guards());
    difference.map_or(Ok(expected), Err)
}

/// Fewer batches, then a record or a byte less in one of them.
fn fewer(batches: &[Vec<u8>]) -> Vec<Vec<Vec<u8>>> {
    let mut found = Vec::new();
    for keep in [batches.len() / 2, batches.len().saturating_sub(1)] {
        found.push(batches[..keep].to_vec());
    }
    for at in 0..batches.len() {
        found.push([&batches[..at], &batches[at + 1..]].concat());
    }
    for (at, batch) in batches.iter().enumerate() {
        let mut with = |batch: Vec<u8>| {
            let mut simpler = batches.to_vec();
            simpler[at] = batch;
            found.push(simpler);
        };
        for place in (0..batch.len()).step_by(record::LENGTH) {
            with([&batch[..place], &batch[batch.len().min(place + record::LENGTH)..]].concat());
        }
        if !batch.is_empty() {
            with(batch[..batch.len() - 1].to_vec());
        }
    }
    found.retain(|simpler| simpler != batches);
    found
}
