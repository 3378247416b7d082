//! Guarded files with narrow rules: traces of which many writes and appends are blocked, and whose files are deleted and made anew.

use judge::image;
use judge::session::{self, outcome, Outcome};
use yaslaurel::layout::image::{NO_ATOM, NO_OWNER, UNRESTRICTED};
use yaslaurel::layout::record::NO_USER;
use yaslaurel::SESSION_LENGTH;

use crate::bench::Bench;
use crate::case::{boxed, Case, Difference, Part};
use crate::cases::histories::judged_by_chains;
use crate::cases::images::start_of;
use crate::cases::operations::step;
use crate::cases::traces::Trace;
use crate::counters::{Counters, Need};
use crate::generate::{record_bytes, PROCESS_RECORD};
use crate::random::Random;
use crate::spec::{Spec, GAPS};

pub const PART: Part = Part {
    name: "guarded files with narrow rules",
    cases: 20_000,
    make: |r| Box::new(Guarded(make(r))),
    needs: &[
        Need::Share(APPENDS, "blocked", 33),
        Need::Words(WRITES, &["quiet", "blocked"]),
        Need::Words(AGAIN, &["quiet", "an alert"]),
    ],
};

const APPENDS: &str = "appends to guarded files";
const WRITES: &str = "writes to guarded files";
const AGAIN: &str = "writes and appends to a number that was guarded";

struct Guarded(Trace);

impl Case for Guarded {
    fn run(&self, bench: &mut Bench, c: &mut Counters) -> Difference {
        let Trace { image, records } = &self.0;
        bench.image.fill(image);
        if let Some(difference) = start_of(bench, image, SESSION_LENGTH, c) {
            return Some(difference);
        }
        let policy = image::read(image).expect("the image is accepted");
        let (mut given, mut again) = (Vec::new(), [false; FILES]);
        for (at, bytes) in records.iter().enumerate() {
            let answer = match step(bench, bytes, c) {
                Ok(answer) => answer,
                Err(difference) => return Some(format!("record {}: {difference}", at + 1)),
            };
            let record = session::read_record(bytes).expect("the record is well formed");
            let was_guarded = again.get(record.o) == Some(&true);
            match (record.code, outcome(answer.number), was_guarded) {
                (_, Outcome::Refused, _) => continue,
                (9, _, _) => again[record.o] = true,
                (2 | 3, Outcome::Blocked, true) => return Some("blocked at a number that is no longer guarded".into()),
                (2 | 3, outcome, true) => c.count(AGAIN, word(outcome)),
                (3, outcome, false) => c.count(APPENDS, word(outcome)),
                (2, outcome, false) => c.count(WRITES, word(outcome)),
                _ => {}
            }
            given.push((record, answer));
        }
        judged_by_chains(&policy, &given, c)
    }

    fn simpler(&self) -> Vec<Box<dyn Case>> {
        boxed(self.0.simpler().into_iter().filter(|trace| image::read(&trace.image).is_ok()).map(Guarded))
    }

    fn show(&self) -> String {
        self.0.show()
    }
}

fn word(outcome: Outcome) -> &'static str {
    match outcome {
        Outcome::Quiet => "quiet",
        Outcome::Alert => "an alert",
        Outcome::Blocked => "blocked",
        Outcome::Refused => "refused",
    }
}

/// Files 0 and up, each with its own atom and guarded, then two processes.
const FILES: usize = 4;

/// A rule for each file: its own atom, with another one now and then; of file 3 not even its own.
fn make(r: &mut Random) -> Trace {
    let own = |file: usize| if file == 3 { 1u64 << 9 } else { 1 << file };
    let mixtures = (0..FILES).map(|file| own(file) | if r.percent(30) { 1 << r.below(FILES) } else { 0 }).collect();
    let mut containers: Vec<(u8, u8, u16, u16)> = (0..FILES)
        .map(|file| (4, if r.percent(80) { file as u8 } else { NO_ATOM }, file as u16, UNRESTRICTED))
        .collect();
    containers.extend([PROCESS_RECORD; 2]);
    let rules = (0..FILES as u16).map(|file| (file, 1, NO_OWNER)).collect();
    let spec = Spec { containers, users: vec![r.below(FILES) as u16], rules, mixtures, gaps: [0; GAPS] };
    let records = (0..r.between(4, 12)).map(|_| {
        let (p, o) = ((FILES + r.below(2)) as u16, r.below(FILES) as u16);
        match r.pick(&[1, 1, 1, 2, 2, 3, 3, 3, 9, 6]) {
            6 => record_bytes(6, p, o, 0),
            code => record_bytes(code, p, o, NO_USER),
        }
    });
    Trace { image: spec.encode(0), records: records.collect() }
}
