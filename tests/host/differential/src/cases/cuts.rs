//! Traces trimmed to their alert: random ones that end in an alert, chains of forks of which each pass drops one, and traces that are
//! refused.

use judge::session::{self, outcome, Outcome};
use judge::trim::{self, Cut};
use yaslaurel::layout::image::{NO_ATOM, NO_OWNER, UNRESTRICTED};
use yaslaurel::layout::record::{self, NO_USER};
use yaslaurel::{ffi, SESSION_LENGTH, TRIM_LIMIT};

use crate::bench::Bench;
use crate::case::{boxed, differ, differ_at, hex, Case, Difference, Part};
use crate::cases::images::show_image;
use crate::cases::traces::{self, Trace};
use crate::counters::{Counters, Need};
use crate::generate::{self, record_bytes, PROCESS_RECORD};
use crate::random::Random;
use crate::shrink;
use crate::spec::{Spec, GAPS};

pub const PART: Part = Part {
    name: "trims of traces to their alerts",
    cases: 20_000,
    make: |r| Box::new(make(r)),
    needs: &[
        Need::Numbers(TRIM, &[0, 9, 1, 2, 3, 4, 5, 6, 22]),
        Need::Words(TRIED, &["counts", "a refused record", "a blocked record", "no alert"]),
        Need::Words(PASSES, &["one", "two", "three", "over sixteen"]),
        Need::Largest(LONGEST, TRIM_LIMIT),
        Need::Words(REFUSED, &["no record", "over 256 records", "a short last record", "no alert at the end"]),
    ],
};

const TRIM: &str = "trim, by answer";
const TRIED: &str = "cuts that were tried";
const PASSES: &str = "passes of a trim";
const LONGEST: &str = "records of a trimmed trace";
const REFUSED: &str = "traces refused with 22";

#[derive(Clone)]
struct Cuts {
    image: Vec<u8>,
    trace: Vec<u8>,
    /// The bytes of the output.
    length: usize,
}

/// The records that are accepted, up to and with one of those that alert; all if none does.
fn to_an_alert(r: &mut Random, trace: &Trace) -> Vec<Vec<u8>> {
    let mut words = vec![0; SESSION_LENGTH];
    if session::start(&trace.image, &mut words) != 0 {
        return trace.records.clone();
    }
    let (mut records, mut alerts) = (Vec::new(), Vec::new());
    for bytes in trace.records.iter().filter(|bytes| bytes.len() == record::LENGTH) {
        match outcome(session::step(&mut words, bytes).number) {
            Outcome::Quiet => records.push(bytes.clone()),
            Outcome::Alert => {
                records.push(bytes.clone());
                alerts.push(records.len());
            }
            Outcome::Blocked | Outcome::Refused => {}
        }
    }
    if let Some(&end) = alerts.get(r.below(alerts.len())) {
        records.truncate(end);
    }
    records
}

/// Files with narrow rules, some of them guarded, and two processes, whose accesses are many: without a write that overwrote what a
/// process read, a later append to a guarded file is blocked.
fn narrow(r: &mut Random) -> Trace {
    const FILES: usize = 4;
    let own = |file: usize| 1u64 << file;
    let mixtures = (0..FILES).map(|file| own(file) | if r.percent(40) { own(r.below(FILES)) } else { 0 }).collect();
    let mut containers: Vec<(u8, u8, u16, u16)> =
        (0..FILES).map(|file| (r.pick(&[1, 1, 4]), file as u8, file as u16, UNRESTRICTED)).collect();
    containers.extend([PROCESS_RECORD; 2]);
    let rules = (0..FILES as u16).map(|file| (file, 1, NO_OWNER)).collect();
    let image = Spec { containers, users: vec![UNRESTRICTED], rules, mixtures, gaps: [0; GAPS] }.encode(0);
    let mut session = vec![0; SESSION_LENGTH];
    session::start(&image, &mut session);
    let leaving = r.pick(&[0, 10, 25]);
    let records = (0..r.between(6, 30)).map(|_| {
        let record = match r.pick(&[1, 1, 1, 2, 2, 3, 3, 3, 0, 0]) {
            0 => generate::record(r, &session, FILES + 4, leaving),
            code => record_bytes(code, (FILES + r.below(2)) as u16, r.below(FILES) as u16, NO_USER),
        };
        session::step(&mut session, &record);
        record
    });
    Trace { image, records: records.collect() }
}

/// Two files, each of which may hold itself alone, and a process that reads one and appends to the other, behind a chain of forks, each
/// of the process before, and reads that count for nothing. All but the last of the chain are needed by the next, and each append
/// alerts.
fn chain(r: &mut Random, forks: usize, reads: usize, appends: usize) -> Trace {
    let mut containers = vec![(1, 0, 0, UNRESTRICTED), (1, 1, 1, UNRESTRICTED)];
    containers.extend([PROCESS_RECORD; 2]);
    let rules = vec![(0, 1, NO_OWNER), (1, 1, NO_OWNER)];
    let spec = Spec { containers, users: vec![UNRESTRICTED], rules, mixtures: vec![1, 2], gaps: [0; GAPS] };
    let plain = |code, p: usize, o: usize| record_bytes(code, p as u16, o as u16, NO_USER);
    let mut records: Vec<Vec<u8>> = (0..forks).map(|n| plain(5, 3 + n, 4 + n)).collect();
    for _ in 0..reads {
        let at = r.below(records.len() + 1);
        records.insert(at, plain(1, 2, 0));
    }
    let at = r.below(records.len() + 1);
    records.insert(at, plain(1, 2, 0));
    records.extend(vec![plain(3, 2, 1); appends]);
    Trace { image: spec.encode(NO_ATOM), records }
}

fn make(r: &mut Random) -> Cuts {
    let Trace { image, records } = match r.below(100) {
        0 | 1 => {
            let forks = r.between(14, 34);
            let reads = r.below(8);
            chain(r, forks, reads, 1)
        }
        // At the limit: reads that go in the first pass, and an alert before the last record too.
        2 => {
            let forks = r.below(4);
            let reads = r.pick(&[TRIM_LIMIT, TRIM_LIMIT, TRIM_LIMIT + 1, TRIM_LIMIT - 1]) - 3 - forks;
            chain(r, forks, reads, 2)
        }
        3..=50 => {
            let mut trace = narrow(r);
            trace.records = to_an_alert(r, &trace);
            trace
        }
        _ => {
            let class = r.pick(&[0, 0, 0, 1, 1, 2]);
            let length = r.between(0, 24);
            let mut trace = traces::make(r, class, length);
            if r.percent(92) {
                trace.records = to_an_alert(r, &trace);
            }
            trace
        }
    };
    let mut trace = records.concat();
    if r.percent(4) {
        trace.truncate(trace.len() - r.below(record::LENGTH).min(trace.len()));
    }
    let image = if r.percent(6) { generate::image(r) } else { image };
    Cuts { image, trace, length: generate::length(r, TRIM_LIMIT, true) }
}

/// The number behind `kept` before a call: a refusal must leave it.
const KEPT_BEFORE: usize = 0x1234_5678;

impl Case for Cuts {
    fn run(&self, bench: &mut Bench, c: &mut Counters) -> Difference {
        bench.image.fill(&self.image);
        bench.record.fill(&self.trace);
        bench.lend_out(self.length);
        let mut kept = KEPT_BEFORE;
        let (image, image_length) = (bench.image.pointer(), bench.image.length());
        let (trace, trace_length) = (bench.record.pointer(), bench.record.length());
        let (out, length) = (bench.out.pointer_mut(), bench.out.length());
        // SAFETY: as `lent` says; the count is ours.
        let number =
            unsafe { ffi::yaslaurel_trace_trim(image, image_length, trace, trace_length, out, length, &mut kept) };
        let mut judged = KEPT_BEFORE;
        let expected = trim::put(&self.image, &self.trace, &mut bench.judge_out, &mut judged);
        c.count(TRIM, expected);
        let safe = yaslaurel::trim(&self.image, &self.trace).map_err(yaslaurel::Refusal::number);
        differ("trim", (number, kept), (expected, judged))
            .or_else(|| differ_at("positions", bench.out.content(), &bench.judge_out))
            .or_else(|| differ_at("the trace itself", bench.record.content(), &self.trace))
            .or_else(|| bench.guards())
            .or_else(|| self.counted(expected, safe, c))
    }

    fn simpler(&self) -> Vec<Box<dyn Case>> {
        let mut found = Vec::new();
        for place in (0..self.trace.len()).step_by(record::LENGTH) {
            let end = (place + record::LENGTH).min(self.trace.len());
            found.push(Cuts { trace: [&self.trace[..place], &self.trace[end..]].concat(), ..self.clone() });
        }
        if self.length != TRIM_LIMIT {
            found.push(Cuts { length: TRIM_LIMIT, ..self.clone() });
        }
        found.extend(shrink::images(&self.image).into_iter().map(|image| Cuts { image, ..self.clone() }));
        boxed(found)
    }

    fn show(&self) -> String {
        show_image(&self.image) + &format!("trace: {}\noutput of {} bytes\n", hex(&self.trace), self.length)
    }
}

impl Cuts {
    /// Counts what was reached, compares the safe interface, and tries each kept position but the last.
    fn counted(&self, expected: u32, safe: Result<Vec<usize>, u32>, c: &mut Counters) -> Difference {
        let records: Vec<&[u8]> = self.trace.chunks(record::LENGTH).collect();
        let trimmed = match trim::trim(&self.image, &self.trace) {
            Ok(trimmed) => trimmed,
            Err(number) => {
                if expected == 22 {
                    c.count(REFUSED, self.why(&records));
                }
                return differ("trim of the Rust interface", safe, Err(number));
            }
        };
        c.largest(LONGEST, records.len());
        c.count(
            PASSES,
            ["one", "two", "three", "four to sixteen", "over sixteen"][match trimmed.passes {
                1..=3 => trimmed.passes - 1,
                4..=16 => 3,
                _ => 4,
            }],
        );
        for cut in &trimmed.tried {
            c.count(
                TRIED,
                match cut {
                    Cut::Counts => "counts",
                    Cut::Refused => "a refused record",
                    Cut::Blocked => "a blocked record",
                    Cut::NoAlert => "no alert",
                },
            );
        }
        let kept = trimmed.positions;
        let rising = kept.windows(2).all(|pair| pair[0] < pair[1]) && kept.last() == Some(&(records.len() - 1));
        let needed = (0..kept.len() - 1)
            .all(|at| trim::cut(&self.image, &records, &[&kept[..at], &kept[at + 1..]].concat()) != Cut::Counts);
        let counts = trim::cut(&self.image, &records, &kept) == Cut::Counts;
        differ("trim of the Rust interface", safe, Ok(kept))
            .or_else(|| differ("rises, counts, minimal", (rising, counts, needed), (true, true, true)))
    }

    /// Which of the reasons a trace is refused for.
    fn why(&self, records: &[&[u8]]) -> &'static str {
        match records {
            [] => "no record",
            records if records.len() > TRIM_LIMIT => "over 256 records",
            [.., last] if last.len() < record::LENGTH => "a short last record",
            _ => "no alert at the end",
        }
    }
}
