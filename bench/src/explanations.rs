//! Chains and reasons of alerts, against the monitor's own run of the same trace, and against natural Rust: the monitor in natural Rust beside
//! a list of steps for each container, whose tails are shared (`Rc`).

use std::cell::RefCell;
use std::hint::black_box;
use std::rc::Rc;

use judge::image::{read, Policy};
use judge::rules::covers;
use judge::session::{read_record, Record};
use judge::witness::receiver;
use yaslaurel::layout::atom::RUNNING;
use yaslaurel::layout::image::{CONTAINERS, NO_ATOM, UNRESTRICTED};
use yaslaurel::layout::{record, why as places};
use yaslaurel::{explain_in, ffi, links_length, run_in, start_in, trace_records, why_in, SESSION_LENGTH, WHY_LENGTH};

use crate::plain::{self, Natural};
use crate::race::{race, Variant};
use crate::work::{self, Random};
use crate::{head_of, line_of};

/// The columns: the library's run of the same trace, natural Rust, the judge.
const COLUMNS: [&str; 3] = ["run", "natural", "judge"];

/// A step of a chain, behind those before it.
struct Link {
    record: usize,
    before: Option<Rc<Link>>,
    file: usize,
}

/// What stands in a container: the file where it begins, and the last step.
#[derive(Clone)]
struct Stands {
    file: usize,
    last: Option<Rc<Link>>,
}

impl Stands {
    fn further(&self, record: usize) -> Stands {
        let link = Link { record, before: self.last.clone(), file: self.file };
        Stands { file: self.file, last: Some(Rc::new(link)) }
    }

    /// Its records, rising.
    fn records(&self) -> Vec<usize> {
        let mut found = Vec::new();
        let mut link = self.last.as_ref();
        while let Some(at) = link {
            assert_eq!(at.file, self.file);
            found.push(at.record);
            link = at.before.as_ref();
        }
        found.reverse();
        found
    }
}

/// What natural Rust keeps of a trace: which records were accepted, and the last answer.
struct Ran {
    steps: Vec<(usize, Record)>,
    receiver: usize,
    tag: u64,
}

fn ran(image: &[u8], trace: &[u8], mut step_by: impl FnMut(usize, Record)) -> Ran {
    let mut session = vec![0; SESSION_LENGTH];
    assert_eq!(plain::start::<Natural>(image, &mut session), 0, "the image is accepted");
    let mut found = Ran { steps: Vec::new(), receiver: 0, tag: 0 };
    let count = trace_records(trace.len());
    for (number, bytes) in trace.chunks(record::LENGTH).enumerate() {
        let (answer, receiver, tag, _) = plain::step::<Natural>(&mut session, bytes);
        let follows = answer == ffi::QUIET || answer == ffi::ALERT || answer == ffi::BLOCKED && number + 1 == count;
        if let Some(step) = read_record(bytes).filter(|_| follows) {
            step_by(number, step);
            found.steps.push((number, step));
        }
        (found.receiver, found.tag) = (receiver as usize, tag);
    }
    found
}

/// The containers where something stands: a data atom and its running atom, or a run rule in the first.
struct Follows {
    run_rule: bool,
    first: Vec<Option<Stands>>,
    second: Vec<Option<Stands>>,
}

impl Follows {
    fn new(run_rule: bool, starts: impl Fn(usize) -> bool) -> Follows {
        let begun = |file| starts(file).then_some(Stands { file, last: None });
        let first = (0..CONTAINERS.most).map(begun).collect();
        Follows { run_rule, first, second: vec![None; CONTAINERS.most] }
    }

    fn step(&mut self, number: usize, step: Record) {
        let at = receiver(step);
        let (first, second) = match step.code {
            1 => (self.first[step.o].clone(), None),
            4 if self.run_rule => (self.first[step.o].clone(), None),
            4 => (None, self.first[step.o].clone()),
            2 | 3 | 5 => (self.first[step.p].clone(), self.second[step.p].clone()),
            _ => (None, None),
        };
        let ends = matches!(step.code, 2 | 8 | 9);
        if ends || step.code == 4 && self.run_rule {
            self.first[at] = None;
        }
        if ends || step.code == 4 {
            self.second[at] = None;
        }
        for (form, brought) in [(&mut self.first, first), (&mut self.second, second)] {
            if form[at].is_none() {
                form[at] = brought.map(|stands| stands.further(number));
            }
        }
    }
}

/// A chain in one number.
fn mixed(file: usize, records: impl IntoIterator<Item = usize>) -> u64 {
    records.into_iter().fold(file as u64, |sum, record| sum.wrapping_mul(31).wrapping_add(record as u64))
}

fn natural_explain(image: &[u8], trace: &[u8], container: usize, atom: usize) -> u64 {
    let policy = read(image).expect("the image is accepted");
    let data = (atom % RUNNING as usize) as u8;
    let starts = |file: usize| policy.containers.get(file).is_some_and(|file| file.atom == Some(data));
    let mut follows = Follows::new(false, starts);
    ran(image, trace, |number, step| follows.step(number, step));
    let form = if atom < RUNNING as usize { follows.first } else { follows.second };
    form[container].as_ref().map_or(u64::MAX, |stands| mixed(stands.file, stands.records()))
}

/// Where a rule comes from.
#[derive(Clone, Copy)]
enum From {
    Own,
    Made { number: usize, user: usize },
    Exec { place: usize, number: usize, object: usize, user: usize },
}

fn natural_why(image: &[u8], trace: &[u8]) -> u64 {
    let policy = read(image).expect("the image is accepted");
    let mut from = vec![From::Own; CONTAINERS.most];
    let mut place = 0;
    let Ran { steps, receiver, tag } = ran(image, trace, |number, step| {
        let user = step.u.unwrap_or(0);
        match step.code {
            4 => from[step.p] = From::Exec { place, number, object: step.o, user },
            5 => from[step.o] = from[step.p],
            6 => from[step.o] = From::Made { number, user },
            _ => {}
        }
        place += 1;
    });
    let (origin, number, holder, rule, chain) = match from[receiver] {
        From::Own => (0, 0, receiver, policy.containers[receiver].permit, vec![]),
        From::Made { number, user } => (1, number, user, policy.users[user], vec![]),
        From::Exec { number, user, .. } if !covers(&policy.rule(policy.users[user]), tag) => {
            (2, number, user, policy.users[user], vec![])
        }
        From::Exec { place, number, object, .. } => {
            let (file, chain) = natural_run_rule(&policy, &steps[..place], object, tag);
            (3, number, file, policy.containers[file].run, chain)
        }
    };
    let lacked = policy.rule(rule).iter().map(|mixture| (tag & !mixture).trailing_zeros() as usize).collect::<Vec<_>>();
    let numbers = [receiver, tag as usize, origin, number, holder, usize::from(rule), usize::from(policy.owner(rule))];
    mixed(0, numbers.into_iter().chain(chain).chain(lacked))
}

/// The file where the chain of the first run rule begins that does not cover the tag and has one into the object, and its records.
fn natural_run_rule(policy: &Policy, steps: &[(usize, Record)], object: usize, tag: u64) -> (usize, Vec<usize>) {
    let files = || policy.containers.iter().filter(|file| file.kind.is_file());
    let mut found = files().map(|file| policy.rule(file.run)).filter(|rule| !covers(rule, tag)).filter_map(|rule| {
        let same =
            |file: usize| policy.containers.get(file).is_some_and(|c| c.kind.is_file() && policy.rule(c.run) == rule);
        let mut follows = Follows::new(true, same);
        steps.iter().for_each(|&(number, step)| follows.step(number, step));
        follows.first[object].as_ref().map(|stands| (stands.file, stands.records()))
    });
    found.next().expect("a rule forbids")
}

fn judge_explain(image: &[u8], trace: &[u8], container: usize, atom: usize) -> u64 {
    let found = judge::witness::explain(image, trace, container, atom).expect("the image is accepted");
    found.map_or(u64::MAX, |chain| mixed(chain.file, chain.steps))
}

fn judge_why(image: &[u8], trace: &[u8]) -> u64 {
    let (mut steps, mut out) = (vec![0; trace_records(trace.len())], vec![0; WHY_LENGTH]);
    assert_eq!(judge::witness::put_why(image, trace, usize::MAX, &mut steps, &mut out), 0, "the last record alerts");
    reason(&out, &steps)
}

/// The numbers of a reason in one.
fn reason(out: &[u64], steps: &[u64]) -> u64 {
    let chain = steps[out[places::FIRST] as usize..].iter().map(|&step| step as usize);
    let lacked = out[places::LACKED..][..out[places::MIXTURES] as usize].iter().map(|&atom| atom as usize);
    mixed(0, out[..places::FIRST].iter().map(|&number| number as usize).chain(chain).chain(lacked))
}

/// The library's run of a trace, from the start of a session on.
fn library_run(image: &[u8], trace: &[u8], session: &mut [u64]) {
    start_in(image, session).expect("the image is accepted");
    black_box(run_in(session, trace).count());
}

/// A policy of files that may hold any two neighbours of 16 sources, of programs whose run rules permit all data, or one source of 16
/// each where they are narrow, and of processes.
fn policy(files: usize, programs: usize, processes: usize, narrow: bool) -> Vec<u8> {
    let mut rules: Vec<Vec<u64>> =
        (0..16).map(|file| vec![u64::MAX << 32 | 1 << file | 1 << ((file + 1) % 16)]).collect();
    rules.extend((0..programs).map(|program| {
        let data = if narrow { 1 << 16 | 1 << (program % 16) | (program as u64) << 17 } else { 0xffff_ffff };
        vec![u64::MAX << 32 | data]
    }));
    let mut containers: Vec<(u8, u8, u16, u16)> =
        (0..files).map(|file| (1, (file % 16) as u8, (file % 16) as u16, UNRESTRICTED)).collect();
    containers.extend((0..programs).map(|program| (1, 31, UNRESTRICTED, 16 + program as u16)));
    containers.extend(vec![(3, NO_ATOM, UNRESTRICTED, UNRESTRICTED); processes]);
    work::image(&containers, &[UNRESTRICTED], &rules)
}

/// Random accesses of the processes, execs and forks among them; the last one alerts.
fn trace(image: &[u8], [files, programs, processes]: [usize; 3], count: usize) -> Vec<u8> {
    let mut r = Random(count as u64 + files as u64);
    let mut session = vec![0; SESSION_LENGTH];
    assert_eq!(plain::start::<Natural>(image, &mut session), 0);
    let mut records: Vec<u8> = Vec::new();
    loop {
        let (p, o) = (files + programs + r.below(processes), r.below(files));
        let (code, o, u) = match r.below(100) {
            0..=44 => (1, o, 65535),
            45..=69 => (2, o, 65535),
            70..=94 => (3, o, 65535),
            95..=97 => (4, files + r.below(programs), 0),
            98 => (5, files + programs + processes + r.below(16), 65535),
            _ => (8, p, 65535),
        };
        // A process that ends is one that was forked.
        let p = if code == 8 { files + programs + processes + r.below(16) } else { p };
        let o = if code == 8 { p } else { o };
        let fields = [p as u16, o as u16, u as u16].map(u16::to_le_bytes).concat();
        let bytes = [vec![code, 0], fields].concat();
        let (answer, ..) = plain::step::<Natural>(&mut session, &bytes);
        records.extend(bytes);
        if records.len() >= record::LENGTH * count && answer == ffi::ALERT {
            return records;
        }
    }
}

/// Runs one line of the table: the function of the library, its run, natural Rust and the judge.
fn line_for(name: &str, image: &[u8], trace: &[u8], functions: [&dyn Fn() -> u64; 3]) {
    let session = RefCell::new(vec![0; SESSION_LENGTH]);
    let [library, natural, judge] = functions;
    let sum = library();
    let run = || {
        library_run(image, trace, &mut session.borrow_mut());
        sum
    };
    let long = trace.len() > record::LENGTH * 100_000;
    let named: [(&'static str, &dyn Fn() -> u64); 4] =
        [("library", library), ("run", &run), ("natural", natural), ("judge", judge)];
    let mut variants: Vec<Variant<'_>> = named
        .into_iter()
        .filter(|(name, _)| !long || *name != "judge")
        .map(|(name, function)| Variant { name, prepare: Box::new(|| {}), run: Box::new(function) })
        .collect();
    let rounds = if long { 7 } else { crate::ROUNDS };
    line_of(name, &race(rounds, trace_records(trace.len()), &mut variants), COLUMNS);
}

pub fn explanations() {
    const SHAPE: [usize; 3] = [100, 20, 40];
    let image = policy(SHAPE[0], SHAPE[1], SHAPE[2], false);
    let traces: Vec<(usize, Vec<u8>)> =
        [100, 10_000, 1_000_000].into_iter().map(|count| (count, trace(&image, SHAPE, count))).collect();
    head_of("How an atom came into a container, for each record", "records", COLUMNS);
    for (count, trace) in &traces {
        let records = trace_records(trace.len());
        let lent = RefCell::new((vec![0; links_length(records)], vec![0; records]));
        let last = read_record(&trace[trace.len() - record::LENGTH..]).expect("it alerts");
        let (container, atom) = (receiver(last), last.o % 16);
        let library = || {
            let (links, steps) = &mut *lent.borrow_mut();
            let found = explain_in(&image, trace, container, atom, links, steps).expect("the image is accepted");
            found.map_or(u64::MAX, |(file, first)| {
                mixed(usize::from(file), steps[first..].iter().map(|&step| step as usize))
            })
        };
        let natural = || natural_explain(&image, trace, container, atom);
        let judge = || judge_explain(&image, trace, container, atom);
        line_for(&count.to_string(), &image, trace, [&library, &natural, &judge]);
    }
    head_of("Why the last record of a trace alerts, for each record", "records", COLUMNS);
    let narrow = policy(SHAPE[0], 100, SHAPE[2], true);
    let mut works: Vec<(String, &[u8], &[u8])> =
        traces.iter().map(|(count, trace)| (count.to_string(), &image[..], &trace[..])).collect();
    let searched = trace(&narrow, [SHAPE[0], 100, SHAPE[2]], 10_000);
    works.push(("10000, 100 run rules".into(), &narrow, &searched));
    for (name, image, trace) in works {
        let records = trace_records(trace.len());
        let lent = RefCell::new((vec![0; links_length(records)], vec![0; records], vec![0; WHY_LENGTH]));
        let library = || {
            let (links, steps, out) = &mut *lent.borrow_mut();
            why_in(image, trace, links, steps, out).expect("the last record alerts");
            reason(out, steps)
        };
        let (natural, judge) = (|| natural_why(image, trace), || judge_why(image, trace));
        line_for(&name, image, trace, [&library, &natural, &judge]);
    }
}
