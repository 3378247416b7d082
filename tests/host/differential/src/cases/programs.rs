//! What an explanation is asked of: policies whose programs have run rules that travel, with guarded files and users, and traces of
//! them, up to a record that is not quiet or to anywhere; and the memory that is lent.

use judge::numbers::RECORD;
use judge::session::{self, outcome, Outcome};
use judge::witness::records;
use yaslaurel::layout::image::{NO_ATOM, NO_OWNER, UNRESTRICTED};
use yaslaurel::layout::record::NO_USER;
use yaslaurel::layout::session::{container, KIND};
use yaslaurel::{links_length, SESSION_LENGTH};

use crate::case::hex;
use crate::cases::images::show_image;
use crate::cases::traces::{self, Trace};
use crate::generate::{self, record_bytes, PROCESS_RECORD};
use crate::lent::Guarded;
use crate::random::Random;
use crate::shrink;
use crate::spec::{Spec, GAPS};

/// A question: the image and the trace, and how much more is lent than is needed, of links and of steps; less is refused.
#[derive(Clone)]
pub struct Question {
    pub image: Vec<u8>,
    pub trace: Vec<u8>,
    pub more_links: isize,
    pub more_steps: isize,
    /// What stands in the lent memory before.
    pub filler: u64,
}

/// Rules of one to three mixtures of the first atoms and their running atoms, some of them written twice, or in another order and with
/// a mixture that another holds; each may be there again under the next number, with another owner.
fn rules(r: &mut Random, atoms: usize, users: usize, spec: &mut Spec) {
    let all = (1u64 << atoms) - 1;
    for _ in 0..r.between(2, 4) {
        let first = spec.mixtures.len() as u16;
        let own = r.pick(&[0, 1, 1, 1, 2, 2, 2, 3, 3]);
        for _ in 0..own {
            let running = if r.percent(70) { all } else { r.word() & all };
            spec.mixtures.push(r.word() & all | running << 32);
        }
        if let (true, Some(&some)) = (own > 0 && r.percent(40), spec.mixtures.last()) {
            spec.mixtures.push(if r.percent(50) { some } else { some & r.word() });
        }
        let count = spec.mixtures.len() as u16 - first;
        for _ in 0..r.pick(&[1, 1, 2]) {
            let owner = if r.percent(50) { NO_OWNER } else { r.below(users) as u16 };
            spec.rules.push((first, count, owner));
        }
    }
}

/// A policy of a few files, which are data and programs alike, processes and users.
fn policy(r: &mut Random) -> Spec {
    let mut spec = Spec { containers: vec![], users: vec![], rules: vec![], mixtures: vec![], gaps: [0; GAPS] };
    let (atoms, users) = (r.between(2, 4), r.between(1, 3));
    rules(r, atoms, users, &mut spec);
    let (open_permit, open_run, open_user) = (r.pick(&[30, 80]), r.pick(&[10, 50]), r.pick(&[20, 60, 90, 100]));
    let some = |r: &mut Random, open: usize| {
        if r.percent(open) {
            UNRESTRICTED
        } else {
            r.below(spec.rules.len()) as u16
        }
    };
    let kinds: &[u8] = r.pick(&[&[1], &[1, 1, 4], &[1, 4]]);
    for _ in 0..r.between(2, 5) {
        let atom = if r.percent(10) { NO_ATOM } else { r.below(atoms) as u8 };
        spec.containers.push((r.pick(kinds), atom, some(r, open_permit), some(r, open_run)));
    }
    spec.users = (0..users).map(|_| some(r, open_user)).collect();
    // Two numbers of one list of mixtures, each for some of the files.
    let twins = spec.rules.windows(2).position(|pair| (pair[0].0, pair[0].1) == (pair[1].0, pair[1].1));
    if let (Some(twin), true) = (twins, r.percent(40)) {
        spec.containers.iter_mut().for_each(|file| file.3 = (twin + r.below(2)) as u16);
    }
    if r.percent(30) {
        spec.containers.push((2, NO_ATOM, UNRESTRICTED, UNRESTRICTED));
    }
    let at = r.below(spec.containers.len() + 1);
    spec.containers.insert(at, PROCESS_RECORD);
    spec.containers.push(PROCESS_RECORD);
    spec
}

/// A record that takes up where the last one put down, in `last`: by one of the processes, or by that one into some container.
fn onward(r: &mut Random, session: &[u64], last: usize, containers: usize, users: usize) -> Vec<u8> {
    let kind = |number: usize| session[container(number)][KIND];
    let of = |wanted: &[u64]| (0..containers).filter(|&number| wanted.contains(&kind(number))).collect::<Vec<_>>();
    let some = |r: &mut Random, from: Vec<usize>| from.get(r.below(from.len())).copied().unwrap_or(0) as u16;
    if kind(last) == 3 {
        let code = r.pick(&[2, 2, 3, 3, 5]);
        let object = some(r, of(if code == 5 { &[0] } else { &[1, 2, 4] }));
        return record_bytes(code, last as u16, object, NO_USER);
    }
    let process = some(r, of(&[3]));
    match r.pick(&[1, 1, 1, 4]) {
        4 => record_bytes(4, process, last as u16, r.below(users) as u16),
        code => record_bytes(code, process, last as u16, NO_USER),
    }
}

/// Records on a session of the policy, one after the other; in most traces many take up where the last one put down.
fn programs(r: &mut Random, length: usize) -> Trace {
    let spec = policy(r);
    let image = spec.encode(r.word() as u8);
    let mut session = vec![0; SESSION_LENGTH];
    session::start(&image, &mut session);
    let (near, leaving, follows) = (spec.containers.len() + 3, r.pick(&[0, 5, 20, 20]), r.pick(&[0, 40, 70]));
    let mut last = r.below(spec.containers.len());
    let records = (0..length).map(|_| {
        let record = if r.percent(follows) {
            onward(r, &session, last, near, spec.users.len())
        } else {
            generate::record(r, &session, near, leaving)
        };
        let answer = session::step(&mut session, &record);
        if outcome(answer.number) != Outcome::Refused {
            last = answer.receiver as usize;
        }
        record
    });
    Trace { image, records: records.collect() }
}

/// The records up to and with one that is an alert or blocked; all if none is.
fn to_a_forbidden(r: &mut Random, trace: &mut Trace) -> bool {
    let mut words = vec![0; SESSION_LENGTH];
    session::start(&trace.image, &mut words);
    let told =
        trace.records.iter().enumerate().filter(|(_, bytes)| match outcome(session::step(&mut words, bytes).number) {
            Outcome::Alert | Outcome::Blocked => true,
            Outcome::Quiet | Outcome::Refused => false,
        });
    let told: Vec<usize> = told.map(|(place, _)| place).collect();
    if let Some(&last) = told.get(r.below(told.len())) {
        trace.records.truncate(last + 1);
    }
    !told.is_empty()
}

/// A trace of a small policy, of any, or of more records.
fn trace(r: &mut Random) -> Trace {
    let mut trace = match r.below(100) {
        0..=84 => {
            let length = r.pick(&[0, 1, 4, 8, 12, 16, 16]);
            programs(r, length)
        }
        85..=95 => {
            let (class, length) = (r.pick(&[0, 0, 1]), r.between(0, 24));
            traces::make(r, class, length)
        }
        _ => {
            let (class, length) = (r.pick(&[0, 1, 2, 3]), r.between(30, 300));
            traces::make(r, class, length)
        }
    };
    // One of another length moves all that follow it.
    trace.records.retain(|bytes| bytes.len() == RECORD);
    trace
}

impl Question {
    /// Most end in an alert or a blocked record.
    pub fn make(r: &mut Random) -> Question {
        let (mut trace, tries) = (self::trace(r), r.pick(&[0, 4, 4, 4, 4]));
        for _ in 0..tries {
            if to_a_forbidden(r, &mut trace) {
                break;
            }
            trace = self::trace(r);
        }
        let mut bytes = trace.records.concat();
        if r.percent(4) {
            bytes.truncate(bytes.len() - r.below(RECORD).min(bytes.len()));
        }
        let image = if r.percent(9) { generate::image(r) } else { trace.image };
        let more = |r: &mut Random| match r.below(40) {
            0 => -1,
            1 => 1,
            2 => 7,
            _ => 0,
        };
        let (mut more_links, mut more_steps) = (more(r), more(r));
        // A short record needs as much as a whole one.
        if !bytes.len().is_multiple_of(RECORD) && r.percent(40) {
            (more_links, more_steps) = r.pick(&[(-1, 0), (-2, 0), (0, -1), (-2, -1)]);
        }
        Question { image, trace: bytes, more_links, more_steps, filler: r.below(6) as u64 }
    }

    fn filled(&self, needed: usize, more: isize) -> Guarded<u64> {
        let length = needed.saturating_add_signed(more);
        let mut r = Random::new(self.filler);
        let content = (0..length).map(|_| match self.filler {
            0 => 0,
            1 => u64::MAX,
            // Numbers as the library has them there.
            _ => r.below(links_length(records(&self.trace))) as u64,
        });
        Guarded::new(&content.collect::<Vec<_>>())
    }

    /// Links, and a copy of what stands there.
    pub fn links(&self) -> (Guarded<u64>, Vec<u64>) {
        let links = self.filled(links_length(records(&self.trace)), self.more_links);
        let before = links.content().to_vec();
        (links, before)
    }

    /// Steps, and a copy for the judge.
    pub fn steps(&self) -> (Guarded<u64>, Vec<u64>) {
        let steps = self.filled(records(&self.trace), self.more_steps);
        let before = steps.content().to_vec();
        (steps, before)
    }

    /// From which place on links must be as they were.
    pub fn links_kept_from(&self, number: u32) -> usize {
        if number == 0 {
            links_length(records(&self.trace))
        } else {
            0
        }
    }

    pub fn simpler(&self) -> Vec<Question> {
        let mut found = Vec::new();
        for place in (0..self.trace.len()).step_by(RECORD) {
            let end = (place + RECORD).min(self.trace.len());
            found.push(Question { trace: [&self.trace[..place], &self.trace[end..]].concat(), ..self.clone() });
        }
        for (more_links, more_steps, filler) in [(0, self.more_steps, self.filler), (self.more_links, 0, self.filler)]
            .into_iter()
            .chain([(self.more_links, self.more_steps, 0)])
        {
            if (more_links, more_steps, filler) != (self.more_links, self.more_steps, self.filler) {
                found.push(Question { more_links, more_steps, filler, ..self.clone() });
            }
        }
        found.extend(shrink::images(&self.image).into_iter().map(|image| Question { image, ..self.clone() }));
        found
    }

    pub fn show(&self) -> String {
        let Question { trace, more_links, more_steps, filler, .. } = self;
        let lent = format!("links {more_links:+}, steps {more_steps:+}, filled by {filler}");
        show_image(&self.image) + &format!("trace: {}\n{lent}\n", hex(trace))
    }
}
