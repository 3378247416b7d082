//! Reasons: which rule an alert, or a blocked record, broke, and what its mixtures lack. Each is judged as a certificate too.

use judge::chains;
use judge::image::{self, Policy};
use judge::numbers::{RECORD, WHY};
use judge::rules::normal;
use judge::session::{outcome, Outcome};
use judge::witness::{self, is_certificate, Chain, Origin, Told, Why};
use yaslaurel::layout::why;
use yaslaurel::{ffi, Recording, Session};

use crate::bench::Bench;
use crate::case::{boxed, differ, differ_at, Case, Difference, Part};
use crate::cases::programs::Question;
use crate::counters::{Counters, Need};
use crate::lent::{guards_stand, Guarded};
use crate::random::Random;

pub const PART: Part = Part {
    name: "reasons of alerts",
    cases: 30_000,
    make: |r| Box::new(make(r)),
    needs: &[
        Need::Numbers(REASON, &[0, 9, 1, 2, 3, 4, 5, 6, 25]),
        Need::Words(ORIGINS, &["own", "made", "user", "run", "run, along two steps", "run, along over two"]),
        Need::Words(ORIGINS, &["an exec before a fork", "the exec itself", "a later holder of a number", "owned"]),
        Need::Words(
            ORIGINS,
            &["a rule of another number with the same mixtures", "blocked", "behind a refused record"],
        ),
        Need::Words(
            MIXTURES,
            &["none", "one", "several", "not in normal form", "lacked atoms differ", "running lacked"],
        ),
        Need::Words(REFUSED, &["no record", "a short last record", "a refused last record", "a quiet last record"]),
    ],
};

const REASON: &str = "why, by answer";
const ORIGINS: &str = "rules that forbid";
const MIXTURES: &str = "mixtures of rules that forbid";
const REFUSED: &str = "traces refused with 25";

#[derive(Clone)]
struct Reason {
    question: Question,
    /// How many more numbers than needed are lent for the reason.
    more: isize,
}

fn make(r: &mut Random) -> Reason {
    Reason { question: Question::make(r), more: r.pick(&[0, 0, 0, 0, 0, 0, 0, 0, 3, -1]) }
}

/// The reason that the library's numbers say.
fn read(numbers: &[u64], steps: &[u64]) -> Why {
    let at = |place: usize| numbers[place] as usize;
    let record = at(why::RECORD);
    let chain = || Chain { file: at(why::FROM), steps: steps[at(why::FIRST)..].iter().map(|&s| s as usize).collect() };
    Why {
        receiver: at(why::RECEIVER),
        tag: numbers[why::TAG],
        origin: match numbers[why::ORIGIN] {
            0 => Origin::Own,
            1 => Origin::Made { record, user: at(why::FROM) },
            2 => Origin::User { record, user: at(why::FROM) },
            _ => Origin::Run { record, chain: chain() },
        },
        rule: numbers[why::RULE] as u16,
        owner: numbers[why::OWNER] as u16,
        lacked: numbers[why::LACKED..][..at(why::MIXTURES)].iter().map(|&atom| atom as u32).collect(),
    }
}

/// The reason of the safe interface, as the judge has it.
fn safe_why(safe: &yaslaurel::Why, policy: &Policy) -> Result<Why, String> {
    let mixtures: Vec<u64> = safe.mixtures.iter().map(|(mixture, _)| mixture.bits()).collect();
    if mixtures != policy.rule(safe.rule) {
        return Err(format!("mixtures of the Rust interface: {mixtures:?}"));
    }
    let chain = |chain: &yaslaurel::Chain| Chain { file: usize::from(chain.file), steps: chain.records.clone() };
    let origin = match &safe.origin {
        yaslaurel::Origin::Own { container } if *container == safe.receiver => Origin::Own,
        yaslaurel::Origin::Made { record, user } => Origin::Made { record: *record, user: usize::from(*user) },
        yaslaurel::Origin::User { record, user } => Origin::User { record: *record, user: usize::from(*user) },
        yaslaurel::Origin::Run { record, chain: of } => Origin::Run { record: *record, chain: chain(of) },
        other => return Err(format!("origin of the Rust interface: {other:?}")),
    };
    Ok(Why {
        receiver: usize::from(safe.receiver),
        tag: safe.tag,
        origin,
        rule: safe.rule,
        owner: safe.owner.map_or(judge::numbers::NO_OWNER, u16::from),
        lacked: safe.mixtures.iter().map(|(_, atom)| *atom).collect(),
    })
}

impl Reason {
    /// The reason is a certificate, with the chains that the library tells of the lacked atoms, and its rule is one that governs.
    fn certified(&self, policy: &Policy, told: &Told, reason: &Why) -> Difference {
        let Question { image, trace, .. } = &self.question;
        let mut ways = Vec::new();
        for &atom in &reason.lacked {
            match yaslaurel::explain(image, trace, reason.receiver as u8, atom) {
                Ok(Some(way)) => ways.push((atom, Chain { file: usize::from(way.file), steps: way.records })),
                other => return Some(format!("no chain for the lacked atom {atom}: {other:?}")),
            }
        }
        let governs = (told.steps.len() <= 10).then(|| {
            let (chains, after) = (chains::list(policy, &told.steps), told.steps.len());
            let rules = chains::governing(policy, &told.steps, &chains, reason.receiver, after);
            rules.contains(&policy.rule(reason.rule))
        });
        differ("it is a certificate", is_certificate(policy, told, reason, &ways), true)
            .or_else(|| differ("the rule is one of those that govern the receiver", governs.unwrap_or(true), true))
    }

    /// The safe interface, and a session that keeps its records.
    fn safe(&self, policy: Option<&Policy>) -> Difference {
        let Question { image, trace, .. } = &self.question;
        let judged = witness::why(image, trace);
        let safe = yaslaurel::why(image, trace).map_err(yaslaurel::Refusal::number);
        let recorded = Session::recording(image).ok().map(|mut session: Recording| {
            for bytes in trace.chunks(RECORD) {
                let _ = session.step(bytes);
            }
            session.why().map_err(yaslaurel::Refusal::number)
        });
        let kept = recorded.and_then(|recorded| differ("why of a recording", recorded, safe.clone()));
        let safe = match (safe, policy) {
            (Ok(reason), Some(policy)) => match safe_why(&reason, policy) {
                Ok(reason) => Ok(reason),
                Err(difference) => return Some(difference),
            },
            (Ok(_), None) => return Some("why of the Rust interface: the image is refused".into()),
            (Err(number), _) => Err(number),
        };
        differ("why of the Rust interface", safe, judged).or(kept)
    }

    fn count(&self, policy: &Policy, told: &Told, reason: &Why, c: &mut Counters) {
        let (word, record, travelled) = match &reason.origin {
            Origin::Own => ("own", None, 0),
            Origin::Made { record, .. } => ("made", Some(*record), 0),
            Origin::User { record, .. } => ("user", Some(*record), 0),
            Origin::Run { record, chain } => ("run", Some(*record), chain.steps.len()),
        };
        c.count(ORIGINS, word);
        let step = record.and_then(|record| told.records.iter().position(|r| *r == record)).map(|at| told.steps[at]);
        let exec = step.filter(|step| step.code == 4);
        let left = told.steps.iter().any(|step| step.code >= 8 && step.o == reason.receiver);
        // The first file whose run rule forbids has the same mixtures under another number.
        let rule = policy.rule(reason.rule);
        let first = policy.containers.iter().find(|file| file.kind.is_file() && policy.rule(file.run) == rule);
        let twin = word == "run" && first.is_some_and(|file| file.run != reason.rule);
        let refused = told.records.iter().enumerate().any(|(place, record)| place != *record);
        for (word, reached) in [
            ("run, along two steps", travelled == 2),
            ("run, along over two", travelled > 2),
            ("an exec before a fork", exec.is_some_and(|step| step.p != reason.receiver)),
            ("the exec itself", exec.is_some() && record == told.records.last().copied()),
            ("a later holder of a number", left),
            ("owned", reason.owner != judge::numbers::NO_OWNER),
            ("a rule of another number with the same mixtures", twin),
            ("blocked", told.last.is_some_and(|last| outcome(last.number) == Outcome::Blocked)),
            ("behind a refused record", refused),
        ] {
            c.add(ORIGINS, word, u64::from(reached));
        }
        c.count(MIXTURES, ["none", "one", "several"][rule.len().min(2)]);
        c.add(MIXTURES, "not in normal form", u64::from(normal(&rule) != rule));
        c.add(MIXTURES, "lacked atoms differ", u64::from(reason.lacked.windows(2).any(|pair| pair[0] != pair[1])));
        c.add(MIXTURES, "running lacked", u64::from(reason.lacked.iter().any(|&atom| atom >= 32)));
    }

    /// Which of the reasons a trace is refused for.
    fn refused_as(&self, told: &Told) -> &'static str {
        match told.last {
            None => "no record",
            Some(_) if !self.question.trace.len().is_multiple_of(RECORD) => "a short last record",
            Some(last) if outcome(last.number) == Outcome::Refused => "a refused last record",
            Some(_) => "a quiet last record",
        }
    }
}

impl Case for Reason {
    fn run(&self, bench: &mut Bench, c: &mut Counters) -> Difference {
        let Question { image, trace, .. } = &self.question;
        bench.image.fill(image);
        bench.record.fill(trace);
        let (mut links, links_before) = self.question.links();
        let (mut steps, mut judge_steps) = self.question.steps();
        let mut judge_why = vec![0x5a5a_5a5a_5a5a; WHY.saturating_add_signed(self.more)];
        let mut out = Guarded::new(&judge_why);
        let (links_length, steps_length, out_length) = (links.length(), steps.length(), out.length());
        // SAFETY: as `lent` says.
        let number = unsafe {
            ffi::yaslaurel_why(
                bench.image.pointer(),
                bench.image.length(),
                bench.record.pointer(),
                bench.record.length(),
                links.pointer_mut(),
                links_length,
                steps.pointer_mut(),
                steps_length,
                out.pointer_mut(),
                out_length,
            )
        };
        let judged = witness::put_why(image, trace, links.length(), &mut judge_steps, &mut judge_why);
        c.count(REASON, judged);
        let kept = self.question.links_kept_from(judged);
        let policy = image::read(image).ok();
        let told = policy.as_ref().map(|_| Told::of(image, trace));
        if let (25, Some(told)) = (judged, &told) {
            c.count(REFUSED, self.refused_as(told));
        }
        differ("why", number, judged)
            .or_else(|| differ_at("the reason", out.content(), &judge_why))
            .or_else(|| differ_at("steps", steps.content(), &judge_steps))
            .or_else(|| differ_at("links that must stay", &links.content()[kept..], &links_before[kept..]))
            .or_else(|| guards_stand(&[&links, &steps, &out]))
            .or_else(|| bench.guards())
            .or_else(|| differ_at("the trace itself", bench.record.content(), trace))
            .or_else(|| {
                let (policy, told) = (policy.as_ref()?, told.as_ref().filter(|_| number == 0)?);
                let reason = read(out.content(), steps.content());
                self.count(policy, told, &reason, c);
                self.certified(policy, told, &reason)
            })
            .or_else(|| self.safe(policy.as_ref()))
    }

    fn simpler(&self) -> Vec<Box<dyn Case>> {
        let mut found: Vec<Reason> =
            self.question.simpler().into_iter().map(|question| Reason { question, ..*self }).collect();
        if self.more != 0 {
            found.push(Reason { more: 0, ..self.clone() });
        }
        boxed(found)
    }

    fn show(&self) -> String {
        self.question.show() + &format!("a reason of {:+} numbers\n", self.more)
    }
}
