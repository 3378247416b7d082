//! Chains: how an atom came into a container. Of a small policy every container and atom is asked for.

use std::collections::BTreeSet;

use judge::chains::{self, Carried};
use judge::image::{self, Policy};
use judge::numbers::{container_row, ATOMS, CONTAINERS, DATA_ATOMS, NO_CHAIN, RECORD, ROW_TAG, SESSION};
use judge::session::{self, outcome, Outcome};
use judge::witness::{self, is_way, Chain, Told};
use yaslaurel::ffi;

use crate::bench::Bench;
use crate::case::{boxed, differ, differ_at, Case, Difference, Part};
use crate::cases::programs::Question;
use crate::counters::{Counters, Need};
use crate::lent::guards_stand;
use crate::random::Random;

pub const PART: Part = Part {
    name: "explanations of what a container holds",
    cases: 6_000,
    make: |r| Box::new(make(r)),
    needs: &[
        Need::Numbers(EXPLAIN, &[0, 9, 1, 2, 3, 4, 5, 6, 24]),
        Need::Words(CHAINS, &["none", "no step", "one step", "two steps", "three to five steps", "over five steps"]),
        Need::Words(CHAINS, &["of a running atom", "from a guarded file", "ends with a blocked record"]),
        Need::Words(CHAINS, &["into a number taken again", "behind a refused record", "behind a blocked record"]),
        Need::Words(CHAINS, &["not the only one", "first of several that came at other times"]),
    ],
};

const EXPLAIN: &str = "explain, by answer";
const CHAINS: &str = "chains that are told";

#[derive(Clone)]
struct Explanation {
    question: Question,
    container: usize,
    atom: usize,
    /// Every container and atom that image and trace name is asked for too.
    all: bool,
}

fn make(r: &mut Random) -> Explanation {
    let question = Question::make(r);
    // More often out of bounds where the image is refused before it.
    let in_bounds = if image::check(&question.image) == 0 { 10 } else { 2 };
    let container = match r.below(in_bounds) {
        0 => r.pick(&[CONTAINERS.most - 1, CONTAINERS.most, CONTAINERS.most + 1, usize::MAX]),
        _ => r.below(10),
    };
    let atom = match r.below(in_bounds) {
        0 => r.pick(&[ATOMS - 1, ATOMS, ATOMS + 1, usize::MAX]),
        _ => r.pick(&[0, 1, 2, 3, 32, 33, 34, 35]),
    };
    let small = question.image.len() < 400 && question.trace.len() <= 16 * RECORD;
    Explanation { question, container, atom, all: small }
}

/// What the checks of an answer know of the question, once for all atoms.
struct Known {
    policy: Policy,
    told: Told,
    /// What each container holds behind the trace; a last record that is blocked counts as made.
    tags: Vec<u64>,
    /// All chains of a short history.
    listed: Option<Vec<chains::Chain>>,
    refused_before: bool,
    blocked_before: bool,
}

impl Known {
    fn of(question: &Question) -> Option<Known> {
        let policy = image::read(&question.image).ok()?;
        let told = Told::of(&question.image, &question.trace);
        let mut words = vec![0; SESSION];
        session::start(&question.image, &mut words);
        let answers = question.trace.chunks(RECORD).map(|bytes| session::step(&mut words, bytes));
        let answers: Vec<session::Answer> = answers.collect();
        let mut tags: Vec<u64> = (0..CONTAINERS.most).map(|number| words[container_row(number)][ROW_TAG]).collect();
        if let Some(last) = answers.last().filter(|last| outcome(last.number) == Outcome::Blocked) {
            tags[last.receiver as usize] = last.tag;
        }
        let before = &answers[..answers.len().saturating_sub(1)];
        let some = |wanted: Outcome| before.iter().any(|answer| outcome(answer.number) == wanted);
        let listed = (told.steps.len() <= 10).then(|| chains::list(&policy, &told.steps));
        let (refused_before, blocked_before) = (some(Outcome::Refused), some(Outcome::Blocked));
        Some(Known { policy, told, tags, listed, refused_before, blocked_before })
    }

    /// When each chain for the atom into the container arrives, of all that there are: behind its last step, 0 with no step.
    fn arrivals(&self, container: usize, atom: usize) -> Option<Vec<usize>> {
        let carried = match atom as u8 {
            data if data < DATA_ATOMS => Carried::Data(data),
            running => Carried::Running(running - DATA_ATOMS),
        };
        let into = chains::into(self.listed.as_ref()?, container, self.told.steps.len());
        let arrivals = into.filter(|chain| chain.carried == carried);
        Some(arrivals.map(|chain| chain.steps.last().map_or(0, |last| last + 1)).collect())
    }

    /// The promises of an answer: the container holds the atom exactly if there is a chain, what is told is one, and none arrives earlier.
    fn promised(&self, chain: Option<&Chain>, container: usize, atom: usize, c: &mut Counters) -> Difference {
        let held = self.tags[container] >> atom & 1 == 1;
        let good = chain.is_none_or(|chain| is_way(&self.policy, &self.told, chain, atom, container));
        let first = self.arrivals(container, atom).and_then(|arrivals| {
            let place = |record: &usize| self.told.records.iter().position(|other| other == record);
            let told = chain.map(|chain| chain.steps.last().and_then(place).map_or(0, |place| place + 1));
            let times: BTreeSet<&usize> = arrivals.iter().collect();
            c.add(CHAINS, "not the only one", u64::from(arrivals.len() > 1));
            c.add(CHAINS, "first of several that came at other times", u64::from(times.len() > 1));
            differ("when the chain arrives, and the first of all that are listed", told, arrivals.iter().min().copied())
        });
        self.count(chain, container, atom, c);
        differ("the container has the atom, and there is a chain", held, chain.is_some())
            .or_else(|| differ("what is told is a chain", good, true))
            .or(first)
    }

    fn count(&self, chain: Option<&Chain>, container: usize, atom: usize, c: &mut Counters) {
        let Some(chain) = chain else {
            c.count(CHAINS, "none");
            return;
        };
        let lengths = ["no step", "one step", "two steps", "three to five steps", "over five steps"];
        c.count(
            CHAINS,
            lengths[match chain.steps.len() {
                few @ 0..=2 => few,
                3..=5 => 3,
                _ => 4,
            }],
        );
        let last = self.told.last.filter(|last| outcome(last.number) == Outcome::Blocked);
        let again = self.told.steps.iter().any(|step| step.code >= 8 && step.o == container);
        for (word, reached) in [
            ("of a running atom", atom >= usize::from(DATA_ATOMS)),
            ("from a guarded file", self.policy.containers[chain.file].kind == image::Kind::Guarded),
            ("ends with a blocked record", last.is_some() && chain.steps.last() == self.told.records.last()),
            ("into a number taken again", again),
            ("behind a refused record", self.refused_before),
            ("behind a blocked record", self.blocked_before),
        ] {
            c.add(CHAINS, word, u64::from(reached));
        }
    }
}

/// The numbers behind the two pointers before a call: a refusal must leave them.
const BEFORE: (u64, u64) = (0x1234_5678, 0x8765_4321);

impl Explanation {
    /// Asks library and judge.
    fn ask(
        &self,
        bench: &mut Bench,
        known: Option<&Known>,
        container: usize,
        atom: usize,
        c: &mut Counters,
    ) -> Difference {
        let Question { image, trace, .. } = &self.question;
        let (mut links, links_before) = self.question.links();
        let (mut steps, mut judge_steps) = self.question.steps();
        let (mut file, mut first) = BEFORE;
        let (links_length, steps_length) = (links.length(), steps.length());
        // SAFETY: as `lent` says; the two numbers are ours.
        let number = unsafe {
            ffi::yaslaurel_explain(
                bench.image.pointer(),
                bench.image.length(),
                bench.record.pointer(),
                bench.record.length(),
                container,
                atom,
                links.pointer_mut(),
                links_length,
                steps.pointer_mut(),
                steps_length,
                &mut file,
                &mut first,
            )
        };
        let judged = witness::put_chain((image, trace), (container, atom), links.length(), &mut judge_steps, BEFORE);
        c.count(EXPLAIN, judged.number);
        let kept = self.question.links_kept_from(judged.number);
        let told = || {
            let chain = (number == 0 && file != NO_CHAIN).then(|| Chain {
                file: file as usize,
                steps: steps.content()[first as usize..].iter().map(|&step| step as usize).collect(),
            });
            known.filter(|_| number == 0).and_then(|known| known.promised(chain.as_ref(), container, atom, c))
        };
        differ("explain", (number, file, first), (judged.number, judged.file, judged.first))
            .or_else(|| differ_at("steps", steps.content(), &judge_steps))
            .or_else(|| differ_at("links that must stay", &links.content()[kept..], &links_before[kept..]))
            .or_else(|| guards_stand(&[&links, &steps]))
            .or_else(told)
            .or_else(|| self.safe(container, atom))
    }

    /// The safe interface.
    fn safe(&self, container: usize, atom: usize) -> Difference {
        let (Ok(number), Ok(wide)) = (u8::try_from(container), u32::try_from(atom)) else { return None };
        let Question { image, trace, .. } = &self.question;
        let safe = yaslaurel::explain(image, trace, number, wide).map_err(yaslaurel::Refusal::number);
        let safe = safe.map(|chain| chain.map(|chain| Chain { file: usize::from(chain.file), steps: chain.records }));
        differ("explain of the Rust interface", safe, witness::explain(image, trace, container, atom))
    }

    /// Every container and atom of a small question, unless it is refused.
    fn everything(&self) -> Vec<(usize, usize)> {
        let taken = self.all && self.question.more_links >= 0 && self.question.more_steps >= 0;
        let Some(policy) = image::read(&self.question.image).ok().filter(|_| taken) else { return vec![] };
        let named = self.question.trace.chunks_exact(RECORD).map(|bytes| usize::from(bytes[4]));
        let containers: BTreeSet<usize> = (0..policy.containers.len()).chain(named).collect();
        let atoms: BTreeSet<usize> = policy.containers.iter().filter_map(|c| c.atom).map(usize::from).collect();
        let twins = atoms.iter().flat_map(|&atom| [atom, atom + usize::from(DATA_ATOMS)]).collect::<Vec<_>>();
        containers.into_iter().flat_map(|container| twins.iter().map(move |&atom| (container, atom))).collect()
    }
}

impl Case for Explanation {
    fn run(&self, bench: &mut Bench, c: &mut Counters) -> Difference {
        bench.image.fill(&self.question.image);
        bench.record.fill(&self.question.trace);
        let known = Known::of(&self.question);
        let asked = [(self.container, self.atom)].into_iter().chain(self.everything());
        let mut found = None;
        for (container, atom) in asked {
            found = self.ask(bench, known.as_ref(), container, atom, c);
            if found.is_some() {
                found = found.map(|what| format!("container {container}, atom {atom}: {what}"));
                break;
            }
        }
        found
            .or_else(|| differ_at("the image itself", bench.image.content(), &self.question.image))
            .or_else(|| differ_at("the trace itself", bench.record.content(), &self.question.trace))
            .or_else(|| bench.guards())
    }

    fn simpler(&self) -> Vec<Box<dyn Case>> {
        let mut found = vec![];
        if self.all {
            found.push(Explanation { all: false, ..self.clone() });
            found.extend(self.everything().into_iter().map(|(container, atom)| Explanation {
                container,
                atom,
                all: false,
                ..self.clone()
            }));
        }
        found.extend(self.question.simpler().into_iter().map(|question| Explanation { question, ..self.clone() }));
        boxed(found)
    }

    fn show(&self) -> String {
        self.question.show() + &format!("container {}, atom {}\n", self.container, self.atom)
    }
}
