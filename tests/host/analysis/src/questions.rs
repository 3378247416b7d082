//! May a source come into a container: the answers of hosts/analysis against brute force.

use std::collections::BTreeMap;

use analysis::{ask, Chain, Finding, Item, STEP_LIMIT};
use judge::numbers::{container_row, ROW_TAG, SESSION};
use judge::session::{outcome, start, step, Outcome};
use yaslaurel::{Mixture, Policy, Rule, Source};

use crate::brute::{reached, Reached};
use crate::random::Random;

/// How far brute force looks.
const DEPTH: usize = 7;

/// Among so many questions rare answers are expected too.
const MANY: usize = 5_000;

/// One or two, and nothing in so many of a hundred cases.
fn count(random: &mut Random, percent: usize) -> usize {
    if random.percent(percent) {
        0
    } else {
        random.between(1, 2)
    }
}

/// A rule of up to two mixtures, so that no meet has over eight; or the unrestricted one.
pub fn rule(random: &mut Random, sources: &[Source]) -> Rule {
    if random.percent(25) {
        return Rule::unrestricted();
    }
    let mixtures: Vec<Mixture> = (0..count(random, 8))
        .map(|_| {
            let data: Vec<Source> = sources.iter().copied().filter(|_| random.percent(50)).collect();
            let running: Vec<Source> = sources.iter().copied().filter(|_| random.percent(50)).collect();
            Mixture::of(data).running(running)
        })
        .collect();
    Rule::new(mixtures).expect("at most two")
}

/// A small policy; most have one source, so that brute force comes far.
pub fn policy(random: &mut Random) -> Policy {
    let mut policy = Policy::new();
    let most = if random.percent(80) { 1 } else { 2 };
    let sources: Vec<Source> = (0..most).map(|k| policy.source(&format!("s{k}")).expect("few")).collect();
    for k in 0..random.between(1, most + 1) {
        let file = policy.file(&format!("f{k}")).expect("few");
        if k == 0 && random.percent(90) || random.percent(40) {
            policy.set_source(file, random.pick(&sources)).expect("a file");
        }
        policy.set_permit_rule(file, rule(random, &sources)).expect("few");
        policy.set_run_rule(file, rule(random, &sources)).expect("few");
        policy.set_guarded(file, random.percent(20)).expect("a file");
    }
    for k in 0..count(random, 4) {
        policy.process(&format!("p{k}")).expect("few");
    }
    if random.percent(10) {
        policy.volatile("v").expect("few");
    }
    for k in 0..count(random, 6) {
        let rule = rule(random, &sources);
        policy.user(&format!("u{k}"), rule).expect("few");
    }
    policy
}

/// Runs a chain through the judge: whether all steps are accepted, whether all are quiet, and whether the atom is in the container then.
fn replayed(image: &[u8], chain: &Chain, container: u8, atom: u32) -> (bool, bool, bool) {
    let mut session = vec![0; SESSION];
    assert_eq!(start(image, &mut session), 0, "the judge accepts the image");
    let answers: Vec<Outcome> =
        chain.steps.iter().map(|(operation, _)| outcome(step(&mut session, &operation.record()).number)).collect();
    let held = session[container_row(container.into())][ROW_TAG] >> atom & 1 == 1;
    let accepted = answers.iter().all(|answer| matches!(answer, Outcome::Quiet | Outcome::Alert));
    (accepted, answers.iter().all(|answer| *answer == Outcome::Quiet), held)
}

/// What brute force says of the fewest steps: that they are these, as far as it looked.
fn fewest(found: &Reached, container: u8, atom: u32, steps: Option<usize>) -> bool {
    let looked = found.steps(container, atom);
    match steps {
        Some(steps) if steps <= found.depth => looked == Some(steps),
        _ => looked.is_none(),
    }
}

/// A policy with what brute force finds under it.
struct Case {
    policy: Policy,
    image: Vec<u8>,
    quiet: Reached,
    any: Reached,
}

impl Case {
    /// A random policy, and all its sessions up to a number of them.
    fn new(random: &mut Random, most: usize) -> Case {
        let policy = policy(random);
        let image = policy.image();
        let (containers, users) = (policy.containers().len(), policy.users().len());
        let quiet = reached(&image, containers, users, true, DEPTH, most);
        let any = reached(&image, containers, users, false, DEPTH, most / 4);
        Case { policy, image, quiet, any }
    }

    /// Whether a question has an answer if chains may be longer: no meet of a small policy is too large, and its numbers suffice.
    fn decided(&self, item: Item, container: u8) -> bool {
        let found = ask(&self.policy, item, container, STEP_LIMIT).expect("a policy's image is accepted");
        !matches!(found, Finding::NotFound(..))
    }

    /// Whether the answer to one question is right, and a word for its kind.
    fn right(&self, item: Item, container: u8, limit: usize) -> (bool, String) {
        let atom = if item.running { item.source.running_atom() } else { item.source.atom() };
        let found = ask(&self.policy, item, container, limit).expect("a policy's image is accepted");
        let run = |chain: &Chain| replayed(&self.image, chain, container, atom);
        let none = |reached: &Reached, limit: usize| reached.steps(container, atom).map_or(true, |steps| steps > limit);
        match &found {
            Finding::Never(_) => (none(&self.any, usize::MAX), "never".into()),
            Finding::Quietly(chain) => {
                let steps = chain.steps.len();
                let right = run(chain) == (true, true, true) && fewest(&self.quiet, container, atom, Some(steps));
                (right && steps <= limit, format!("quietly {steps}"))
            }
            Finding::OnlyWithAlert(_, chain) => {
                let steps = chain.steps.len();
                let right = run(chain) == (true, false, true) && fewest(&self.any, container, atom, Some(steps));
                (right && steps <= limit && none(&self.quiet, usize::MAX), format!("alert {steps}"))
            }
            Finding::NotFound(told, None) => {
                let right = none(&self.any, limit) && none(&self.quiet, limit) && self.decided(item, container);
                (right && *told == limit, "not found".into())
            }
            Finding::NotFound(told, Some(chain)) => {
                let steps = chain.steps.len();
                let right = run(chain) == (true, false, true) && fewest(&self.any, container, atom, Some(steps));
                let right = right && none(&self.quiet, limit) && self.decided(item, container);
                (right && *told == limit, "not found quietly".into())
            }
        }
    }
}

/// Asks so many random questions, and says how many answers are wrong and how many there were of each kind.
pub fn run(seed: u64, count: usize, most: usize) -> bool {
    let mut random = Random::new(seed);
    let (mut asked, mut wrong, mut kinds, mut deep) = (0, 0, BTreeMap::new(), 0);
    while asked < count {
        let case = Case::new(&mut random, most);
        deep += usize::from(case.quiet.depth >= 5);
        for container in 0..case.policy.containers().len() as u8 {
            for (source, running) in (0..case.policy.source_names().len()).flat_map(|k| [(k, false), (k, true)]) {
                let item = Item { source: Source::from_atom(source as u32).expect("few"), running };
                let limit = if random.percent(25) { random.between(1, 6) } else { STEP_LIMIT };
                let (right, kind) = case.right(item, container, limit);
                asked += 1;
                *kinds.entry(kind.clone()).or_insert(0) += 1;
                if !right {
                    wrong += 1;
                    println!("wrong: {kind}, atom {source}, running {running}, container {container}, limit {limit}");
                    println!(
                        "  brute force to {} and {}: {:?} quiet, {:?} at all",
                        case.quiet.depth,
                        case.any.depth,
                        case.quiet.steps(container, source as u32 + 32 * u32::from(running)),
                        case.any.steps(container, source as u32 + 32 * u32::from(running))
                    );
                    println!("  {:?}", case.policy);
                }
            }
        }
    }
    println!("{asked} questions, {wrong} wrong; brute force to 5 steps and more under {deep} policies; {kinds:?}");
    let mut wanted = vec!["never", "quietly 1", "quietly 2", "quietly 5", "alert 1", "alert 2", "not found"];
    if count >= MANY {
        wanted.extend(["quietly 4", "quietly 6", "quietly 7"]);
    }
    let missing: Vec<_> = wanted.iter().filter(|kind| !kinds.contains_key(**kind)).collect();
    if !missing.is_empty() {
        println!("no question was answered so: {missing:?}");
    }
    wrong == 0 && missing.is_empty()
}
