//! How two policies differ, by names.

use std::collections::BTreeSet;

use yaslaurel::{Mixture, Policy, PolicyContainer, Refusal, Rule, Source};

/// A difference between two policies, the first and the second.
#[derive(Clone, Debug, PartialEq, Eq)]
pub enum Difference {
    /// Only one has it: what it is (`source`, `container`, `user`), its name, and whether it is the second.
    Only(&'static str, String, bool),
    /// Something about it differs: what and name, which property (`number`, `kind`, `source`, `owner of the permit rule`), as the first and as the second has it.
    Changed(&'static str, String, &'static str, String, String),
    /// The mixtures of a rule: what and name, which rule, those that the second has gained and those that it has lost.
    Mixtures(&'static str, String, &'static str, Vec<String>, Vec<String>),
}

/// A mixture by names, rising.
fn mixture_words(policy: &Policy, mixture: Mixture) -> String {
    let name = |source: Source| policy.source_name(source);
    let data = mixture.sources().map(name);
    let running = mixture.running_sources().map(|source| format!("run {}", name(source)));
    let names: BTreeSet<String> = data.chain(running).collect();
    format!("{{{}}}", names.into_iter().collect::<Vec<_>>().join(", "))
}

/// A rule with its owner.
struct Used {
    mixtures: BTreeSet<String>,
    owner: String,
}

impl Used {
    /// The rule at a place of a policy, whose rules are in normal form.
    fn new(policy: &Policy, place: Option<u16>) -> Used {
        let rule = place.map_or_else(Rule::unrestricted, |place| policy.rules()[usize::from(place)].clone());
        let owner = place.and_then(|place| policy.rule_owner(place));
        let mixtures = if rule.is_unrestricted() {
            BTreeSet::from(["everything".into()])
        } else {
            rule.mixtures().iter().map(|mixture| mixture_words(policy, *mixture)).collect()
        };
        Used { mixtures, owner: owner.map_or("nobody".into(), |owner| policy.user_name(owner)) }
    }
}

/// The comparison of two policies whose rules are in normal form.
struct Comparison<'a> {
    policies: [&'a Policy; 2],
    found: Vec<Difference>,
}

impl Comparison<'_> {
    /// A property, if it differs.
    fn compare(&mut self, what: &'static str, name: &str, property: &'static str, values: [String; 2]) {
        let [first, second] = values;
        if first != second {
            self.found.push(Difference::Changed(what, name.into(), property, first, second));
        }
    }

    /// A rule and its owner, if they differ.
    fn compare_rules(&mut self, what: &'static str, name: &str, rule: [&'static str; 2], places: [Option<u16>; 2]) {
        let [first, second] = [0, 1].map(|k| Used::new(self.policies[k], places[k]));
        if first.mixtures != second.mixtures {
            let gained = second.mixtures.difference(&first.mixtures).cloned().collect();
            let lost = first.mixtures.difference(&second.mixtures).cloned().collect();
            self.found.push(Difference::Mixtures(what, name.into(), rule[0], gained, lost));
        }
        self.compare(what, name, rule[1], [first.owner, second.owner]);
    }

    /// The names that both have, with their numbers; those that one has alone are noted.
    fn common(&mut self, what: &'static str, names: [Vec<(usize, String)>; 2]) -> Vec<(String, [usize; 2])> {
        let number = |k: usize, name: &str| names[k].iter().find(|(_, other)| other == name).map(|(number, _)| *number);
        let mut common = Vec::new();
        for (first, name) in &names[0] {
            match number(1, name) {
                Some(second) => common.push((name.clone(), [*first, second])),
                None => self.found.push(Difference::Only(what, name.clone(), false)),
            }
        }
        let new = names[1].iter().filter(|(_, name)| number(0, name).is_none());
        self.found.extend(new.map(|(_, name)| Difference::Only(what, name.clone(), true)));
        for (name, numbers) in &common {
            self.compare(what, name, "number", numbers.map(|number| number.to_string()));
        }
        common
    }

    /// The sources that a file or a rule of one of the two names; the others are no part of an image.
    fn sources(&mut self, given: [&Policy; 2]) {
        let used = |name: &str| self.policies.iter().any(|policy| policy.source_named(name).is_some());
        let named = given.map(|policy| {
            let names = policy.source_names().map(String::from).enumerate();
            names.filter(|(_, name)| used(name)).collect::<Vec<_>>()
        });
        self.common("source", named);
    }

    /// The containers with their kinds, sources and rules.
    fn containers(&mut self) {
        let policies = self.policies;
        let names = policies.map(|policy| policy.containers().map(|(name, _)| name.to_string()).enumerate().collect());
        for (name, places) in self.common("container", names) {
            let found = [0, 1].map(|k| policies[k].containers().nth(places[k]).expect("its place").1);
            let source = |k: usize| found[k].source.map_or("none".into(), |source| policies[k].source_name(source));
            self.compare(
                "container",
                &name,
                "kind",
                found.map(|container: PolicyContainer| container.kind.to_string()),
            );
            self.compare("container", &name, "source", [source(0), source(1)]);
            let permit = ["permit rule", "owner of the permit rule"];
            self.compare_rules("container", &name, permit, found.map(|container| container.permit));
            let run = ["run rule", "owner of the run rule"];
            self.compare_rules("container", &name, run, found.map(|container| container.run));
        }
    }

    /// The users with their rules.
    fn users(&mut self) {
        let policies = self.policies;
        let names = policies.map(|policy| policy.users().map(|(name, _)| name.to_string()).enumerate().collect());
        for (name, places) in self.common("user", names) {
            let rules = [0, 1].map(|k| policies[k].users().nth(places[k]).expect("its place").1);
            self.compare_rules("user", &name, ["rule", "owner of the rule"], rules);
        }
    }
}

/// A policy with its rules in normal form, by the proved [`yaslaurel::normalise`], under the same names.
fn normal(policy: &Policy) -> Result<Policy, Refusal> {
    let mut normal = Policy::from_image(&yaslaurel::normalise(&policy.image())?)?;
    let taken = "names of a policy differ";
    let sources = normal.source_names().len();
    // First out of the way of the names that an image's policy has.
    for round in ["\u{0}", ""] {
        for (atom, name) in policy.source_names().enumerate().take(sources) {
            let source = Source::from_atom(atom as u32).expect("at most 32");
            normal.rename_source(source, &format!("{round}{name}")).expect(taken);
        }
        for (number, (name, _)) in policy.containers().enumerate() {
            normal.rename_container(number as u8, &format!("{round}{name}")).expect(taken);
        }
        for (number, (name, _)) in policy.users().enumerate() {
            normal.rename_user(number as u8, &format!("{round}{name}")).expect(taken);
        }
    }
    Ok(normal)
}

/// The differences of two policies by names: sources, containers, users, and of each rule in normal form the mixtures gained and lost. Whether the two
/// have the same normal image is for the proved [`yaslaurel::normalise`] to say; where they have the same names for the same numbers, there is no
/// difference exactly then.
///
/// ```
/// use analysis::{differences, Difference};
/// use yaslaurel::{Mixture, Policy};
/// let mut first = Policy::new();
/// let (north, file) = (first.source("north")?, first.file("statement")?);
/// first.set_permit_rule(file, Mixture::of([north]))?;
/// let mut second = first.clone();
/// assert_eq!(differences(&first, &second)?, []);
/// second.set_permit_rule(file, Mixture::of([]))?;
/// let lost = Difference::Mixtures("container", "statement".into(), "permit rule", vec!["{}".into()], vec!["{north}".into()]);
/// assert_eq!(differences(&first, &second)?, [lost]);
/// # Ok::<(), Box<dyn std::error::Error>>(())
/// ```
///
/// # Errors
///
/// A refusal of a policy's image, of which there is none for a policy.
pub fn differences(first: &Policy, second: &Policy) -> Result<Vec<Difference>, Refusal> {
    let normal = [normal(first)?, normal(second)?];
    let mut comparison = Comparison { policies: [&normal[0], &normal[1]], found: Vec::new() };
    comparison.sources([first, second]);
    comparison.containers();
    comparison.users();
    Ok(comparison.found)
}
