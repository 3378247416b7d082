//! Answers to questions about policies, in words and as JSON.

use analysis::{Chain, Difference, Finding, Item, Never, NotQuiet};
use yaslaurel::{Policy, Verdict};

use crate::explain::spelled;
use crate::names::FolderNames;
use crate::quoted;
use crate::trim::words;

/// A question with its answer.
///
/// ```
/// use policy_text::{Asking, Story};
/// let story = Story::read(b"source north\npermit statement: north\nprocess job\n")?;
/// let policy = story.policy();
/// let item = analysis::Item { source: policy.source_named("north").unwrap(), running: false };
/// let found = analysis::ask(policy, item, 1, analysis::STEP_LIMIT).unwrap();
/// let text = "may north reach statement: quietly, in 2 steps\n  1 read job north: quiet\n  2 write job statement: quiet\n";
/// assert_eq!(Asking { policy, item, container: 1, found: &found }.words(), text);
/// # Ok::<(), policy_text::LineError>(())
/// ```
#[derive(Clone, Copy, Debug)]
pub struct Asking<'a> {
    /// The policy.
    pub policy: &'a Policy,
    /// What is asked for.
    pub item: Item,
    /// Where it may come.
    pub container: u8,
    /// The answer.
    pub found: &'a Finding,
}

/// `1 step`, `2 steps`.
fn steps(count: usize) -> String {
    format!("{count} step{}", if count == 1 { "" } else { "s" })
}

impl Asking<'_> {
    /// The source, as a story spells it in a mixture.
    fn item(&self) -> String {
        let name = quoted(&self.policy.source_name(self.item.source));
        if self.item.running {
            format!("run {name}")
        } else {
            name
        }
    }

    /// The name of the container.
    fn container(&self) -> String {
        quoted(&self.policy.container_name(self.container))
    }

    /// Why it never comes there, or not without an alert.
    fn reason(&self) -> Option<String> {
        let (item, container) = (self.item(), self.container());
        let source = quoted(&self.policy.source_name(self.item.source));
        Some(match self.found {
            Finding::Never(Never::NoCarrier) => format!("no file carries {source}"),
            Finding::Never(Never::NoProcess) => "the policy has no process".into(),
            Finding::Never(Never::NoUser) => "the policy has no user, and nothing is executed without one".into(),
            Finding::Never(Never::Guarded) => {
                format!("{container} is guarded, and no mixture of its permit rule has {item}")
            }
            Finding::OnlyWithAlert(NotQuiet::Permit, _) => {
                format!("no mixture of the permit rule of {container} has {item}")
            }
            Finding::OnlyWithAlert(NotQuiet::User, _) => format!("no mixture of a user's rule has {item}"),
            Finding::OnlyWithAlert(NotQuiet::Run, _) => {
                format!("neither has a run rule of a file that carries {source} a mixture with {item}, nor a user's rule one with {source}")
            }
            Finding::Quietly(_) | Finding::NotFound(..) => return None,
        })
    }

    /// The chain that is shown.
    fn chain(&self) -> Option<&Chain> {
        match self.found {
            Finding::Never(_) | Finding::NotFound(_, None) => None,
            Finding::Quietly(chain) | Finding::OnlyWithAlert(_, chain) | Finding::NotFound(_, Some(chain)) => {
                Some(chain)
            }
        }
    }

    /// Each step of the chain in the words of a story, with the verdict of the monitor.
    fn told(&self) -> Vec<(String, &'static str)> {
        let mut names = FolderNames::new(self.policy, &[]);
        let steps = self.chain().map_or(&[][..], |chain| &chain.steps[..]);
        let told = steps.iter().enumerate().map(|(place, (operation, answer))| {
            names.accepted(place + 1, *operation);
            let verdict = if answer.verdict == Verdict::Alert { "alert" } else { "quiet" };
            (words(self.policy, names.names(), place + 1, *operation), verdict)
        });
        told.collect()
    }

    /// The question and its answer in a line.
    #[must_use]
    pub fn line(&self) -> String {
        let answer = match self.found {
            Finding::Never(_) => "never".into(),
            Finding::Quietly(chain) if chain.steps.is_empty() => "quietly, from the start".into(),
            Finding::Quietly(chain) => format!("quietly, in {}", steps(chain.steps.len())),
            Finding::OnlyWithAlert(_, chain) => format!("only with an alert, in {}", steps(chain.steps.len())),
            Finding::NotFound(limit, None) => format!("not found within {}", steps(*limit)),
            Finding::NotFound(limit, Some(chain)) => {
                format!("not found quietly within {}; with an alert, in {}", steps(*limit), steps(chain.steps.len()))
            }
        };
        let reason = self.reason().map_or_else(String::new, |reason| format!(": {reason}"));
        format!("may {} reach {}: {answer}{reason}\n", self.item(), self.container())
    }

    /// The line, and one for each step of the chain.
    #[must_use]
    pub fn words(&self) -> String {
        let told = self.told().into_iter().enumerate();
        let told = told.map(|(place, (words, verdict))| format!("  {} {words}: {verdict}\n", place + 1));
        self.line() + &told.collect::<String>()
    }

    /// An object of JSON in a line.
    #[must_use]
    pub fn json(&self) -> String {
        let answer = match self.found {
            Finding::Never(_) => "never",
            Finding::Quietly(_) => "quietly",
            Finding::OnlyWithAlert(..) => "only with an alert",
            Finding::NotFound(..) => "not found",
        };
        let told = self.told().into_iter();
        let told =
            told.map(|(words, verdict)| format!("{{\"step\": {}, \"verdict\": \"{verdict}\"}}", spelled(&words)));
        format!(
            "{{\"item\": {}, \"container\": {}, \"answer\": \"{answer}\", \"reason\": {}, \"steps\": [{}]}}\n",
            spelled(&self.item()),
            spelled(&self.container()),
            self.reason().map_or("null".into(), |reason| spelled(&reason)),
            told.collect::<Vec<_>>().join(", ")
        )
    }
}

/// A difference of two policies in a line.
#[must_use]
pub fn difference_words(difference: &Difference) -> String {
    match difference {
        Difference::Only(what, name, second) => {
            format!("{what} {}: {}\n", quoted(name), if *second { "gained" } else { "lost" })
        }
        Difference::Changed(what, name, property, first, second) => {
            format!("{what} {}: {property} {first}, then {second}\n", quoted(name))
        }
        Difference::Mixtures(what, name, rule, gained, lost) => {
            let parts = [("gains", gained), ("loses", lost)].map(|(word, mixtures)| match &mixtures[..] {
                [] => String::new(),
                mixtures => format!(" {word} {}", mixtures.join(" ")),
            });
            let none = if gained.is_empty() && lost.is_empty() { " differs" } else { "" };
            format!("{what} {}: {rule}{}{}{none}\n", quoted(name), parts[0], parts[1])
        }
    }
}

/// A difference of two policies as an object of JSON in a line.
#[must_use]
pub fn difference_json(difference: &Difference) -> String {
    let list =
        |texts: &[String]| format!("[{}]", texts.iter().map(|text| spelled(text)).collect::<Vec<_>>().join(", "));
    let (what, name, fields) = match difference {
        Difference::Only(what, name, second) => {
            (what, name, format!("\"in\": \"{}\"", if *second { "second" } else { "first" }))
        }
        Difference::Changed(what, name, property, first, second) => {
            let fields =
                format!("\"property\": \"{property}\", \"first\": {}, \"second\": {}", spelled(first), spelled(second));
            (what, name, fields)
        }
        Difference::Mixtures(what, name, rule, gained, lost) => {
            (what, name, format!("\"property\": \"{rule}\", \"gained\": {}, \"lost\": {}", list(gained), list(lost)))
        }
    };
    format!("{{\"what\": \"{what}\", \"name\": {}, {fields}}}\n", spelled(name))
}
