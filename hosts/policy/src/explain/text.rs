//! An explanation as lines of text.

use std::fmt;

use super::{ChainTold, Explanation, From, Hop, MixtureTold, RuleTold};

impl Explanation {
    /// The lines under that of the access: the rule, then each chain.
    #[must_use]
    pub fn lines(&self) -> Vec<String> {
        let rule = format!("{} {}", self.rule.subject(), self.permits());
        let chains = self.chains.iter().map(|chain| format!("{} came by {}", chain.atom, chain.way()));
        std::iter::once(rule).chain(chains).collect()
    }

    pub(super) fn answer(&self) -> &'static str {
        if self.blocked {
            "blocked"
        } else {
            "alert"
        }
    }

    /// What the rule permits, and what its mixtures lack.
    fn permits(&self) -> String {
        let lacks = |mixture: &MixtureTold| mixture.lacks.clone();
        let also = self.also.join(", ");
        let and = if also.is_empty() { String::new() } else { format!(" (and {also})") };
        match &self.mixtures[..] {
            [] => "permits nothing at all".into(),
            [mixture] => format!("permits {}: it lacks {}{and}", mixture.braced(), mixture.lacks),
            [first, rest @ ..] if rest.iter().all(|mixture| mixture.lacks == first.lacks) => {
                let each: Vec<String> = self.mixtures.iter().map(MixtureTold::braced).collect();
                format!("permits {}: each lacks {}{and}", each.join(" or "), lacks(first))
            }
            mixtures => {
                let each = mixtures.iter().map(|mixture| format!("{} (lacks {})", mixture.braced(), mixture.lacks));
                let none = if also.is_empty() { String::new() } else { format!("; none has {also}") };
                format!("permits {}{none}", each.collect::<Vec<_>>().join(" or "))
            }
        }
    }
}

/// The explanation as `policy explain` prints it.
impl fmt::Display for Explanation {
    fn fmt(&self, f: &mut fmt::Formatter<'_>) -> fmt::Result {
        writeln!(f, "{}, step {}: {}", self.answer(), self.step, self.head)?;
        self.lines().iter().try_for_each(|line| writeln!(f, "  {line}"))
    }
}

impl MixtureTold {
    fn braced(&self) -> String {
        format!("{{{}}}", self.atoms.join(", "))
    }
}

impl RuleTold {
    /// The rule as the subject of its line.
    fn subject(&self) -> String {
        let (words, clause) = self.words();
        match &self.owner {
            Some(owner) => format!("{words}, set by {owner},"),
            None if clause => format!("{words},"),
            None => words,
        }
    }

    /// The rule and where it comes from, and whether that is a clause which a comma ends.
    pub(super) fn words(&self) -> (String, bool) {
        let by = |by: &Option<String>| by.as_ref().map_or_else(String::new, |name| format!(" by {name}"));
        match &self.from {
            From::Own => ("its own permit rule".into(), false),
            // `record` makes a file under a name of the story for a user who has the rule, called so.
            From::Made { step, user } => match user.strip_prefix("rule of ") {
                Some(file) => (format!("the rule of {file}, under whose name it was made (step {step})"), true),
                None => (format!("the rule of the user {user}, for whom it was made (step {step})"), true),
            },
            From::User { step, user, by: process } => {
                let by = if process.is_some() { format!(",{}", by(process)) } else { String::new() };
                (format!("the rule of the user {user}, for whom it runs (step {step}{by})"), true)
            }
            From::Unknown(origin) => (format!("a rule of unknown origin, {origin}"), true),
            From::Run { step, by: process, chain } => {
                let (file, by) = (&chain.begins.name, by(process));
                if chain.hops.is_empty() {
                    (format!("the run rule of {file} (executed in step {step}{by})"), false)
                } else {
                    let way = chain.way();
                    (format!("the run rule of {file}, which came by {way}, executed in step {step}{by}"), true)
                }
            }
        }
    }
}

impl ChainTold {
    /// The file where it begins, and each container that it leads to.
    fn way(&self) -> String {
        if self.hops.is_empty() {
            return format!("{} (there from the start)", self.begins.name);
        }
        let hops: String = self.hops.iter().map(|hop| format!(" -> {hop}")).collect();
        format!("{}{hops}", self.begins.name)
    }
}

impl fmt::Display for Hop {
    fn fmt(&self, f: &mut fmt::Formatter<'_>) -> fmt::Result {
        let blocked = if self.blocked { ", blocked" } else { "" };
        write!(f, "{} (step {}, {}{blocked})", self.to.name, self.step, self.verb)
    }
}
