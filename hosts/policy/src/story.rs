//! Stories: a policy by names, and what happens under it.

use std::collections::{HashMap, HashSet};
use std::str;

use yaslaurel::{Kind, Mixture, Operation, Policy, PolicyError, Rule};

use crate::faults::Faults;
use crate::statement::{statement, Part, Statement};
use crate::{Holder, LineError, Step, Steps};

/// A story as it was read.
///
/// ```
/// use policy_text::Story;
/// let text = "source north\nsource south\npermit statement: south\nprocess job\nstep read job north\nstep write job statement\n";
/// let mut story = Story::read(text.as_bytes())?;
/// assert_eq!(story.policy().container_named("statement"), Some(2));
/// assert_eq!(story.steps().len(), 2);
/// let error = Story::read(b"source north\nfile statement permit none\n").unwrap_err();
/// assert_eq!(error.to_string(), "2: there is no rule `none`, expected one of a line above");
/// # Ok::<(), policy_text::LineError>(())
/// ```
#[derive(Clone, Debug)]
pub struct Story {
    policy: Policy,
    uids: Vec<(u32, u8)>,
    steps: Vec<Step>,
    holders: Vec<Holder>,
}

impl Story {
    /// Reads a story.
    ///
    /// # Errors
    ///
    /// The first line that is not as `docs/FORMATS.md` has it.
    pub fn read(text: &[u8]) -> Result<Story, LineError> {
        Story::read_all(text).map_err(|mut errors| errors.remove(0))
    }

    /// Reads a story to its end, also behind a line that is wrong.
    ///
    /// ```
    /// use policy_text::Story;
    /// let errors = Story::read_all(b"source north\nrule own = {sooth}\nfile a permit own\nprocces job\n").unwrap_err();
    /// assert_eq!(errors.iter().map(|error| error.line).collect::<Vec<_>>(), [2, 4]);
    /// ```
    ///
    /// # Errors
    ///
    /// Each line that is not as `docs/FORMATS.md` has it, at least one, but for those that may follow from one before: a line that names what a
    /// line at fault would have made, and one of which the same would be said again.
    pub fn read_all(text: &[u8]) -> Result<Story, Vec<LineError>> {
        let text = str::from_utf8(text).map_err(|error| {
            let line = text[..error.valid_up_to()].iter().filter(|byte| **byte == b'\n').count() + 1;
            vec![LineError { line, message: "found bytes that are no UTF-8, expected text".into() }]
        })?;
        let statements: Vec<_> = text.split('\n').map(statement).collect();
        let mut reader = Reader { carried: carried(&statements), ..Reader::default() };
        let mut faults = Faults::default();
        for ((place, line), found) in text.split('\n').enumerate().zip(statements) {
            reader.line = place + 1;
            match found.map(|found| found.map_or(Ok(()), |found| reader.take(found))) {
                Ok(Ok(())) => {}
                Ok(Err(message)) => faults.meaning(LineError { line: place + 1, message }, line),
                Err(message) => faults.grammar(LineError { line: place + 1, message }, line),
            }
        }
        match faults.told() {
            told if told.is_empty() => Ok(reader.story()),
            told => Err(told),
        }
    }

    /// The policy, for its image and its names.
    pub fn policy(&self) -> &Policy {
        &self.policy
    }

    /// The policy, for a caller that puts processes, users and files of its own behind those of the story. The numbers of
    /// the story stay; its steps may have given the same numbers to the containers that they make.
    pub fn policy_mut(&mut self) -> &mut Policy {
        &mut self.policy
    }

    /// The number of the user on whose behalf a user id of the system runs.
    pub fn user_of_uid(&self, uid: u32) -> Option<u8> {
        self.uids.iter().find(|(other, _)| *other == uid).map(|(_, user)| *user)
    }

    /// The user ids that the story names, each with the number of its user, in the order of the lines.
    pub fn uids(&self) -> &[(u32, u8)] {
        &self.uids
    }

    /// What happens, in the order of the lines.
    pub fn steps(&self) -> &[Step] {
        &self.steps
    }

    /// The operation records of the steps, one behind the other.
    pub fn trace(&self) -> Vec<u8> {
        self.steps.iter().flat_map(|step| step.operation.record()).collect()
    }

    /// All containers, those of the policy and then those that steps make, in the order in which they come.
    pub fn holders(&self) -> &[Holder] {
        &self.holders
    }
}

/// The sources that a file line carries.
fn carried(statements: &[Result<Option<Statement>, String>]) -> HashSet<String> {
    let sources = statements.iter().filter_map(|found| match found {
        Ok(Some(Statement::File { source, .. })) => source.clone(),
        _ => None,
    });
    sources.collect()
}

/// Where a rule is used.
#[derive(Clone, Copy)]
enum RuleUse {
    Permit(u8),
    Run(u8),
    User(u8),
}

/// What has been read so far.
#[derive(Default)]
struct Reader {
    /// The line that is read.
    line: usize,
    carried: HashSet<String>,
    policy: Policy,
    rules: HashMap<String, Rule>,
    /// The owner of a rule, by its name.
    owners: HashMap<String, u8>,
    /// Where a rule is used, by its name.
    uses: Vec<(RuleUse, String)>,
    /// The line of each source, rule, container, permit rule and user.
    lines: HashMap<(&'static str, String), usize>,
    uids: Vec<(u32, u8)>,
    steps: Vec<Step>,
    /// From the first step on.
    numbers: Option<Steps>,
}

impl Reader {
    fn story(self) -> Story {
        let numbers = self.numbers.unwrap_or_else(|| Steps::new(&self.policy));
        Story { policy: self.policy, uids: self.uids, steps: self.steps, holders: numbers.holders().to_vec() }
    }

    fn take(&mut self, statement: Statement) -> Result<(), String> {
        let first_step = self.steps.first().map(|step| step.line);
        match (statement, first_step) {
            (Statement::Step { operation, process, object, user }, _) => self.step(&operation, process, object, user),
            (_, Some(line)) => Err(format!("a step was at line {line}, expected only steps behind it")),
            (Statement::Source { name }, None) => self.source(&name),
            (Statement::Rule { name, mixtures }, None) => self.rule(name, mixtures.as_deref()),
            (Statement::Owner { rule, user }, None) => self.owner(&rule, &user),
            (Statement::File { name, guarded, source, permit, run }, None) => {
                self.file(&name, source, permit, run)?;
                let number = self.file_number(&name)?;
                self.policy.set_guarded(number, guarded).map_err(said)
            }
            (Statement::Permit { file, owner, mixtures }, None) => {
                let rule = self.rule_of(&mixtures)?;
                let owner = owner.map(|user| self.user_named(&user)).transpose()?;
                let number = self.file_number(&file)?;
                self.permit(number, &file, rule)?;
                self.policy.set_permit_owner(number, owner).map_err(said)
            }
            (Statement::Volatile { name }, None) => self.container(&name, Kind::Volatile),
            (Statement::Process { name }, None) => self.container(&name, Kind::Process),
            (Statement::User { name, rule, uid }, None) => self.user(&name, rule.as_deref(), uid),
        }
    }

    /// Notes the line of something that no other line may declare.
    fn declare(&mut self, what: &'static str, name: &str) -> Result<(), String> {
        match self.lines.insert((what, name.into()), self.line) {
            None => Ok(()),
            Some(line) => Err(format!("{what} `{name}` is there already, at line {line}, expected it once")),
        }
    }

    fn source(&mut self, name: &str) -> Result<(), String> {
        self.declare("the source", name)?;
        let source = self.policy.source(name).map_err(said)?;
        if self.carried.contains(name) {
            return Ok(());
        }
        // No file line carries it: it is itself the file of that name.
        let number = self.file_number(name)?;
        self.carry(number, name, source)
    }

    /// Lets a file carry a source.
    fn carry(&mut self, number: u8, file: &str, source: yaslaurel::Source) -> Result<(), String> {
        let (_, container) = self.policy.containers().nth(number.into()).expect("the number is that of a container");
        if let Some(other) = container.source {
            let other = self.policy.source_name(other);
            return Err(format!("the file `{file}` carries the source `{other}`, expected one source for a file"));
        }
        self.policy.set_source(number, source).map_err(said)
    }

    fn rule(&mut self, name: String, mixtures: Option<&[Vec<Part>]>) -> Result<(), String> {
        self.declare("the rule", &name)?;
        let rule = mixtures.map_or(Ok(Rule::unrestricted()), |mixtures| self.rule_of(mixtures))?;
        self.rules.insert(name, rule);
        Ok(())
    }

    /// Gives a rule an owner, at all its uses, above and below.
    fn owner(&mut self, rule: &str, user: &str) -> Result<(), String> {
        self.rule_named(rule)?;
        let owner = self.user_named(user)?;
        self.declare("the owner of", rule)?;
        self.owners.insert(rule.into(), owner);
        let uses: Vec<RuleUse> = self.uses.iter().filter(|(_, name)| name == rule).map(|(used, _)| *used).collect();
        uses.into_iter().try_for_each(|used| self.set_owner(used, owner))
    }

    fn set_owner(&mut self, used: RuleUse, owner: u8) -> Result<(), String> {
        let set = match used {
            RuleUse::Permit(file) => self.policy.set_permit_owner(file, Some(owner)),
            RuleUse::Run(file) => self.policy.set_run_owner(file, Some(owner)),
            RuleUse::User(user) => self.policy.set_user_rule_owner(user, Some(owner)),
        };
        set.map_err(said)
    }

    /// Notes that a rule is used by its name, and gives it its owner there.
    fn used(&mut self, used: RuleUse, rule: &str) -> Result<(), String> {
        self.uses.push((used, rule.into()));
        self.owners.get(rule).copied().map_or(Ok(()), |owner| self.set_owner(used, owner))
    }

    fn user_named(&self, name: &str) -> Result<u8, String> {
        let user = self.policy.user_named(name);
        user.ok_or_else(|| format!("there is no user `{name}`, expected one of a line above"))
    }

    fn rule_of(&self, mixtures: &[Vec<Part>]) -> Result<Rule, String> {
        let mixtures: Result<Vec<Mixture>, String> = mixtures.iter().map(|parts| self.mixture(parts)).collect();
        Rule::new(mixtures?).map_err(said)
    }

    fn mixture(&self, parts: &[Part]) -> Result<Mixture, String> {
        let mut mixture = Mixture::default();
        for part in parts {
            let source = self.source_named(&part.name)?;
            let one = if part.running { Mixture::default().running([source]) } else { Mixture::of([source]) };
            mixture = Mixture::from_bits(mixture.bits() | one.bits());
        }
        Ok(mixture)
    }

    fn source_named(&self, name: &str) -> Result<yaslaurel::Source, String> {
        let source = self.policy.source_named(name);
        source.ok_or_else(|| format!("there is no source `{name}`, expected one of a line above"))
    }

    fn rule_named(&self, name: &str) -> Result<Rule, String> {
        let rule = self.rules.get(name).cloned();
        rule.ok_or_else(|| format!("there is no rule `{name}`, expected one of a line above"))
    }

    /// The number of a file, which takes one if it has none yet.
    fn file_number(&mut self, name: &str) -> Result<u8, String> {
        let Some(number) = self.policy.container_named(name) else {
            self.lines.insert(("the container", name.into()), self.line);
            return self.policy.file(name).map_err(said);
        };
        let (_, container) = self.policy.containers().nth(number.into()).expect("the number is that of a container");
        if container.kind.is_file() {
            Ok(number)
        } else {
            Err(format!("`{name}` is a {}, expected a file", container.kind))
        }
    }

    fn file(
        &mut self,
        name: &str,
        source: Option<String>,
        permit: Option<String>,
        run: Option<String>,
    ) -> Result<(), String> {
        self.declare("the file", name)?;
        let number = self.file_number(name)?;
        if let Some(source) = source {
            let source = self.source_named(&source)?;
            self.carry(number, name, source)?;
        }
        if let Some(permit) = permit {
            let rule = self.rule_named(&permit)?;
            self.permit(number, name, rule)?;
            self.used(RuleUse::Permit(number), &permit)?;
        }
        if let Some(run) = run {
            let rule = self.rule_named(&run)?;
            self.policy.set_run_rule(number, rule).map_err(said)?;
            self.used(RuleUse::Run(number), &run)?;
        }
        Ok(())
    }

    fn permit(&mut self, number: u8, file: &str, rule: Rule) -> Result<(), String> {
        self.declare("the permit rule of", file)?;
        self.policy.set_permit_rule(number, rule).map_err(said)
    }

    fn container(&mut self, name: &str, kind: Kind) -> Result<(), String> {
        self.declare("the container", name)?;
        let added = if kind == Kind::Process { self.policy.process(name) } else { self.policy.volatile(name) };
        added.map(|_| ()).map_err(said)
    }

    fn user(&mut self, name: &str, rule: Option<&str>, uid: Option<u32>) -> Result<(), String> {
        self.declare("the user", name)?;
        let value = rule.map_or(Ok(Rule::unrestricted()), |rule| self.rule_named(rule))?;
        let number = self.policy.user(name, value).map_err(said)?;
        if let Some(rule) = rule {
            self.used(RuleUse::User(number), rule)?;
        }
        if let Some(uid) = uid {
            self.declare("the uid", &uid.to_string())?;
            self.uids.push((uid, number));
        }
        Ok(())
    }

    fn step(&mut self, word: &str, process: String, object: String, user: Option<String>) -> Result<(), String> {
        let number = match &user {
            None => None,
            Some(name) => Some(self.user_named(name)?),
        };
        let policy = &self.policy;
        let numbers = self.numbers.get_or_insert_with(|| Steps::new(policy));
        let operation: Operation = numbers.operation(word, &process, &object, number)?;
        self.steps.push(Step { line: self.line, operation, process, object, user });
        Ok(())
    }
}

/// What a policy does not take up, with what was expected.
fn said(error: PolicyError) -> String {
    format!("too many: {error}")
}
