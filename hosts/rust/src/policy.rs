//! A policy with names: written by its methods or read from an image.

use std::error::Error;
use std::fmt;

use crate::layout::{atom, image};
use crate::{check, Kind, Mixture, Refusal, Rule, Source};

/// A policy in the making, with a name for each source, container and user. It gives the image that starts a session, and
/// the names for messages.
///
/// ```
/// use yaslaurel::{Mixture, Operation, Policy, Rule, Session, Verdict};
/// let mut policy = Policy::new();
/// let north = policy.source("north")?;
/// let south = policy.source("south")?;
/// let positions = policy.file("north.positions")?;
/// policy.set_source(positions, north)?;
/// let statement = policy.file("south.statement")?;
/// policy.set_permit_rule(statement, Mixture::of([south]))?;
/// let job = policy.process("job")?;
/// policy.user("clearing", Rule::unrestricted())?;
///
/// let mut session = Session::start(&policy.image())?;
/// let quiet = session.perform(Operation::Read { process: job, object: positions })?;
/// assert_eq!(quiet.verdict, Verdict::Quiet);
/// let alert = session.perform(Operation::Write { process: job, object: statement })?;
/// assert_eq!(alert.verdict, Verdict::Alert);
/// assert_eq!(policy.container_name(alert.receiver), "south.statement");
/// assert_eq!(policy.sources_in(alert.tag), "north");
/// # Ok::<(), Box<dyn std::error::Error>>(())
/// ```
#[derive(Clone, Debug, Default, PartialEq, Eq)]
pub struct Policy {
    sources: Names,
    container_names: Names,
    containers: Vec<PolicyContainer>,
    user_names: Names,
    users: Vec<Option<u16>>,
    /// The different rules that are used, but for the unrestricted one without an owner. Two equal ones with different owners
    /// are different.
    rules: Vec<Rule>,
    /// The owner of each.
    owners: Vec<Option<u8>>,
}

/// A container as a policy declares it. A rule is its place in [`Policy::rules`], or nothing for the unrestricted one that nobody
/// owns.
#[derive(Clone, Copy, Debug, PartialEq, Eq)]
#[non_exhaustive]
pub struct PolicyContainer {
    /// Its kind.
    pub kind: Kind,
    /// The source that a file carries at the start.
    pub source: Option<Source>,
    /// What a file may hold.
    pub permit: Option<u16>,
    /// What a process may hold that runs the file.
    pub run: Option<u16>,
}

/// Why a policy does not take something up. The policy stays as it was.
#[derive(Clone, Debug, PartialEq, Eq)]
#[non_exhaustive]
pub enum PolicyError {
    /// A source, container or user of this name is there already.
    NameTaken(String),
    /// Over 32 sources.
    TooManySources,
    /// Over 256 containers.
    TooManyContainers,
    /// Over 16 users.
    TooManyUsers,
    /// Over 256 different rules.
    TooManyRules,
    /// A rule of over 8 different mixtures.
    TooManyMixtures,
    /// The container of this number has neither a source nor rules: it is no file.
    NotAFile(u8),
    /// There is nothing of this number.
    NotThere(u8),
}

impl fmt::Display for PolicyError {
    fn fmt(&self, f: &mut fmt::Formatter<'_>) -> fmt::Result {
        match self {
            PolicyError::NameTaken(name) => write!(f, "{name} is there already"),
            PolicyError::TooManySources => write!(f, "a policy has at most {} sources", atom::RUNNING),
            PolicyError::TooManyContainers => write!(f, "a policy has at most {} containers", image::CONTAINERS.most),
            PolicyError::TooManyUsers => write!(f, "a policy has at most {} users", image::USERS.most),
            PolicyError::TooManyRules => write!(f, "a policy has at most {} different rules", image::RULES.most),
            PolicyError::TooManyMixtures => {
                write!(f, "a rule has at most {} mixtures", crate::layout::session::RULE_MIXTURES)
            }
            PolicyError::NotAFile(number) => write!(f, "container {number} is no file"),
            PolicyError::NotThere(number) => write!(f, "the policy has no number {number}"),
        }
    }
}

impl Error for PolicyError {}

/// Where a rule is used: by a file, as one of its two rules, or by a user.
#[derive(Clone, Copy)]
enum Used {
    Permit(u8),
    Run(u8),
    User(u8),
}

/// Names of which no two are equal.
#[derive(Clone, Debug, Default, PartialEq, Eq)]
struct Names(Vec<String>);

impl Names {
    /// Puts a name behind the others and gives its place.
    fn add(&mut self, name: &str, most: usize, over: PolicyError) -> Result<u8, PolicyError> {
        if self.place(name).is_some() {
            return Err(PolicyError::NameTaken(name.into()));
        }
        if self.0.len() >= most {
            return Err(over);
        }
        self.0.push(name.into());
        Ok((self.0.len() - 1) as u8)
    }

    fn rename(&mut self, place: u8, name: &str) -> Result<(), PolicyError> {
        if self.place(name).is_some_and(|other| other != place) {
            return Err(PolicyError::NameTaken(name.into()));
        }
        *self.0.get_mut(usize::from(place)).ok_or(PolicyError::NotThere(place))? = name.into();
        Ok(())
    }

    fn place(&self, name: &str) -> Option<u8> {
        self.0.iter().position(|other| other == name).map(|place| place as u8)
    }

    /// The name at a place, or a word with the place.
    fn at(&self, place: u8, word: &str) -> String {
        self.0.get(usize::from(place)).cloned().unwrap_or_else(|| format!("{word} {place}"))
    }

    fn iter(&self) -> impl ExactSizeIterator<Item = &str> {
        self.0.iter().map(String::as_str)
    }
}

impl Policy {
    /// A policy without anything.
    #[must_use]
    pub fn new() -> Policy {
        Policy::default()
    }

    /// Adds a source. The first has data atom 0, the next one 1 and so on.
    ///
    /// # Errors
    ///
    /// [`PolicyError::NameTaken`] by another source, or [`PolicyError::TooManySources`].
    pub fn source(&mut self, name: &str) -> Result<Source, PolicyError> {
        let place = self.sources.add(name, atom::RUNNING as usize, PolicyError::TooManySources)?;
        Ok(Source::from_atom(u32::from(place)).expect("there are no more than 32"))
    }

    /// Adds a file that carries no source and is unrestricted, and gives its number. Containers are numbered from 0.
    ///
    /// # Errors
    ///
    /// [`PolicyError::NameTaken`] by another container, or [`PolicyError::TooManyContainers`].
    pub fn file(&mut self, name: &str) -> Result<u8, PolicyError> {
        self.add_container(name, Kind::File)
    }

    /// Adds a volatile, and gives its number.
    ///
    /// # Errors
    ///
    /// As [`file`](Policy::file).
    pub fn volatile(&mut self, name: &str) -> Result<u8, PolicyError> {
        self.add_container(name, Kind::Volatile)
    }

    /// Adds a process, and gives its number.
    ///
    /// # Errors
    ///
    /// As [`file`](Policy::file).
    pub fn process(&mut self, name: &str) -> Result<u8, PolicyError> {
        self.add_container(name, Kind::Process)
    }

    fn add_container(&mut self, name: &str, kind: Kind) -> Result<u8, PolicyError> {
        let number = self.container_names.add(name, image::CONTAINERS.most, PolicyError::TooManyContainers)?;
        self.containers.push(PolicyContainer { kind, source: None, permit: None, run: None });
        Ok(number)
    }

    /// Adds a user with the rule that programs started for the user keep, and gives the user's number. Users are numbered
    /// from 0.
    ///
    /// # Errors
    ///
    /// [`PolicyError::NameTaken`] by another user, [`PolicyError::TooManyUsers`], or [`PolicyError::TooManyRules`].
    pub fn user(&mut self, name: &str, rule: impl Into<Rule>) -> Result<u8, PolicyError> {
        let number = self.user_names.add(name, image::USERS.most, PolicyError::TooManyUsers)?;
        self.users.push(None);
        let set = self.set_use(Used::User(number), rule.into(), None);
        if set.is_err() {
            self.user_names.0.pop();
            self.users.pop();
        }
        set.map(|()| number)
    }

    /// Lets a file carry a source at the start. Two files may carry one.
    ///
    /// # Errors
    ///
    /// [`PolicyError::NotAFile`], or [`PolicyError::NotThere`].
    pub fn set_source(&mut self, file: u8, source: Source) -> Result<(), PolicyError> {
        self.file_mut(file)?.source = Some(source);
        Ok(())
    }

    /// Makes a file a [guarded](Kind::Guarded) one, or a plain one again.
    ///
    /// # Errors
    ///
    /// [`PolicyError::NotAFile`], or [`PolicyError::NotThere`].
    pub fn set_guarded(&mut self, file: u8, guarded: bool) -> Result<(), PolicyError> {
        self.file_mut(file)?.kind = if guarded { Kind::Guarded } else { Kind::File };
        Ok(())
    }

    /// Says what a file may hold without an alert.
    ///
    /// # Errors
    ///
    /// [`PolicyError::NotAFile`], [`PolicyError::NotThere`], or [`PolicyError::TooManyRules`].
    pub fn set_permit_rule(&mut self, file: u8, rule: impl Into<Rule>) -> Result<(), PolicyError> {
        self.set_rule(Used::Permit(file), rule.into())
    }

    /// Says which user has set a file's permit rule; nobody for nothing. The rule means the same, and equal rules of different
    /// owners stay apart in the image.
    ///
    /// ```
    /// use yaslaurel::{Mixture, Policy, Rule};
    /// let mut policy = Policy::new();
    /// let (north, member) = (policy.source("north")?, policy.user("member", Rule::unrestricted())?);
    /// for name in ["statement", "report"] {
    ///     let file = policy.file(name)?;
    ///     policy.set_permit_rule(file, Mixture::of([north]))?;
    /// }
    /// assert_eq!(policy.rules().len(), 1);
    /// policy.set_permit_owner(0, Some(member))?;
    /// assert_eq!(policy.rules().len(), 2);
    /// assert_eq!((policy.rule_owner(0), policy.rule_owner(1)), (None, Some(member)));
    /// # Ok::<(), yaslaurel::PolicyError>(())
    /// ```
    ///
    /// # Errors
    ///
    /// [`PolicyError::NotAFile`], [`PolicyError::NotThere`] of the file or the user, or [`PolicyError::TooManyRules`].
    pub fn set_permit_owner(&mut self, file: u8, owner: Option<u8>) -> Result<(), PolicyError> {
        self.set_owner(Used::Permit(file), owner)
    }

    /// Says what a process may hold without an alert that runs a file.
    ///
    /// # Errors
    ///
    /// [`PolicyError::NotAFile`], [`PolicyError::NotThere`], or [`PolicyError::TooManyRules`].
    pub fn set_run_rule(&mut self, file: u8, rule: impl Into<Rule>) -> Result<(), PolicyError> {
        self.set_rule(Used::Run(file), rule.into())
    }

    /// Says which user has set a file's run rule; nobody for nothing.
    ///
    /// # Errors
    ///
    /// As [`set_permit_owner`](Policy::set_permit_owner).
    pub fn set_run_owner(&mut self, file: u8, owner: Option<u8>) -> Result<(), PolicyError> {
        self.set_owner(Used::Run(file), owner)
    }

    /// Says which user has set a user's rule; nobody for nothing.
    ///
    /// # Errors
    ///
    /// [`PolicyError::NotThere`] of one of the users, or [`PolicyError::TooManyRules`].
    pub fn set_user_rule_owner(&mut self, user: u8, owner: Option<u8>) -> Result<(), PolicyError> {
        self.set_owner(Used::User(user), owner)
    }

    /// Another rule at a use, of the same owner.
    fn set_rule(&mut self, used: Used, rule: Rule) -> Result<(), PolicyError> {
        let before = *self.use_mut(used)?;
        let owner = self.owner_of(before);
        self.set_use(used, rule, owner)
    }

    /// Another owner of the rule at a use, who must be a user.
    fn set_owner(&mut self, used: Used, owner: Option<u8>) -> Result<(), PolicyError> {
        let before = *self.use_mut(used)?;
        let rule = self.rule_of(before);
        if let Some(user) = owner {
            self.use_mut(Used::User(user))?;
        }
        self.set_use(used, rule, owner)
    }

    /// Another rule and owner at a use; the rule before is dropped if nothing else uses it.
    fn set_use(&mut self, used: Used, rule: Rule, owner: Option<u8>) -> Result<(), PolicyError> {
        let number = self.rule_number(rule, owner);
        let before = std::mem::replace(self.use_mut(used)?, number);
        self.drop_unused();
        if self.rules.len() <= image::RULES.most {
            return Ok(());
        }
        // None was dropped, so the number before is that of its rule still.
        *self.use_mut(used)? = before;
        self.drop_unused();
        Err(PolicyError::TooManyRules)
    }

    fn use_mut(&mut self, used: Used) -> Result<&mut Option<u16>, PolicyError> {
        match used {
            Used::Permit(file) => Ok(&mut self.file_mut(file)?.permit),
            Used::Run(file) => Ok(&mut self.file_mut(file)?.run),
            Used::User(user) => self.users.get_mut(usize::from(user)).ok_or(PolicyError::NotThere(user)),
        }
    }

    /// Gives a source another name.
    ///
    /// # Errors
    ///
    /// [`PolicyError::NameTaken`] by another source, or [`PolicyError::NotThere`].
    pub fn rename_source(&mut self, source: Source, name: &str) -> Result<(), PolicyError> {
        self.sources.rename(source.atom() as u8, name)
    }

    /// Gives a container another name.
    ///
    /// # Errors
    ///
    /// [`PolicyError::NameTaken`] by another container, or [`PolicyError::NotThere`].
    pub fn rename_container(&mut self, number: u8, name: &str) -> Result<(), PolicyError> {
        self.container_names.rename(number, name)
    }

    /// Gives a user another name.
    ///
    /// # Errors
    ///
    /// [`PolicyError::NameTaken`] by another user, or [`PolicyError::NotThere`].
    pub fn rename_user(&mut self, number: u8, name: &str) -> Result<(), PolicyError> {
        self.user_names.rename(number, name)
    }

    fn file_mut(&mut self, number: u8) -> Result<&mut PolicyContainer, PolicyError> {
        let container = self.containers.get_mut(usize::from(number)).ok_or(PolicyError::NotThere(number))?;
        if container.kind.is_file() {
            Ok(container)
        } else {
            Err(PolicyError::NotAFile(number))
        }
    }

    /// The rule at a place.
    fn rule_of(&self, place: Option<u16>) -> Rule {
        place.map_or_else(Rule::unrestricted, |place| self.rules[usize::from(place)].clone())
    }

    /// Its owner.
    fn owner_of(&self, place: Option<u16>) -> Option<u8> {
        place.and_then(|place| self.owners[usize::from(place)])
    }

    /// The place of a rule with an owner, which equal ones share.
    fn rule_number(&mut self, rule: Rule, owner: Option<u8>) -> Option<u16> {
        if rule.is_unrestricted() && owner.is_none() {
            return None;
        }
        let same = |place: &usize| self.rules[*place] == rule && self.owners[*place] == owner;
        let place = (0..self.rules.len()).find(same).unwrap_or(self.rules.len());
        if place == self.rules.len() {
            self.rules.push(rule);
            self.owners.push(owner);
        }
        Some(place as u16)
    }

    /// Drops the rules that nothing uses any more.
    fn drop_unused(&mut self) {
        let mut uses: Vec<&mut u16> =
            self.containers.iter_mut().flat_map(|c| [&mut c.permit, &mut c.run]).flatten().collect();
        uses.extend(self.users.iter_mut().flatten());
        let used: Vec<bool> =
            (0..self.rules.len()).map(|place| uses.iter().any(|n| usize::from(**n) == place)).collect();
        for number in uses {
            *number = used[..usize::from(*number)].iter().filter(|used| **used).count() as u16;
        }
        let mut kept = used.iter();
        self.rules.retain(|_| *kept.next().expect("as many as rules"));
        let mut kept = used.iter();
        self.owners.retain(|_| *kept.next().expect("as many as rules"));
    }
}

/// What a policy has, by number and by name.
impl Policy {
    /// The names of the sources, in the order of their atoms.
    #[must_use]
    pub fn source_names(&self) -> impl ExactSizeIterator<Item = &str> {
        self.sources.iter()
    }

    /// The containers with their names, in the order of their numbers.
    #[must_use]
    pub fn containers(&self) -> impl ExactSizeIterator<Item = (&str, PolicyContainer)> {
        self.container_names.iter().zip(self.containers.iter().copied())
    }

    /// The users by name, in the order of their numbers, each with the place of its rule in [`rules`](Policy::rules), or
    /// nothing for the unrestricted one.
    #[must_use]
    pub fn users(&self) -> impl ExactSizeIterator<Item = (&str, Option<u16>)> {
        self.user_names.iter().zip(self.users.iter().copied())
    }

    /// The different rules that containers and users have, but for the unrestricted one that nobody owns.
    #[must_use]
    pub fn rules(&self) -> &[Rule] {
        &self.rules
    }

    /// The owner of the rule at a place of [`rules`](Policy::rules).
    #[must_use]
    pub fn rule_owner(&self, place: u16) -> Option<u8> {
        self.owners.get(usize::from(place)).copied().flatten()
    }

    /// The source of a name.
    #[must_use]
    pub fn source_named(&self, name: &str) -> Option<Source> {
        self.sources.place(name).and_then(|place| Source::from_atom(place.into()))
    }

    /// The number of the container of a name.
    #[must_use]
    pub fn container_named(&self, name: &str) -> Option<u8> {
        self.container_names.place(name)
    }

    /// The number of the user of a name.
    #[must_use]
    pub fn user_named(&self, name: &str) -> Option<u8> {
        self.user_names.place(name)
    }

    /// The name of a source, or a word with its number if the policy has none.
    #[must_use]
    pub fn source_name(&self, source: Source) -> String {
        self.sources.at(source.atom() as u8, "source")
    }

    /// The name of the container that the policy has at a number, or a word with the number if it has none there: a fork or
    /// a creation took it. The session may have given the number to others since.
    #[must_use]
    pub fn container_name(&self, number: u8) -> String {
        self.container_names.at(number, "container")
    }

    /// The name of a user, or a word with the number if the policy has none there.
    #[must_use]
    pub fn user_name(&self, number: u8) -> String {
        self.user_names.at(number, "user")
    }

    /// The sources of a tag by name, in the order of their atoms, with a comma between two. What was executed is marked.
    ///
    /// ```
    /// use yaslaurel::Policy;
    /// let mut policy = Policy::new();
    /// policy.source("north")?;
    /// policy.source("desk")?;
    /// assert_eq!(policy.sources_in(0x2_0000_0001), "north, desk (running)");
    /// assert_eq!(policy.sources_in(0), "nothing");
    /// assert_eq!(policy.sources_in(4), "source 2");
    /// # Ok::<(), yaslaurel::PolicyError>(())
    /// ```
    #[must_use]
    pub fn sources_in(&self, tag: u64) -> String {
        let named = crate::atoms(tag).filter_map(|atom| {
            let name = self.source_name(Source::from_atom(atom)?);
            Some(if atom < atom::RUNNING { name } else { format!("{name} (running)") })
        });
        let named: Vec<String> = named.collect();
        if named.is_empty() {
            "nothing".into()
        } else {
            named.join(", ")
        }
    }
}

/// The policy as an image, and an image as a policy.
impl Policy {
    /// The image of the policy, its sections without gaps. No image of a policy is refused.
    #[must_use]
    pub fn image(&self) -> Vec<u8> {
        let number = |rule: Option<u16>| rule.unwrap_or(image::UNRESTRICTED).to_le_bytes();
        let mut sections: [Vec<u8>; 4] = Default::default();
        for container in &self.containers {
            let source = container.source.map_or(image::NO_ATOM, |source| source.atom() as u8);
            sections[0].extend([container.kind.number(), source]);
            sections[0].extend([number(container.permit), number(container.run)].concat());
        }
        sections[1].extend(self.users.iter().flat_map(|rule| number(*rule)));
        let mut first = 0_u16;
        for (rule, owner) in self.rules.iter().zip(&self.owners) {
            let count = rule.mixtures().len() as u16;
            let owner = owner.map_or(image::NO_OWNER, u16::from);
            sections[2].extend([first, count, owner].map(u16::to_le_bytes).concat());
            sections[3].extend(rule.mixtures().iter().flat_map(|mixture| mixture.bits().to_le_bytes()));
            first += count;
        }
        let mut bytes = image::LEADING.to_le_bytes().to_vec();
        let mut offset = image::HEADER;
        for section in &sections {
            bytes.extend([(offset as u16).to_le_bytes(), (section.len() as u16).to_le_bytes()].concat());
            offset += section.len();
        }
        bytes.extend(sections.concat());
        bytes
    }

    /// The policy that an image stands for. An image has no names: sources are called `source-0` and so on, containers
    /// `file-0`, `volatile-1` or `process-2` by kind and number, users `user-0`. It has the sources up to the largest that
    /// a file or a rule names, and the rules that are used, in the order of their first use: permit, then run rule of each
    /// container, then the users'.
    ///
    /// ```
    /// use yaslaurel::{matrix_policy, normalise, Policy};
    /// let image = matrix_policy(&[5, 3, 2], &[1, 2, 10], 4)?;
    /// let policy = Policy::from_image(&image)?;
    /// assert_eq!(policy.container_name(4), "process-4");
    /// assert_eq!(normalise(&policy.image())?, image);
    /// # Ok::<(), yaslaurel::Refusal>(())
    /// ```
    ///
    /// # Errors
    ///
    /// A refusal of [`check`].
    pub fn from_image(bytes: &[u8]) -> Result<Policy, Refusal> {
        check(bytes)?;
        Ok(Reader { bytes }.policy())
    }
}

/// Reads an image that was accepted.
struct Reader<'a> {
    bytes: &'a [u8],
}

impl Reader<'_> {
    fn number(&self, place: usize) -> u16 {
        u16::from_le_bytes([self.bytes[place], self.bytes[place + 1]])
    }

    /// The places of the records of a section.
    fn records(&self, section: image::Section) -> impl Iterator<Item = usize> {
        let offset = usize::from(self.number(section.offset_at()));
        let length = usize::from(self.number(section.length_at()));
        (offset..offset + length).step_by(section.record)
    }

    /// The rules by number with their owners, and the mixtures of each.
    fn rules(&self) -> Vec<(Rule, Option<u8>)> {
        let mixtures = self.records(image::MIXTURES).map(|place| {
            let bytes = self.bytes[place..place + image::MIXTURES.record].try_into().expect("eight bytes");
            Mixture::from_bits(u64::from_le_bytes(bytes))
        });
        let mixtures: Vec<Mixture> = mixtures.collect();
        let rules = self.records(image::RULES).map(|place| {
            let first = usize::from(self.number(place + image::FIRST));
            let count = usize::from(self.number(place + image::COUNT));
            let rule =
                Rule::new(mixtures[first..first + count].iter().copied()).expect("an accepted rule has at most 8");
            let owner = self.number(place + image::OWNER);
            (rule, (owner != image::NO_OWNER).then_some(owner as u8))
        });
        rules.collect()
    }

    fn policy(&self) -> Policy {
        let rules = self.rules();
        let rule = |place: usize| match self.number(place) {
            image::UNRESTRICTED => (Rule::unrestricted(), None),
            number => rules[usize::from(number)].clone(),
        };
        let mut policy = Policy::new();
        for (number, place) in self.records(image::CONTAINERS).enumerate() {
            let kind = Kind::from_number(self.bytes[place + image::KIND]).expect("an accepted kind");
            let source = Source::from_atom(u32::from(self.bytes[place + image::ATOM]));
            let [permit, run] = [image::PERMIT, image::RUN].map(|field| rule(place + field));
            let [permit, run] = [permit, run].map(|(rule, owner)| policy.rule_number(rule, owner));
            // A guarded file has the name of a file.
            let word = if kind.is_file() { Kind::File } else { kind };
            policy.add_container(&format!("{word}-{number}"), kind).expect("no more than the image's");
            policy.containers[number] = PolicyContainer { kind, source, permit, run };
        }
        for (number, place) in self.records(image::USERS).enumerate() {
            policy.user(&format!("user-{number}"), Rule::unrestricted()).expect("no more than the image's");
            let (rule, owner) = rule(place);
            policy.users[number] = policy.rule_number(rule, owner);
        }
        let count = named_sources(&policy).max().map_or(0, |source| source.atom() + 1);
        policy.sources = Names((0..count).map(|number| format!("source-{number}")).collect());
        policy
    }
}

/// The sources that files carry and rules name.
fn named_sources(policy: &Policy) -> impl Iterator<Item = Source> + '_ {
    let carried = policy.containers.iter().filter_map(|container| container.source);
    let mixtures = policy.rules.iter().filter(|rule| !rule.is_unrestricted()).flat_map(Rule::mixtures);
    carried.chain(mixtures.flat_map(|mixture| mixture.sources().chain(mixture.running_sources())))
}
