//! Sources, mixtures and rules of a policy.

use crate::layout::atom;
use crate::layout::session::RULE_MIXTURES;
use crate::PolicyError;

/// A source that a [`Policy`](crate::Policy) tells apart: one of its data atoms, with the running atom of the same content
/// executed. [`Policy::source`](crate::Policy::source) gives one; it belongs to that policy.
#[derive(Clone, Copy, Debug, PartialEq, Eq, Hash, PartialOrd, Ord)]
pub struct Source(u8);

impl Source {
    /// The source of an atom, data or running; nothing from 64 on.
    #[must_use]
    pub fn from_atom(number: u32) -> Option<Source> {
        (number < 2 * atom::RUNNING).then_some(Source((number % atom::RUNNING) as u8))
    }

    /// Its data atom, 0 to 31.
    #[must_use]
    pub fn atom(self) -> u32 {
        u32::from(self.0)
    }

    /// Its running atom, 32 to 63.
    #[must_use]
    pub fn running_atom(self) -> u32 {
        self.atom() + atom::RUNNING
    }
}

/// A mixture: a set of sources, as data or executed, that may be together.
///
/// ```
/// use yaslaurel::{Mixture, Policy};
/// let mut policy = Policy::new();
/// let (north, desk) = (policy.source("north")?, policy.source("desk")?);
/// let mixture = Mixture::of([north]).running([desk]);
/// assert_eq!(mixture.bits(), 0x2_0000_0001);
/// assert!(mixture.sources().eq([north]) && mixture.running_sources().eq([desk]));
/// assert!(mixture.holds(Mixture::of([north])) && !mixture.holds(Mixture::of([desk])));
/// # Ok::<(), yaslaurel::PolicyError>(())
/// ```
#[derive(Clone, Copy, Debug, Default, PartialEq, Eq, Hash)]
pub struct Mixture(u64);

impl Mixture {
    /// These sources, as data.
    #[must_use]
    pub fn of(sources: impl IntoIterator<Item = Source>) -> Mixture {
        Mixture(sources.into_iter().fold(0, |bits, source| bits | 1 << source.atom()))
    }

    /// The mixture with these sources too, executed.
    #[must_use]
    pub fn running(self, sources: impl IntoIterator<Item = Source>) -> Mixture {
        Mixture(sources.into_iter().fold(self.0, |bits, source| bits | 1 << source.running_atom()))
    }

    /// Whether it has all that another mixture has.
    #[must_use]
    pub const fn holds(self, other: Mixture) -> bool {
        other.0 & !self.0 == 0
    }

    /// The sources that it has as data, rising.
    pub fn sources(self) -> impl Iterator<Item = Source> {
        crate::atoms(self.0).filter(|atom| *atom < atom::RUNNING).filter_map(Source::from_atom)
    }

    /// The sources that it has executed, rising.
    pub fn running_sources(self) -> impl Iterator<Item = Source> {
        crate::atoms(self.0).filter(|atom| *atom >= atom::RUNNING).filter_map(Source::from_atom)
    }

    /// The mixture of a number, in which atom k is worth 2 to the k.
    #[must_use]
    pub const fn from_bits(bits: u64) -> Mixture {
        Mixture(bits)
    }

    /// Its number.
    #[must_use]
    pub const fn bits(self) -> u64 {
        self.0
    }
}

/// A rule: a set of up to 8 mixtures. It permits what one of them holds all of. A rule without mixtures permits nothing,
/// not even to hold nothing.
#[derive(Clone, Debug, PartialEq, Eq, Hash)]
pub struct Rule {
    mixtures: Vec<Mixture>,
}

impl Rule {
    /// The rule of these mixtures. Repeats count once.
    ///
    /// ```
    /// use yaslaurel::{Mixture, PolicyError, Rule};
    /// let mixtures = (0..9).map(Mixture::from_bits);
    /// assert!(Rule::new(mixtures.clone().take(8)).is_ok());
    /// assert_eq!(Rule::new(mixtures), Err(PolicyError::TooManyMixtures));
    /// ```
    ///
    /// # Errors
    ///
    /// [`PolicyError::TooManyMixtures`] for over 8 different ones.
    pub fn new(mixtures: impl IntoIterator<Item = Mixture>) -> Result<Rule, PolicyError> {
        let mut mixtures: Vec<Mixture> = mixtures.into_iter().collect();
        mixtures.sort_by_key(|mixture| mixture.bits());
        mixtures.dedup();
        if mixtures.len() > RULE_MIXTURES {
            return Err(PolicyError::TooManyMixtures);
        }
        Ok(Rule { mixtures })
    }

    /// The rule that permits everything.
    #[must_use]
    pub fn unrestricted() -> Rule {
        Rule::from(Mixture::from_bits(u64::MAX))
    }

    /// Whether the rule permits everything.
    #[must_use]
    pub fn is_unrestricted(&self) -> bool {
        self.mixtures.contains(&Mixture::from_bits(u64::MAX))
    }

    /// Its mixtures, ascending as numbers.
    #[must_use]
    pub fn mixtures(&self) -> &[Mixture] {
        &self.mixtures
    }
}

/// The rule of one mixture.
impl From<Mixture> for Rule {
    fn from(mixture: Mixture) -> Rule {
        Rule { mixtures: vec![mixture] }
    }
}
