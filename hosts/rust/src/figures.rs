use std::fmt;
use std::ops::{Add, AddAssign};

use crate::layout::figures as at;
use crate::{ffi, refusal, Refusal};

/// Judges records one behind the other on a lent session to their end, and counts them by their answers into lent numbers
/// ([`layout::figures`](crate::layout::figures)).
///
/// # Errors
/// [`Refusal::LentLength`] if the session or the figures have another length, and nothing changes.
pub fn figures_in(session: &mut [u64], records: &[u8], figures: &mut [u64]) -> Result<(), Refusal> {
    // SAFETY: the slices are valid and aligned for their lengths, and Rust keeps what is written apart from the rest.
    let number = unsafe {
        ffi::yaslaurel_figures(
            session.as_mut_ptr(),
            session.len(),
            records.as_ptr(),
            records.len(),
            figures.as_mut_ptr(),
            figures.len(),
        )
    };
    match number {
        0 => Ok(()),
        number => Err(refusal(number)),
    }
}

/// Adds figures to a total, each number to its like.
///
/// # Errors
/// [`Refusal::LentLength`] if one of them has another length, and nothing changes.
pub fn add_figures_in(total: &mut [u64], figures: &[u64]) -> Result<(), Refusal> {
    // SAFETY: as above.
    let number =
        unsafe { ffi::yaslaurel_figures_add(total.as_mut_ptr(), total.len(), figures.as_ptr(), figures.len()) };
    match number {
        0 => Ok(()),
        number => Err(refusal(number)),
    }
}

/// The figures of a session that has its length.
pub(crate) fn count(session: &mut [u64], records: &[u8]) -> Figures {
    let mut figures = Figures::default();
    figures_in(session, records, &mut figures.numbers).expect("session and figures have their lengths");
    figures
}

/// How many records there were and how they were answered, from [`Session::figures`](crate::Session::figures). Those of the
/// parts of a trace add up to those of the trace, and those of traces to those of all.
#[derive(Clone, PartialEq, Eq)]
pub struct Figures {
    numbers: [u64; at::LENGTH],
}

impl Figures {
    /// The records.
    #[must_use]
    pub fn records(&self) -> u64 {
        self.numbers[at::RECORDS]
    }

    /// Those that were accepted, alerts among them.
    #[must_use]
    pub fn accepted(&self) -> u64 {
        self.numbers[at::ACCEPTED]
    }

    /// Those that raised an alert.
    #[must_use]
    pub fn alerts(&self) -> u64 {
        self.numbers[at::ALERTS]
    }

    /// Those that were refused.
    #[must_use]
    pub fn refused(&self) -> u64 {
        self.numbers[at::REFUSED]
    }

    /// Those that were blocked.
    #[must_use]
    pub fn blocked(&self) -> u64 {
        self.numbers[at::BLOCKED]
    }

    /// The alerts whose receiver has this number.
    #[must_use]
    pub fn alerts_at(&self, container: u8) -> u64 {
        self.numbers[at::CONTAINERS_AT + usize::from(container)]
    }
}

impl Default for Figures {
    /// Of no records.
    fn default() -> Figures {
        Figures { numbers: [0; at::LENGTH] }
    }
}

impl AddAssign<&Figures> for Figures {
    fn add_assign(&mut self, more: &Figures) {
        add_figures_in(&mut self.numbers, &more.numbers).expect("figures have their length");
    }
}

impl Add for Figures {
    type Output = Figures;

    fn add(mut self, more: Figures) -> Figures {
        self += &more;
        self
    }
}

impl fmt::Debug for Figures {
    fn fmt(&self, f: &mut fmt::Formatter<'_>) -> fmt::Result {
        let alerts: Vec<_> = (0..=255).filter(|&c| self.alerts_at(c) > 0).map(|c| (c, self.alerts_at(c))).collect();
        f.debug_struct("Figures")
            .field("records", &self.records())
            .field("accepted", &self.accepted())
            .field("alerts", &self.alerts())
            .field("refused", &self.refused())
            .field("blocked", &self.blocked())
            .field("alerts_at", &alerts)
            .finish()
    }
}
