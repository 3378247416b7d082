use std::fmt;
use std::iter::FusedIterator;

use crate::{ffi, layout, refusal, Answer, Refusal, Verdict};

/// Judges the records that lie one behind the other in a slice, on a lent session of exactly
/// [`SESSION_LENGTH`](crate::SESSION_LENGTH) numbers. A session of another length gives one item,
/// [`Refusal::LentLength`] at the first record's place, also without records, and no record is judged.
///
/// ```
/// use yaslaurel::{run_in, Refusal, SESSION_LENGTH};
/// let mut short = vec![0; SESSION_LENGTH - 1];
/// assert_eq!(run_in(&mut short, &[]).collect::<Vec<_>>(), [(0, Err(Refusal::LentLength))]);
/// ```
#[inline]
pub fn run_in<'a>(session: &'a mut [u64], records: &'a [u8]) -> Run<'a> {
    Run { session, records, judged: 0, done: false }
}

/// What is not quiet of a batch of records, from [`Session::run`](crate::Session::run): each record's place in the
/// slice, and its alert, that it is blocked, or its refusal.
#[must_use = "the records are judged as the iterator goes on"]
pub struct Run<'a> {
    session: &'a mut [u64],
    /// Those not yet judged.
    records: &'a [u8],
    judged: usize,
    done: bool,
}

impl Run<'_> {
    /// How many records have been judged: those up to and with the last item given, all once the iterator has ended.
    ///
    /// ```
    /// use yaslaurel::{matrix_policy, Operation, Refusal, Session};
    /// let mut session = Session::start(&matrix_policy(&[1], &[1], 1)?)?;
    /// let quiet = Operation::Read { process: 1, object: 0 }.record();
    /// let records = [&quiet[..], &quiet[..], &[1, 0, 1], &[]].concat();
    /// let mut run = session.run(&records);
    /// assert_eq!(run.next(), Some((2, Err(Refusal::OperationRecord))));
    /// assert_eq!(run.judged(), 3);
    /// assert_eq!(run.next(), None);
    /// # Ok::<(), Refusal>(())
    /// ```
    #[inline]
    #[must_use]
    pub fn judged(&self) -> usize {
        self.judged
    }
}

impl Iterator for Run<'_> {
    type Item = (usize, Result<Answer, Refusal>);

    #[inline]
    fn next(&mut self) -> Option<Self::Item> {
        if self.done {
            return None;
        }
        let (mut taken, mut receiver, mut tag, mut position) = (0, 0, 0, 0);
        // SAFETY: the slices are valid and aligned for their lengths, the four numbers are ours, and Rust keeps what is
        // written apart from the rest.
        let number = unsafe {
            ffi::yaslaurel_run(
                self.session.as_mut_ptr(),
                self.session.len(),
                self.records.as_ptr(),
                self.records.len(),
                &mut taken,
                &mut receiver,
                &mut tag,
                &mut position,
            )
        };
        self.judged += taken;
        self.records = &self.records[self.records.len().min(layout::record::LENGTH * taken)..];
        self.done = self.records.is_empty();
        // The last of them, or the first place of a call that took none.
        let place = self.judged.saturating_sub(1);
        let answer = |verdict| Some((place, Ok(Answer::new(verdict, receiver, tag, position))));
        match number {
            ffi::QUIET => {
                self.done = true;
                None
            }
            ffi::ALERT => answer(Verdict::Alert),
            ffi::BLOCKED => answer(Verdict::Blocked),
            number => {
                let refusal = refusal(number);
                self.done |= refusal == Refusal::LentLength;
                Some((place, Err(refusal)))
            }
        }
    }
}

impl FusedIterator for Run<'_> {}

impl fmt::Debug for Run<'_> {
    fn fmt(&self, f: &mut fmt::Formatter<'_>) -> fmt::Result {
        write!(f, "Run {{ {} records judged, {} bytes left }}", self.judged, self.records.len())
    }
}
