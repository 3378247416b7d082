//! Proposals to withdraw rights of an access matrix.

use crate::{ffi, refusal, Refusal};

/// An access matrix: row s of `reads` has bit k if subject s may read object k, and so `writes`.
#[derive(Clone, Copy, Debug, PartialEq, Eq)]
pub struct Matrix<'a> {
    /// A row for each subject.
    pub reads: &'a [u32],
    /// A row for each subject.
    pub writes: &'a [u32],
    /// How many objects there are.
    pub objects: u32,
}

/// The judgement on a proposal: accepted, or the first condition that fails.
#[derive(Clone, Copy, Debug, PartialEq, Eq, Hash)]
#[must_use = "a proposal counts only if it is accepted"]
#[non_exhaustive]
pub enum Judgement {
    /// 0: every condition holds.
    Accepted,
    /// 1: the proposal has a right that the old matrix lacks.
    RightAdded,
    /// 2: a right that must stay is not in the proposal.
    RightLost,
    /// 3: the proposal is not consistent.
    Inconsistent,
    /// 4: a right that was withdrawn can be put back alone, and the proposal stays consistent.
    NotMinimal,
}

impl Judgement {
    /// 0 accepted, 1 to 4 the condition.
    #[must_use]
    pub fn number(self) -> u32 {
        self as u32
    }
}

/// Judges a proposal to withdraw rights: the old matrix, the rights that must stay as a second one, and the proposed
/// matrix. A matrix that is malformed, or that has other counts than the old one, is [`Refusal::Matrix`].
///
/// ```
/// use yaslaurel::{judge_withdrawal, Judgement, Matrix, Refusal};
/// // Subject 0 reads object 0 and writes object 1, subject 1 reads object 1 and writes object 2.
/// let old = Matrix { reads: &[1, 2], writes: &[2, 4], objects: 3 };
/// let nothing = Matrix { reads: &[0, 0], writes: &[0, 0], objects: 3 };
/// assert_eq!(judge_withdrawal(old, nothing, old), Ok(Judgement::Inconsistent));
///
/// // One of the four rights has to go, and no second one.
/// let proposed = Matrix { reads: &[1, 0], ..old };
/// assert_eq!(judge_withdrawal(old, nothing, proposed), Ok(Judgement::Accepted));
/// assert_eq!(judge_withdrawal(old, nothing, nothing), Ok(Judgement::NotMinimal));
///
/// // Unless it must stay.
/// let required = Matrix { reads: &[0, 2], ..nothing };
/// assert_eq!(judge_withdrawal(old, required, proposed), Ok(Judgement::RightLost));
/// assert_eq!(judge_withdrawal(proposed, nothing, old), Ok(Judgement::RightAdded));
/// assert_eq!(judge_withdrawal(old, nothing, Matrix { objects: 4, ..old }), Err(Refusal::Matrix));
/// ```
///
/// # Errors
///
/// [`Refusal::Matrix`].
#[inline]
pub fn judge_withdrawal(old: Matrix<'_>, required: Matrix<'_>, proposed: Matrix<'_>) -> Result<Judgement, Refusal> {
    // SAFETY: the slices are valid and aligned for their lengths.
    let number = unsafe {
        ffi::yaslaurel_matrix_judge(
            old.reads.as_ptr(),
            old.reads.len(),
            old.writes.as_ptr(),
            old.writes.len(),
            old.objects,
            required.reads.as_ptr(),
            required.reads.len(),
            required.writes.as_ptr(),
            required.writes.len(),
            required.objects,
            proposed.reads.as_ptr(),
            proposed.reads.len(),
            proposed.writes.as_ptr(),
            proposed.writes.len(),
            proposed.objects,
        )
    };
    match number {
        0 => Ok(Judgement::Accepted),
        1 => Ok(Judgement::RightAdded),
        2 => Ok(Judgement::RightLost),
        3 => Ok(Judgement::Inconsistent),
        4 => Ok(Judgement::NotMinimal),
        number => Err(refusal(number)),
    }
}
