//! Why the judge does not accept a proposal, by names.

use yaslaurel::{judge_withdrawal, matrix_verdict, Judgement, MatrixVerdict, Refusal};

use crate::{missing_flows, Flow, NamedMatrix, Right};

/// The first condition that fails, with what shows it.
#[derive(Clone, Debug, PartialEq, Eq)]
pub enum Failed {
    /// 1: a right that the old matrix lacks.
    Added(Right),
    /// 2: a right that must stay and is not in the proposal.
    Lost(Right),
    /// 3: the composed flows of the proposal that are not granted.
    Inconsistent(Vec<Flow>),
    /// 4: a withdrawn right that can be put back alone.
    NotMinimal(Right),
}

impl Failed {
    /// The number of the condition.
    #[must_use]
    pub fn number(&self) -> u32 {
        match self {
            Failed::Added(_) => Judgement::RightAdded.number(),
            Failed::Lost(_) => Judgement::RightLost.number(),
            Failed::Inconsistent(_) => Judgement::Inconsistent.number(),
            Failed::NotMinimal(_) => Judgement::NotMinimal.number(),
        }
    }
}

/// Whether the proved verdict calls a matrix consistent.
pub(crate) fn consistent(matrix: &NamedMatrix) -> Result<bool, Refusal> {
    let rows = matrix.rows();
    Ok(matrix_verdict(rows.reads, rows.writes, rows.objects)? == MatrixVerdict::Consistent)
}

/// The first right of one matrix that another lacks.
fn lacking(matrix: &NamedMatrix, other: &NamedMatrix) -> Option<Right> {
    matrix.rights().find(|right| !other.has(*right))
}

/// The first withdrawn right that can be put back alone, by the proved verdict.
pub(crate) fn returning(old: &NamedMatrix, proposed: &NamedMatrix) -> Result<Option<Right>, Refusal> {
    for right in old.rights().filter(|right| !proposed.has(*right)) {
        let mut with = proposed.clone();
        with.set(right, true);
        if consistent(&with)? {
            return Ok(Some(right));
        }
    }
    Ok(None)
}

/// Asks the proved [`judge_withdrawal`] about a proposal: nothing if it is accepted, else the condition that fails, with the right or the flows
/// that show it. The matrices have the same names in the same order ([`NamedMatrix::in_order_of`]).
///
/// ```
/// use analysis::{failed_condition, Failed, NamedMatrix};
/// let old = NamedMatrix::read_text("a b c\nnetting r w -\ndesk - r w\n").unwrap();
/// let nothing = old.with_rows(&[0, 0], &[0, 0]);
/// assert_eq!(failed_condition(&old, &nothing, &old.with_rows(&[1, 0], &[2, 4]))?, None);
/// let failed = failed_condition(&old, &nothing, &nothing)?.expect("less would do");
/// assert!(matches!(&failed, Failed::NotMinimal(right) if old.words(*right) == "netting may read a"));
/// # Ok::<(), yaslaurel::Refusal>(())
/// ```
///
/// # Errors
///
/// [`Refusal::Matrix`].
///
/// # Panics
///
/// If nothing shows what the judge says.
pub fn failed_condition(
    old: &NamedMatrix,
    required: &NamedMatrix,
    proposed: &NamedMatrix,
) -> Result<Option<Failed>, Refusal> {
    let shown = "the judge has a reason";
    Ok(match judge_withdrawal(old.rows(), required.rows(), proposed.rows())? {
        Judgement::Accepted => None,
        Judgement::RightAdded => Some(Failed::Added(lacking(proposed, old).expect(shown))),
        Judgement::RightLost => Some(Failed::Lost(lacking(required, proposed).expect(shown))),
        Judgement::Inconsistent => Some(Failed::Inconsistent(missing_flows(proposed)?)),
        Judgement::NotMinimal => Some(Failed::NotMinimal(returning(old, proposed)?.expect(shown))),
        other => panic!("unknown judgement {other:?}"),
    })
}
