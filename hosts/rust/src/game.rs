//! Desk against guard: who can force the outcome of a game on an access matrix.

use crate::{ffi, refusal, Matrix, Refusal};

/// A move of the desk.
#[derive(Clone, Copy, Debug, PartialEq, Eq, Hash)]
pub enum Move {
    /// A subject reads an object: it holds what the object holds.
    Read {
        /// Its number.
        subject: u32,
        /// The number of the object.
        object: u32,
    },
    /// A subject adds what it holds to an object.
    Append {
        /// Its number.
        subject: u32,
        /// The number of the object.
        object: u32,
    },
    /// Nothing.
    Pass,
}

/// Who can force the outcome.
#[derive(Clone, Copy, Debug, PartialEq, Eq, Hash)]
#[must_use = "the desk may win"]
pub enum Outcome {
    /// The guard can prevent that the target holds the information.
    Guard,
    /// The desk can bring it there.
    Desk {
        /// Its first winning move, reads before appends before the pass, each by smallest subject, then object. It is always a
        /// read.
        first: Move,
    },
}

/// Tells who can force the outcome of a game on a matrix of at most 3 subjects and 3 objects. A desk tries to bring the
/// information of object `source` into object `target`: in each of 1 to 4 rounds it makes one read or append whose right
/// still stands, or passes, and wins as soon as `target` holds the information; then a guard withdraws one right for good,
/// or passes. The guard may withdraw 0 to 2 rights in all.
///
/// ```
/// use yaslaurel::{play, Matrix, Move, Outcome, Refusal};
/// // Two subjects read object 1 and write object 0. The guard may withdraw one right.
/// let matrix = Matrix { reads: &[0b10, 0b10], writes: &[0b01, 0b01], objects: 2 };
/// // In two rounds it holds the desk: after subject 0 has read, it withdraws that subject's right to write.
/// assert_eq!(play(matrix, 1, 0, 2, 1), Ok(Outcome::Guard));
/// // In three the desk then reads and appends by subject 1.
/// let first = Move::Read { subject: 0, object: 1 };
/// assert_eq!(play(matrix, 1, 0, 3, 1), Ok(Outcome::Desk { first }));
/// // Against two withdrawals it cannot.
/// assert_eq!(play(matrix, 1, 0, 4, 2), Ok(Outcome::Guard));
///
/// assert_eq!(play(matrix, 1, 1, 3, 1), Err(Refusal::GameBounds));
/// assert_eq!(play(Matrix { objects: 1, ..matrix }, 1, 1, 3, 1), Err(Refusal::Matrix));
/// ```
///
/// # Errors
///
/// [`Refusal::Matrix`], then [`Refusal::GameBounds`].
#[inline]
pub fn play(matrix: Matrix<'_>, source: u32, target: u32, rounds: u32, withdrawals: u32) -> Result<Outcome, Refusal> {
    let Matrix { reads, writes, objects } = matrix;
    let (mut code, mut subject, mut object) = (0, 0, 0);
    // SAFETY: the slices are valid and aligned for their lengths, and the three numbers are apart from them.
    let number = unsafe {
        ffi::yaslaurel_matrix_game(
            reads.as_ptr(),
            reads.len(),
            writes.as_ptr(),
            writes.len(),
            objects,
            source,
            target,
            rounds,
            withdrawals,
            &mut code,
            &mut subject,
            &mut object,
        )
    };
    match number {
        0 => Ok(Outcome::Guard),
        1 => Ok(Outcome::Desk { first: first(code, subject, object) }),
        number => Err(refusal(number)),
    }
}

/// The move of the three numbers.
#[inline]
fn first(code: u32, subject: u32, object: u32) -> Move {
    match code {
        1 => Move::Read { subject, object },
        3 => Move::Append { subject, object },
        _ => Move::Pass,
    }
}
