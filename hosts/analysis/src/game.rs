//! Desk against guard, move by move.
//!
//! Who wins from the start, and by which first move, is the proved [`yaslaurel::play`]. It knows no game that has begun, so a game that is played
//! goes on by the search here, which is not proved; the tests compare the two, and the judge, at the start of many games.

use yaslaurel::Move;

use crate::{NamedMatrix, Right};

/// A game that has begun: the desk is to move.
#[derive(Clone, Debug, PartialEq, Eq)]
pub struct Position {
    /// The rights that still stand.
    pub rights: NamedMatrix,
    /// The subjects that hold the information, bit k for subject k.
    pub subjects: u32,
    /// The objects that hold it.
    pub objects: u32,
    /// The object where the desk wants it.
    pub target: u32,
    /// The rounds that are left, with this one.
    pub rounds: u32,
    /// The withdrawals that the guard has left.
    pub withdrawals: u32,
}

impl Position {
    /// The start of a game: the source holds its information, and nobody else.
    #[must_use]
    pub fn start(matrix: &NamedMatrix, source: u32, target: u32, rounds: u32, withdrawals: u32) -> Position {
        Position { rights: matrix.clone(), subjects: 0, objects: 1 << source, target, rounds, withdrawals }
    }

    /// Whether the desk has won.
    #[must_use]
    pub fn reached(&self) -> bool {
        self.objects >> self.target & 1 == 1
    }

    /// The moves of the desk: reads before appends before the pass, each by smallest subject, then object.
    fn moves(&self) -> Vec<Move> {
        let of = |right: Right| {
            let (subject, object) = (right.subject as u32, right.object as u32);
            if right.write {
                Move::Append { subject, object }
            } else {
                Move::Read { subject, object }
            }
        };
        self.rights.rights().map(of).chain([Move::Pass]).collect()
    }

    /// The position after a move of the desk, before the guard's.
    #[must_use]
    pub fn moved(&self, desk: Move) -> Position {
        let mut after = self.clone();
        match desk {
            Move::Read { subject, object } => after.subjects |= (self.objects >> object & 1) << subject,
            Move::Append { subject, object } => after.objects |= (self.subjects >> subject & 1) << object,
            Move::Pass => {}
        }
        after
    }

    /// The position in the next round, after the guard has withdrawn a right or passed.
    #[must_use]
    pub fn answered(&self, withdrawn: Option<Right>) -> Position {
        let mut after = self.clone();
        after.rounds -= 1;
        if let Some(right) = withdrawn {
            after.rights.set(right, false);
            after.withdrawals -= 1;
        }
        after
    }

    /// Whether a move of the desk wins whatever the guard replies.
    fn wins_by(&self, desk: Move) -> bool {
        let after = self.moved(desk);
        after.reached()
            || (after.rounds > 1
                && guard_moves(&after).into_iter().all(|guard| after.answered(guard).winning().is_some()))
    }

    /// The first winning move of the desk, if it can force the outcome.
    fn winning(&self) -> Option<Move> {
        // Moves that leave the same holders are one to the guard.
        let mut tried: Vec<((u32, u32), bool)> = Vec::new();
        self.moves().into_iter().find(|&desk| {
            let after = self.moved(desk);
            let holders = (after.subjects, after.objects);
            if let Some((_, wins)) = tried.iter().find(|(other, _)| *other == holders) {
                return *wins;
            }
            let wins = self.wins_by(desk);
            tried.push((holders, wins));
            wins
        })
    }
}

/// What the guard may do: pass, or withdraw one of the rights that stand.
#[must_use]
pub fn guard_moves(position: &Position) -> Vec<Option<Right>> {
    let rights = position.rights.rights().filter(|_| position.withdrawals > 0).map(Some);
    [None].into_iter().chain(rights).collect()
}

/// The desk's move, and whether it can force the outcome with it. If it cannot, it is the first move that brings the information to somebody who
/// lacked it, or the pass: the guard may err.
///
/// ```
/// use analysis::{desk_move, NamedMatrix, Position};
/// use yaslaurel::Move;
/// let matrix = NamedMatrix::read_text("a b\ns r w\n").unwrap();
/// assert_eq!(desk_move(&Position::start(&matrix, 0, 1, 2, 0)), (Move::Read { subject: 0, object: 0 }, true));
/// assert_eq!(desk_move(&Position::start(&matrix, 0, 1, 2, 1)).1, false);
/// ```
#[must_use]
pub fn desk_move(position: &Position) -> (Move, bool) {
    if let Some(desk) = position.winning() {
        return (desk, true);
    }
    let brings = |desk: &Move| position.moved(*desk) != *position;
    (position.moves().into_iter().find(brings).unwrap_or(Move::Pass), false)
}
