//! Change request No. 14, "Desk against guard", judged from the guard's side: for how many rounds it can keep the
//! information out of b. The desk wins a game of more rounds than that.

use std::collections::{BTreeSet, HashMap};

use crate::matrix;
use crate::withdrawals::{rights, Access, Right, Rights, Rows};

/// "On a matrix of at most 3 subjects and 3 objects".
pub const SIDE: usize = 3;

/// "In each of 1 to 4 rounds".
pub const ROUNDS: u32 = 4;

/// "The guard has 0 to 2 withdrawals in all."
pub const WITHDRAWALS: u32 = 2;

/// A game as it arrives.
#[derive(Clone, Debug, PartialEq, Eq)]
pub struct Game {
    pub rows: Rows,
    pub source: u32,
    pub target: u32,
    pub rounds: u32,
    pub withdrawals: u32,
}

/// "one read or append whose right still stands, or passes": a right, or none for the pass.
pub type Move = Option<Right>;

/// The answer in numbers: 1 the desk, 0 the guard, or the refusal; then the move, 1 read, 3 append, 0 pass, its subject and
/// its object.
#[derive(Clone, Copy, Debug, Default, PartialEq, Eq)]
pub struct Answer {
    pub number: u32,
    pub code: u32,
    pub subject: u32,
    pub object: u32,
}

/// Who holds a's information.
#[derive(Clone, Debug, PartialEq, Eq, PartialOrd, Ord, Hash)]
enum Holder {
    Subject(usize),
    Object(usize),
}

type Holders = BTreeSet<Holder>;

/// The most rounds that the guard can hold, as found before: by the rights that stand, the holders, its withdrawals and the
/// rounds that are left.
#[derive(Default)]
struct Guard {
    target: usize,
    known: HashMap<(Vec<(bool, usize, usize)>, Holders, u32, u32), u32>,
}

/// "reads before appends before the pass, each by smallest subject, then object".
fn moves(standing: &Rights) -> Vec<Move> {
    let of = |access| standing.iter().filter(move |right| right.0 == access).map(|&right| Some(right));
    of(Access::Read).chain(of(Access::Write)).chain([None]).collect()
}

/// What a move makes of the holders: a read takes from an object that holds, an append gives to an object from a subject
/// that holds.
fn moved(holders: &Holders, desk: Move) -> Holders {
    let mut after = holders.clone();
    match desk {
        Some((Access::Read, s, o)) if holders.contains(&Holder::Object(o)) => after.insert(Holder::Subject(s)),
        Some((Access::Write, s, o)) if holders.contains(&Holder::Subject(s)) => after.insert(Holder::Object(o)),
        _ => false,
    };
    after
}

impl Guard {
    /// How many of the rounds that are left the guard can hold: the fewest over the moves of the desk.
    fn held(&mut self, standing: &Rights, holders: &Holders, withdrawals: u32, rounds: u32) -> u32 {
        if rounds == 0 {
            return 0;
        }
        let named = standing.iter().map(|&(access, s, o)| (access == Access::Read, s, o)).collect();
        let key = (named, holders.clone(), withdrawals, rounds);
        if let Some(&held) = self.known.get(&key) {
            return held;
        }
        // Moves that leave the same holders are one to the guard.
        let after: BTreeSet<Holders> = moves(standing).into_iter().map(|desk| moved(holders, desk)).collect();
        let each = after.iter().map(|holders| self.held_after(standing, holders, withdrawals, rounds));
        let held = each.min().expect("the desk can pass");
        self.known.insert(key, held);
        held
    }

    /// The same after a move of the desk. "The desk wins on reaching b." "then the guard withdraws one right for good, or
    /// passes": the most over its replies.
    fn held_after(&mut self, standing: &Rights, holders: &Holders, withdrawals: u32, rounds: u32) -> u32 {
        if holders.contains(&Holder::Object(self.target)) {
            return 0;
        }
        let mut most = self.held(standing, holders, withdrawals, rounds - 1);
        if withdrawals > 0 {
            for right in standing {
                let mut less = standing.clone();
                less.remove(right);
                most = most.max(self.held(&less, holders, withdrawals - 1, rounds - 1));
            }
        }
        1 + most
    }
}

impl Game {
    /// "23 when a = b, either is no object, or a count is outside these bounds, placed after 8."
    fn refusal(&self) -> u32 {
        let Game { rows, source, target, rounds, withdrawals } = self;
        if !matrix::well_formed(&rows.reads, &rows.writes, rows.objects) {
            return 8;
        }
        let sides = rows.reads.len() <= SIDE && rows.objects as usize <= SIDE;
        let objects = source != target && *source < rows.objects && *target < rows.objects;
        let counts = (1..=ROUNDS).contains(rounds) && *withdrawals <= WITHDRAWALS;
        if sides && objects && counts {
            0
        } else {
            23
        }
    }

    /// "State who can force the outcome and, where the desk can, its first winning move".
    pub fn answer(&self) -> Answer {
        let number = self.refusal();
        if number != 0 {
            return Answer { number, ..Answer::default() };
        }
        let mut guard = Guard { target: self.target as usize, ..Guard::default() };
        let standing = rights(&self.rows);
        let holders = Holders::from([Holder::Object(self.source as usize)]);
        let first = moves(&standing).into_iter().find(|&desk| {
            guard.held_after(&standing, &moved(&holders, desk), self.withdrawals, self.rounds) < self.rounds
        });
        match first {
            None => Answer::default(),
            Some(Some((access, s, o))) => {
                let code = if access == Access::Read { 1 } else { 3 };
                Answer { number: 1, code, subject: s as u32, object: o as u32 }
            }
            Some(None) => Answer { number: 1, ..Answer::default() },
        }
    }
}

#[cfg(test)]
mod tests {
    use super::*;

    fn game(reads: &[u32], writes: &[u32], objects: u32, rounds: u32, withdrawals: u32) -> Game {
        let rows = Rows { reads: reads.to_vec(), writes: writes.to_vec(), objects };
        Game { rows, source: 1, target: 0, rounds, withdrawals }
    }

    fn read(subject: u32, object: u32) -> Answer {
        Answer { number: 1, code: 1, subject, object }
    }

    /// "its first winning move": where there is a round to spare, a read that brings the information nowhere comes first.
    #[test]
    fn a_round_to_spare() {
        assert_eq!(game(&[3], &[1], 2, 1, 0).answer(), Answer::default());
        assert_eq!(game(&[3], &[1], 2, 2, 0).answer(), read(0, 1));
        assert_eq!(game(&[3], &[1], 2, 3, 0).answer(), read(0, 0));
    }

    /// Two subjects that can carry: a withdrawal stops one of them, and the desk needs a round more.
    #[test]
    fn one_withdrawal_for_two_subjects() {
        assert_eq!(game(&[2, 2], &[1, 1], 2, 2, 1).answer(), Answer::default());
        assert_eq!(game(&[2, 2], &[1, 1], 2, 3, 1).answer(), read(0, 1));
        assert_eq!(game(&[2, 2], &[1, 1], 2, 4, 2).answer(), Answer::default());
        assert_eq!(game(&[2, 2, 2], &[1, 1, 1], 2, 4, 2).answer(), read(0, 1));
    }

    #[test]
    fn refusals_in_their_order() {
        let refused = |game: &Game| game.answer().number;
        let good = game(&[2], &[1], 2, 1, 0);
        assert_eq!(refused(&good), 0);
        assert_eq!(refused(&Game { target: 1, ..good.clone() }), 23);
        assert_eq!(refused(&Game { source: 2, ..good.clone() }), 23);
        assert_eq!(refused(&Game { rounds: 0, ..good.clone() }), 23);
        assert_eq!(refused(&Game { rounds: 5, ..good.clone() }), 23);
        assert_eq!(refused(&Game { withdrawals: 3, ..good }), 23);
        assert_eq!(refused(&game(&[1; 4], &[1; 4], 2, 1, 0)), 23);
        assert_eq!(refused(&game(&[1], &[1], 4, 1, 0)), 23);
        assert_eq!(refused(&game(&[1], &[1], 33, 1, 0)), 8);
        assert_eq!(refused(&Game { target: 1, ..game(&[4], &[1], 2, 9, 9) }), 8);
    }
}
