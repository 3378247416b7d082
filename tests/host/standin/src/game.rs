//! Desk against guard, from the desk's side, with the faults inside. The judge counts the rounds that the guard holds.

use std::collections::HashMap;

use judge::game::{Answer, Game, ROUNDS, SIDE, WITHDRAWALS};
use judge::matrix::well_formed;

use crate::faults::{planted, Fault};

/// Rights and moves by number: reads, then appends, by subject, then object; the pass behind them.
const READS: u32 = 9;
const RIGHTS: u32 = 18;

/// The rights that stand, and the subjects and objects that hold the information.
#[derive(Clone, Copy, PartialEq, Eq, Hash)]
struct Position {
    rights: u32,
    subjects: u32,
    objects: u32,
}

/// What the guard has left, and whether it has replied at all.
#[derive(Clone, Copy, PartialEq, Eq, Hash)]
struct Guard {
    left: u32,
    replied: bool,
}

struct Table {
    target: u32,
    /// Whether the desk wins, by position, guard and rounds left.
    known: HashMap<(Position, Guard, u32), bool>,
}

fn has(set: u32, k: u32) -> bool {
    set >> k & 1 == 1
}

fn parts(k: u32) -> (u32, u32) {
    (k % READS / 3, k % 3)
}

/// The moves that can be made, in the order in which the first winning one is looked for.
fn moves(p: Position) -> Vec<u32> {
    let mut all: Vec<u32> = (0..RIGHTS).filter(|&k| has(p.rights, k)).chain([RIGHTS]).collect();
    match Fault::planted() {
        Some(Fault::AppendsFirst) => all.sort_by_key(|&k| (k / READS + 1) % 2),
        Some(Fault::LargestSubjectFirst) => all.sort_by_key(|&k| (k / READS, 3 - parts(k).0)),
        Some(Fault::PassFirst) => all.rotate_right(1),
        _ => {}
    }
    all
}

fn moved(p: Position, k: u32) -> Position {
    let (s, o) = parts(k);
    let mut after = p;
    if k < READS && has(p.objects, o) {
        after.subjects |= 1 << s;
    }
    if (READS..RIGHTS).contains(&k) && has(p.subjects, s) {
        after.objects |= 1 << o;
    }
    if planted(Fault::ReadTakesWithoutHolder) && k < READS {
        after.subjects |= 1 << s;
    }
    after
}

impl Table {
    fn reached(&self, p: Position) -> bool {
        has(p.objects, self.target)
    }

    fn desk(&mut self, p: Position, guard: Guard, rounds: u32) -> bool {
        if rounds == 0 {
            return false;
        }
        if let Some(&wins) = self.known.get(&(p, guard, rounds)) {
            return wins;
        }
        let wins = moves(p).into_iter().any(|k| self.wins(moved(p, k), guard, rounds));
        self.known.insert((p, guard, rounds), wins);
        wins
    }

    /// Whether a move that leads here wins.
    fn wins(&mut self, p: Position, guard: Guard, rounds: u32) -> bool {
        self.reached(p) || self.through(p, guard, rounds.saturating_sub(1))
    }

    /// Whether the desk wins after each reply of the guard.
    fn through(&mut self, p: Position, guard: Guard, rounds: u32) -> bool {
        let mut replies = vec![(p, guard.left)];
        if guard.left > 0 && !(planted(Fault::GuardOnce) && guard.replied) {
            let left = if planted(Fault::WithdrawalFree) { guard.left } else { guard.left - 1 };
            let standing = (0..RIGHTS).filter(|&k| has(p.rights, k));
            replies.extend(standing.map(|k| (Position { rights: p.rights & !(1 << k), ..p }, left)));
        }
        if planted(Fault::GuardMustWithdraw) && replies.len() > 1 {
            replies.remove(0);
        }
        replies.into_iter().all(|(after, left)| {
            let next = if planted(Fault::RightReturns) { Position { rights: p.rights, ..after } } else { after };
            self.desk(next, Guard { left, replied: guard.replied || after != p }, rounds)
        })
    }
}

fn refusal(game: &Game) -> u32 {
    let Game { rows, source, target, rounds, withdrawals } = game;
    let malformed = !well_formed(&rows.reads, &rows.writes, rows.objects);
    let more = |fault| u32::from(planted(fault));
    let sides = rows.reads.len() <= SIDE + more(Fault::FourSubjects) as usize
        && rows.objects as usize <= SIDE + more(Fault::FourObjects) as usize;
    let objects =
        (source != target || planted(Fault::SameObjectAccepted)) && *source < rows.objects && *target < rows.objects;
    let counts = (1 - more(Fault::NoRound)..=ROUNDS + more(Fault::FiveRounds)).contains(rounds)
        && *withdrawals <= WITHDRAWALS + more(Fault::ThreeWithdrawals);
    match (malformed, sides && objects && counts) {
        (true, false) if planted(Fault::GameBeforeMatrix) => 23,
        (true, _) => 8,
        (false, false) => 23,
        (false, true) => 0,
    }
}

/// The rights of a matrix by number. A right beyond three subjects and objects, which a fault lets in, is none.
fn rights_of(game: &Game) -> u32 {
    let mut rights = 0;
    for (s, (read, write)) in game.rows.reads.iter().zip(&game.rows.writes).enumerate().take(SIDE) {
        let (read, write) = if planted(Fault::WriteAsRead) { (read | write, write) } else { (*read, write) };
        rights |= (read & 7) << (3 * s) | (write & 7) << (READS as usize + 3 * s);
    }
    rights
}

/// The answer, and whether the three numbers are written.
pub fn answer(game: &Game) -> (Answer, bool) {
    let number = refusal(game);
    if number != 0 {
        return (Answer { number, ..Answer::default() }, planted(Fault::RefusedGameClears));
    }
    let p = Position { rights: rights_of(game), subjects: 0, objects: 1 << game.source };
    let guard = Guard { left: game.withdrawals, replied: false };
    let mut table = Table { target: game.target, known: HashMap::new() };
    if planted(Fault::GuardFirst) && !table.through(p, guard, game.rounds) {
        return (Answer::default(), true);
    }
    let first = moves(p).into_iter().find(|&k| {
        let after = moved(p, k);
        (after != p || !planted(Fault::IdleFirstSkipped)) && table.wins(after, guard, game.rounds)
    });
    let answer = match first {
        None => Answer::default(),
        Some(RIGHTS) => Answer { number: 1, ..Answer::default() },
        Some(k) => {
            let (subject, object) = parts(k);
            Answer { number: 1, code: if k < READS { 1 } else { 3 }, subject, object }
        }
    };
    (answer, answer.number == 1 || !planted(Fault::GuardLeavesNumbers))
}
