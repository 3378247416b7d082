//! Games of a desk against a guard: the library beside Rust that tries every move and reply, and Rust that prunes as the
//! library does.

use std::time::Instant;

use yaslaurel::{play, Matrix, Move, Outcome};

use crate::{on_image, work};

/// At most three subjects and objects.
const SIDE: usize = 3;

#[derive(Clone, Copy, PartialEq)]
struct Position {
    reads: [u32; SIDE],
    writes: [u32; SIDE],
    subjects: u32,
    objects: u32,
}

fn has(set: u32, k: usize) -> bool {
    set >> k & 1 == 1
}

/// The moves whose rights stand, in their order.
fn moves(p: &Position) -> Vec<Move> {
    let mut all = Vec::new();
    for (subject, object) in (0..SIDE).flat_map(|s| (0..SIDE).map(move |o| (s, o))) {
        if has(p.reads[subject], object) {
            all.push(Move::Read { subject: subject as u32, object: object as u32 });
        }
    }
    for (subject, object) in (0..SIDE).flat_map(|s| (0..SIDE).map(move |o| (s, o))) {
        if has(p.writes[subject], object) {
            all.push(Move::Append { subject: subject as u32, object: object as u32 });
        }
    }
    all.push(Move::Pass);
    all
}

fn moved(p: &Position, desk: Move) -> Position {
    let mut after = *p;
    match desk {
        Move::Read { subject, object } if has(p.objects, object as usize) => after.subjects |= 1 << subject,
        Move::Append { subject, object } if has(p.subjects, subject as usize) => after.objects |= 1 << object,
        _ => {}
    }
    after
}

/// The positions after each withdrawal.
fn withdrawals(p: &Position) -> Vec<Position> {
    let mut all = Vec::new();
    for (subject, object) in (0..SIDE).flat_map(|s| (0..SIDE).map(move |o| (s, o))) {
        if has(p.reads[subject], object) {
            let mut after = *p;
            after.reads[subject] &= !(1 << object);
            all.push(after);
        }
        if has(p.writes[subject], object) {
            let mut after = *p;
            after.writes[subject] &= !(1 << object);
            all.push(after);
        }
    }
    all
}

/// Every move, every reply.
mod natural {
    use super::{has, moved, moves, withdrawals, Position};

    pub fn desk(p: &Position, target: usize, rounds: u32, left: u32) -> bool {
        rounds > 0 && moves(p).into_iter().any(|desk| wins(&moved(p, desk), target, rounds, left))
    }

    pub fn wins(p: &Position, target: usize, rounds: u32, left: u32) -> bool {
        has(p.objects, target) || guard(p, target, rounds, left)
    }

    fn guard(p: &Position, target: usize, rounds: u32, left: u32) -> bool {
        desk(p, target, rounds - 1, left)
            && (left == 0 || withdrawals(p).iter().all(|after| desk(after, target, rounds - 1, left - 1)))
    }
}

/// A move that reaches the target first, then only moves that bring the information to a holder that lacked it, and nothing
/// behind the last round.
mod pruned {
    use super::{has, Position, SIDE};

    fn reaches(p: &Position, target: usize) -> bool {
        (0..SIDE).any(|s| has(p.subjects, s) && has(p.writes[s], target))
    }

    fn desk(p: &Position, target: usize, rounds: u32, left: u32) -> bool {
        if reaches(p, target) {
            return true;
        }
        if rounds == 1 {
            return false;
        }
        for s in 0..SIDE {
            if !has(p.subjects, s) && p.reads[s] & p.objects != 0 {
                let after = Position { subjects: p.subjects | 1 << s, ..*p };
                // Any object that holds will do: the position is the same.
                if guard(&after, target, rounds, left) {
                    return true;
                }
            }
        }
        for s in (0..SIDE).filter(|&s| has(p.subjects, s)) {
            for o in (0..SIDE).filter(|&o| has(p.writes[s], o) && !has(p.objects, o)) {
                let after = Position { objects: p.objects | 1 << o, ..*p };
                if guard(&after, target, rounds, left) {
                    return true;
                }
            }
        }
        false
    }

    pub fn guard(p: &Position, target: usize, rounds: u32, left: u32) -> bool {
        if rounds == 1 || !desk(p, target, rounds - 1, left) {
            return false;
        }
        if left == 0 {
            return true;
        }
        for s in 0..SIDE {
            for o in 0..SIDE {
                if has(p.reads[s], o) {
                    let mut after = *p;
                    after.reads[s] &= !(1 << o);
                    if !desk(&after, target, rounds - 1, left - 1) {
                        return false;
                    }
                }
                if has(p.writes[s], o) {
                    let mut after = *p;
                    after.writes[s] &= !(1 << o);
                    if !desk(&after, target, rounds - 1, left - 1) {
                        return false;
                    }
                }
            }
        }
        true
    }
}

/// A game: the matrix, source and target, rounds and withdrawals.
#[derive(Clone)]
struct Game {
    reads: Vec<u32>,
    writes: Vec<u32>,
    objects: u32,
    source: u32,
    target: u32,
    rounds: u32,
    withdrawals: u32,
}

impl Game {
    fn opening(&self) -> Position {
        let row = |rows: &[u32], s: usize| rows.get(s).copied().unwrap_or(0);
        let rows = |rows: &[u32]| [row(rows, 0), row(rows, 1), row(rows, 2)];
        Position { reads: rows(&self.reads), writes: rows(&self.writes), subjects: 0, objects: 1 << self.source }
    }

    fn library(&self) -> u64 {
        let matrix = Matrix { reads: &self.reads, writes: &self.writes, objects: self.objects };
        match play(matrix, self.source, self.target, self.rounds, self.withdrawals) {
            Ok(Outcome::Guard) => 0,
            Ok(Outcome::Desk { first }) => number(first),
            Err(refusal) => panic!("{refusal}"),
        }
    }

    #[inline(never)]
    fn natural(&self) -> u64 {
        let (p, target) = (self.opening(), self.target as usize);
        let wins = |&desk: &Move| natural::wins(&moved(&p, desk), target, self.rounds, self.withdrawals);
        moves(&p).into_iter().find(wins).map_or(0, number)
    }

    #[inline(never)]
    fn pruned(&self) -> u64 {
        let (p, target) = (self.opening(), self.target as usize);
        let idle = pruned::guard(&p, target, self.rounds, self.withdrawals);
        let wins = |&desk: &Move| {
            let after = moved(&p, desk);
            if after == p {
                idle
            } else {
                has(after.objects, target) || pruned::guard(&after, target, self.rounds, self.withdrawals)
            }
        };
        moves(&p).into_iter().find(wins).map_or(0, number)
    }
}

/// A winning move as a number from 1 on.
fn number(first: Move) -> u64 {
    match first {
        Move::Read { subject, object } => 1 + u64::from(3 * subject + object),
        Move::Append { subject, object } => 10 + u64::from(3 * subject + object),
        Move::Pass => 19,
    }
}

fn measure(name: &str, games: &[Game]) {
    let sum = |of: fn(&Game) -> u64| {
        move |_: &[u8]| games.iter().fold(0u64, |sum, game| sum.wrapping_mul(31).wrapping_add(of(game)))
    };
    let variants: Vec<(&'static str, Box<dyn FnMut(&[u8]) -> u64>)> = vec![
        ("library", Box::new(sum(Game::library))),
        ("natural", Box::new(sum(Game::natural))),
        ("pruned", Box::new(sum(Game::pruned))),
    ];
    let times = if games[0].rounds < 4 { 40 } else { 1 };
    let outcome = on_image(&[], times, variants);
    let ratio = |column: &str| outcome.ratios.iter().find(|(name, _)| *name == column).map_or(0.0, |found| found.1);
    let each = outcome.nanoseconds / games.len() as f64;
    println!("| {name} | {each:.0} | {:.4} | {:.2} |", ratio("natural"), ratio("pruned"));
}

/// Games of all sizes; then the slowest of all on three subjects and three objects.
pub fn games() {
    println!(
        "\n## Game of a desk against a guard\n\n| games | library ns | to natural | to pruned |\n|---|---|---|---|"
    );
    let mut r = work::Random(14);
    let mut rows = |count: usize| -> Vec<u32> { (0..count).map(|_| r.word() as u32 % 8).collect() };
    let game = |reads: Vec<u32>, writes: Vec<u32>, rounds, withdrawals| Game {
        reads,
        writes,
        objects: 3,
        source: 0,
        target: 2,
        rounds,
        withdrawals,
    };
    let matrices: Vec<(Vec<u32>, Vec<u32>)> = (0..20).map(|_| (rows(SIDE), rows(SIDE))).collect();
    for (rounds, withdrawals) in [(1, 0), (2, 0), (2, 1), (3, 0), (3, 1), (3, 2), (4, 0), (4, 1), (4, 2)] {
        let games: Vec<Game> =
            matrices.iter().map(|(reads, writes)| game(reads.clone(), writes.clone(), rounds, withdrawals)).collect();
        measure(&format!("3 subjects and objects, {rounds} rounds, {withdrawals} withdrawals"), &games);
    }
    for withdrawals in 0..=2 {
        let all = game(vec![7; SIDE], vec![7; SIDE], 4, withdrawals);
        measure(&format!("3 subjects and objects, every right, 4 rounds, {withdrawals} withdrawals"), &[all]);
    }
    let small = Game { objects: 2, target: 1, ..game(vec![3; 2], vec![3; 2], 4, 2) };
    measure("2 subjects and objects, every right, 4 rounds, 2 withdrawals", &[small]);
    slowest(|reads, writes| game(reads, writes, 4, 2));
}

/// The slowest game of 4 rounds and 2 withdrawals, each by the best of three.
fn slowest(game: impl Fn(Vec<u32>, Vec<u32>) -> Game) {
    let mut slowest = 0f64;
    for bits in 0..1u32 << 18 {
        let rows = |from: u32| (0..3).map(|s| bits >> (from + 3 * s) & 7).collect();
        let game = game(rows(0), rows(9));
        let time = || {
            let begun = Instant::now();
            std::hint::black_box(game.library());
            begun.elapsed().as_nanos() as f64
        };
        slowest = slowest.max(time().min(time()).min(time()));
    }
    println!("\nThe slowest of all 262,144 games on 3 subjects and objects, 4 rounds, 2 withdrawals: {slowest:.0} ns.");
}
