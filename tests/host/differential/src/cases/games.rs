//! Desk against guard: random games, and every game on two subjects and two objects.

use judge::game::{Answer, Game};
use judge::matrix;
use judge::withdrawals::Rows;
use yaslaurel::{ffi, play, Matrix, Move, Outcome};

use crate::bench::Bench;
use crate::case::{boxed, differ, differ_at, Case, Difference, Part};
use crate::counters::{Counters, Need};
use crate::lent::{guards_stand, Guarded};
use crate::random::Random;

pub const PART: Part = Part {
    name: "games: desk against guard",
    cases: 20_000,
    make: |r| Box::new(Played(make(r))),
    needs: &[
        Need::Numbers(GAME, &[0, 1, 8, 23]),
        Need::Words(FIRST, &["a read of the source", "an idle read"]),
        Need::Words(FLOW, &["composed, four rounds, no withdrawal", "composed, and the guard wins", "not composed"]),
    ],
};

pub const ALL: Part =
    Part { name: "games: all on two subjects and two objects", cases: 1, make: |_| Box::new(Every), needs: &[] };

const GAME: &str = "game, by answer";
const FIRST: &str = "first winning moves";
const FLOW: &str = "flows from source to target";

/// The three numbers behind the pointers before the call.
const BEFORE: (u32, u32, u32) = (0x7777_8888, 0x9999_aaaa, 0xbbbb_cccc);

struct Played(Game);

impl Case for Played {
    fn run(&self, _: &mut Bench, c: &mut Counters) -> Difference {
        let expected = self.0.answer();
        c.count(GAME, expected.number);
        self.count(expected, c);
        compare(&self.0, expected).or_else(|| flows(&self.0, expected, c))
    }

    fn simpler(&self) -> Vec<Box<dyn Case>> {
        boxed(simpler(&self.0).into_iter().map(Played))
    }

    fn show(&self) -> String {
        show(&self.0)
    }
}

impl Played {
    fn count(&self, answer: Answer, c: &mut Counters) {
        if answer.number == 1 {
            let word = match answer.code {
                1 if answer.object == self.0.source => "a read of the source",
                1 => "an idle read",
                _ => "no read",
            };
            c.count(FIRST, word);
        }
    }
}

/// Library and Rust interface, with what is left of all that was lent.
fn compare(game: &Game, expected: Answer) -> Difference {
    let Rows { reads, writes, .. } = &game.rows;
    let (lent_reads, lent_writes) = (Guarded::new(reads), Guarded::new(writes));
    let Answer { number, code, subject, object } = expected;
    let after = if number <= 1 { (code, subject, object) } else { BEFORE };
    differ("game", library(&lent_reads, &lent_writes, game), (number, after.0, after.1, after.2))
        .or_else(|| differ("game of the Rust interface", safe(game), expected))
        .or_else(|| differ_at("the read rows", lent_reads.content(), reads))
        .or_else(|| differ_at("the write rows", lent_writes.content(), writes))
        .or_else(|| guards_stand(&[&lent_reads, &lent_writes]))
}

fn library(reads: &Guarded<u32>, writes: &Guarded<u32>, game: &Game) -> (u32, u32, u32, u32) {
    let (mut code, mut subject, mut object) = BEFORE;
    // SAFETY: as `lent` says.
    let number = unsafe {
        ffi::yaslaurel_matrix_game(
            reads.pointer(),
            reads.length(),
            writes.pointer(),
            writes.length(),
            game.rows.objects,
            game.source,
            game.target,
            game.rounds,
            game.withdrawals,
            &mut code,
            &mut subject,
            &mut object,
        )
    };
    (number, code, subject, object)
}

fn safe(game: &Game) -> Answer {
    let Rows { reads, writes, objects } = &game.rows;
    let matrix = Matrix { reads, writes, objects: *objects };
    match play(matrix, game.source, game.target, game.rounds, game.withdrawals) {
        Ok(Outcome::Guard) => Answer::default(),
        Ok(Outcome::Desk { first }) => match first {
            Move::Read { subject, object } => Answer { number: 1, code: 1, subject, object },
            Move::Append { subject, object } => Answer { number: 1, code: 3, subject, object },
            Move::Pass => Answer { number: 1, ..Answer::default() },
        },
        Err(refusal) => Answer { number: refusal.number(), ..Answer::default() },
    }
}

/// The desk wins only where there is a composed flow from source to target, and there in four rounds without a withdrawal.
fn flows(game: &Game, answer: Answer, c: &mut Counters) -> Difference {
    if answer.number > 1 {
        return None;
    }
    let composed = matrix::composed(&game.rows.reads, &game.rows.writes, game.rows.objects, game.source, game.target);
    let enough = game.rounds == 4 && game.withdrawals == 0;
    let word = match (composed, enough, answer.number) {
        (true, true, _) => "composed, four rounds, no withdrawal",
        (true, false, 0) => "composed, and the guard wins",
        (true, false, _) => "composed, and the desk wins",
        (false, ..) => "not composed",
    };
    c.count(FLOW, word);
    (!composed && answer.number == 1 || composed && enough && answer.number == 0)
        .then(|| format!("the judge answers {} where the flow is composed: {composed}", answer.number))
}

fn row(r: &mut Random, objects: u32, percent: usize) -> u32 {
    (0..objects.min(32)).filter(|_| r.percent(percent)).fold(0, |row, k| row | 1 << k)
}

/// Games most of which are played.
fn make(r: &mut Random) -> Game {
    let (subjects, objects) =
        if r.percent(5) { (r.between(1, 5), r.between(1, 5)) } else { (r.between(1, 3), r.between(2, 3)) };
    let objects = objects as u32;
    let dense = r.pick(&[30, 50, 70, 100]);
    let some = |r: &mut Random| (0..subjects).map(|_| row(r, objects, dense)).collect();
    let mut rows = Rows { reads: some(r), writes: some(r), objects };
    let source = r.below(objects as usize) as u32;
    let other = (source + 1 + r.below(objects.max(2) as usize - 1) as u32) % objects;
    let target = if r.percent(5) { r.pick(&[source, 3, 4, u32::MAX]) } else { other };
    let rounds = if r.percent(5) { r.pick(&[0, 5, u32::MAX]) } else { r.pick(&[1, 2, 2, 3, 3, 3, 4, 4, 4]) };
    let withdrawals = if r.percent(5) { r.pick(&[3, 4, u32::MAX]) } else { r.below(3) as u32 };
    if r.percent(5) {
        damage(r, &mut rows);
    }
    Game { rows, source, target, rounds, withdrawals }
}

fn damage(r: &mut Random, rows: &mut Rows) {
    match r.below(4) {
        0 => rows.objects = r.pick(&[0, 1, 33, u32::MAX]),
        1 => rows.reads[0] |= 1 << r.between(3, 31),
        2 => rows.writes.push(0),
        _ => rows.reads.clear(),
    }
}

/// A subject less, a right less, a round less, a withdrawal less.
fn simpler(game: &Game) -> Vec<Game> {
    let mut found = Vec::new();
    let mut add = |change: &dyn Fn(&mut Game)| {
        let mut simpler = game.clone();
        change(&mut simpler);
        if simpler != *game {
            found.push(simpler);
        }
    };
    for s in 0..game.rows.reads.len().min(game.rows.writes.len()) {
        add(&|g| {
            g.rows.reads.remove(s);
            g.rows.writes.remove(s);
        });
        for k in 0..32 {
            add(&|g| g.rows.reads[s] &= !(1 << k));
            add(&|g| g.rows.writes[s] &= !(1 << k));
        }
    }
    add(&|g| g.rounds = g.rounds.saturating_sub(1));
    add(&|g| g.withdrawals = g.withdrawals.saturating_sub(1));
    found
}

fn show(game: &Game) -> String {
    let Game { rows: Rows { reads, writes, objects }, source, target, rounds, withdrawals } = game;
    format!(
        "read rows {reads:x?}, write rows {writes:x?}, {objects} objects, from {source} to {target}, {rounds} rounds, \
         {withdrawals} withdrawals\n"
    )
}

/// Every matrix of two subjects and two objects, both ways, with all rounds and withdrawals.
struct Every;

impl Case for Every {
    fn run(&self, _: &mut Bench, c: &mut Counters) -> Difference {
        for bits in 0..256u32 {
            let rows =
                Rows { reads: vec![bits & 3, bits >> 2 & 3], writes: vec![bits >> 4 & 3, bits >> 6], objects: 2 };
            for (source, target) in [(0, 1), (1, 0)] {
                for (rounds, withdrawals) in (1..=4).flat_map(|rounds| (0..=2).map(move |left| (rounds, left))) {
                    let game = Game { rows: rows.clone(), source, target, rounds, withdrawals };
                    let expected = game.answer();
                    let difference = compare(&game, expected).or_else(|| flows(&game, expected, c));
                    if let Some(difference) = difference {
                        return Some(format!("{difference}: {}", show(&game).trim_end()));
                    }
                }
            }
        }
        None
    }

    fn simpler(&self) -> Vec<Box<dyn Case>> {
        Vec::new()
    }

    fn show(&self) -> String {
        "every game on two subjects and two objects\n".to_string()
    }
}
