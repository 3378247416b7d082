//! A game of a desk against a guard, move by move: the program is the desk, a person the guard.

use std::io::{self, BufRead, Write};

use analysis::{desk_move, guard_moves, NamedMatrix, Position, Right};
use yaslaurel::Move;

use crate::status::Failure;

/// A move of the desk in words.
pub fn words(matrix: &NamedMatrix, desk: Move) -> String {
    let (subjects, objects) = (matrix.subjects(), matrix.objects());
    match desk {
        Move::Read { subject, object } => format!("{} reads {}", subjects[subject as usize], objects[object as usize]),
        Move::Append { subject, object } => {
            format!("{} appends to {}", subjects[subject as usize], objects[object as usize])
        }
        Move::Pass => "pass".into(),
    }
}

/// Prints a line at once.
fn say(text: &str) -> Result<(), Failure> {
    let mut out = io::stdout().lock();
    writeln!(out, "{text}").and_then(|()| out.flush()).map_err(Failure::output)
}

/// The guard's move in a line: nothing in the outer option for a line that is none.
fn guard_move(position: &Position, line: &str) -> Option<Option<Right>> {
    let words: Vec<&str> = line.split_whitespace().collect();
    let chosen = match words[..] {
        ["pass"] => None,
        ["withdraw", subject, access @ ("r" | "w"), object] => Some(Right {
            write: access == "w",
            subject: position.rights.subject_named(subject)?,
            object: position.rights.object_named(object)?,
        }),
        _ => return None,
    };
    guard_moves(position).contains(&chosen).then_some(chosen)
}

/// Asks the guard for a move until there is one.
fn ask_guard(
    position: &Position,
    lines: &mut dyn Iterator<Item = io::Result<String>>,
) -> Result<Option<Right>, Failure> {
    loop {
        let left = position.withdrawals;
        say(&format!("guard, you have {left} withdrawal{}", if left == 1 { "" } else { "s" }))?;
        let line = lines.next().ok_or_else(|| Failure::new("standard input ended before the game"))?;
        let line = line.map_err(|error| Failure::new(format!("standard input: {error}")))?;
        match guard_move(position, &line) {
            Some(chosen) => return Ok(chosen),
            None => say("that is no move, expected pass, or withdraw SUBJECT r OBJECT or withdraw SUBJECT w OBJECT of a right that stands")?,
        }
    }
}

/// Plays a game to its end, and says whether the desk has won. Its first move is given if the desk can force the outcome.
pub fn play(mut position: Position, mut first: Option<Move>) -> Result<bool, Failure> {
    let mut lines = io::stdin().lock().lines();
    for round in 1.. {
        let desk = first.take().unwrap_or_else(|| desk_move(&position).0);
        say(&format!("round {round}, the desk: {}", words(&position.rights, desk)))?;
        position = position.moved(desk);
        if position.reached() {
            say("the desk has won")?;
            return Ok(true);
        }
        if position.rounds == 1 {
            break;
        }
        position = position.answered(ask_guard(&position, &mut lines)?);
    }
    say("the guard has won")?;
    Ok(false)
}
