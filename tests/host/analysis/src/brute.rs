//! Brute force: every session of a small policy, breadth first, through the judge.

use std::collections::HashSet;

use judge::numbers::{container_row, ATOMS, NO_USER, RECORD, ROW_KIND, ROW_TAG, SESSION};
use judge::session::{outcome, start, step, Outcome};

/// How many numbers beyond those of the policy a session may take: a fork and two new files are the most that a shortest chain takes.
const SPARE: usize = 3;

/// A session: the rows of the containers, and which of the policy's containers have not left.
#[derive(Clone, PartialEq, Eq, Hash)]
struct State {
    rows: Vec<u64>,
    there: u32,
}

/// The fewest steps by which each atom comes into each container of the policy.
pub struct Reached {
    /// By container, then by atom.
    steps: Vec<[Option<usize>; ATOMS]>,
    /// All sessions of up to so many steps were looked at.
    pub depth: usize,
}

impl Reached {
    /// The fewest steps for an atom and a container, as far as looked.
    pub fn steps(&self, container: u8, atom: u32) -> Option<usize> {
        self.steps[usize::from(container)][atom as usize]
    }

    /// Forgets what was found by so many steps: that round was not finished.
    fn forget(&mut self, steps: usize) {
        self.steps.iter_mut().flatten().filter(|fewest| **fewest == Some(steps)).for_each(|fewest| *fewest = None);
    }

    /// Notes what the policy's containers hold.
    fn note(&mut self, state: &State, depth: usize) {
        for (container, steps) in self.steps.iter_mut().enumerate() {
            let tag = state.rows[container_row(container)][ROW_TAG];
            for (atom, fewest) in steps.iter_mut().enumerate() {
                if state.there >> container & 1 == 1 && tag >> atom & 1 == 1 && fewest.is_none() {
                    *fewest = Some(depth);
                }
            }
        }
    }
}

/// The records that are tried: each code with each process, object and user. A new container takes the smallest free number: which free number it is
/// makes no difference to anything but its name.
fn records(rows: &[u64], users: usize) -> Vec<[u8; RECORD]> {
    let count = rows.len() / container_row(0).len();
    let kind = |number: usize| rows[container_row(number)][ROW_KIND];
    let free = (0..count).find(|&number| kind(number) == 0);
    let mut found = Vec::new();
    for code in 1..=9_u8 {
        for p in (0..count).filter(|&p| kind(p) == 3) {
            for o in 0..count {
                let named = match code {
                    5..=7 => Some(o) == free,
                    8 => o == p,
                    _ => kind(o) != 0,
                };
                let users: Vec<u16> = if code == 4 || code == 6 { (0..users as u16).collect() } else { vec![NO_USER] };
                for u in users.into_iter().filter(|_| named) {
                    let [low, high] = u.to_le_bytes();
                    found.push([code, 0, p as u8, 0, o as u8, 0, low, high]);
                }
            }
        }
    }
    found
}

/// Looks at all sessions of an image of so many containers and users, up to a number of steps and of sessions. With `quiet` only steps that
/// the judge answers quiet are taken, else alerts too. What is refused or blocked changes nothing.
pub fn reached(image: &[u8], containers: usize, users: usize, quiet: bool, depth: usize, most: usize) -> Reached {
    let mut session = vec![0; SESSION];
    assert_eq!(start(image, &mut session), 0, "the judge accepts the image");
    let rows = ..container_row(containers + SPARE - 1).end;
    let first = State { rows: session[rows].to_vec(), there: (1 << containers) - 1 };
    let mut found = Reached { steps: vec![[None; ATOMS]; containers], depth: 0 };
    found.note(&first, 0);
    let mut seen = HashSet::from([first.clone()]);
    let mut level = vec![first];
    for steps in 1..=depth {
        let mut next = Vec::new();
        for state in &level {
            for record in records(&state.rows, users) {
                session[rows].copy_from_slice(&state.rows);
                let taken = match outcome(step(&mut session, &record).number) {
                    Outcome::Quiet => true,
                    Outcome::Alert => !quiet,
                    Outcome::Blocked | Outcome::Refused => false,
                };
                let left = if record[0] >= 8 { 1 << record[4] } else { 0 };
                let after = State { rows: session[rows].to_vec(), there: state.there & !left };
                if taken && !seen.contains(&after) {
                    seen.insert(after.clone());
                    found.note(&after, steps);
                    next.push(after);
                }
            }
            if seen.len() > most {
                found.forget(steps);
                return found;
            }
        }
        level = next;
        found.depth = steps;
    }
    found
}
