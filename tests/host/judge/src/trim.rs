//! "Trim a trace to its alert" (change request No. 13).

use crate::image;
use crate::numbers::{POSITIONS, RECORD, SESSION};
use crate::session::{self, outcome, Outcome};

/// What becomes of a cut that is tried.
#[derive(Clone, Copy, Debug, PartialEq, Eq)]
pub enum Cut {
    Counts,
    Refused,
    Blocked,
    NoAlert,
}

/// "a cut counts only if all its records are accepted and its last still alerts". "It runs on a session of its own": a new one for
/// each cut.
pub fn cut(image: &[u8], records: &[&[u8]], positions: &[usize]) -> Cut {
    let mut words = vec![0; SESSION];
    assert_eq!(session::start(image, &mut words), 0, "the image is accepted");
    let mut last = Outcome::Quiet;
    for &position in positions {
        last = outcome(session::step(&mut words, records[position]).number);
        match last {
            Outcome::Quiet | Outcome::Alert => {}
            Outcome::Blocked => return Cut::Blocked,
            Outcome::Refused => return Cut::Refused,
        }
    }
    if last == Outcome::Alert {
        Cut::Counts
    } else {
        Cut::NoAlert
    }
}

/// A trimmed trace: the kept positions, how many passes were made, and what became of each cut that was tried.
#[derive(Clone, Debug, PartialEq, Eq)]
pub struct Trimmed {
    pub positions: Vec<usize>,
    pub passes: usize,
    pub tried: Vec<Cut>,
}

/// "From up to 256 records whose last raises an alert, drop records, never the last, until no single further one can go". "Passes run from
/// first to last, dropping what can go, until one drops nothing." "The kept positions, counted from 0 in the given trace, are
/// returned in rising order." "22 when the trace is empty, too long, has a refused or blocked record or does not end in an
/// alert, placed after the policy's own refusals."
pub fn trim(image: &[u8], trace: &[u8]) -> Result<Trimmed, u32> {
    image::read(image)?;
    let records: Vec<&[u8]> = trace.chunks(RECORD).collect();
    let mut positions: Vec<usize> = (0..records.len()).collect();
    if records.is_empty() || records.len() > POSITIONS || cut(image, &records, &positions) != Cut::Counts {
        return Err(22);
    }
    let (mut passes, mut tried) = (0, Vec::new());
    loop {
        passes += 1;
        let before = positions.len();
        let mut at = 0;
        while at + 1 < positions.len() {
            let without = [&positions[..at], &positions[at + 1..]].concat();
            let found = cut(image, &records, &without);
            tried.push(found);
            if found == Cut::Counts {
                positions = without;
            } else {
                at += 1;
            }
        }
        if positions.len() == before {
            return Ok(Trimmed { positions, passes, tried });
        }
    }
}

/// The function as a host calls it: 9, which is this product's own, where the output has no room for 256 positions; then as above. A byte
/// for each position comes to the front of the output, and the number of them behind `kept`.
pub fn put(image: &[u8], trace: &[u8], out: &mut [u8], kept: &mut usize) -> u32 {
    if out.len() < POSITIONS {
        return 9;
    }
    match trim(image, trace) {
        Err(number) => number,
        Ok(trimmed) => {
            for (place, &position) in out.iter_mut().zip(&trimmed.positions) {
                *place = position as u8;
            }
            *kept = trimmed.positions.len();
            0
        }
    }
}

#[cfg(test)]
mod tests {
    use super::*;
    use crate::matrix;
    use crate::numbers::LONGEST_NORMAL;

    /// Reads by one subject that count for nothing, then the read and the append that raise the alert.
    #[test]
    fn unneeded_reads_go() {
        let mut image = vec![0; LONGEST_NORMAL];
        let length = matrix::policy(&[1, 2], &[1, 0], 2, &mut image);
        image.truncate(length as usize);
        let record = |code: u8, p: u8, o: u8| [code, 0, p, 0, o, 0, 255, 255];
        // Object 0 may hold itself alone; process 2 reads object 1, then appends to object 0.
        let trace = [record(1, 2, 0), record(1, 3, 1), record(1, 2, 1), record(1, 2, 0), record(3, 2, 0)].concat();
        assert_eq!(trim(&image, &trace).map(|t| (t.positions, t.passes)), Ok((vec![2, 4], 2)));
        assert_eq!(trim(&image, &trace[..32]), Err(22));
    }
}
