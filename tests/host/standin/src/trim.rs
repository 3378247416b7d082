//! A trace trimmed to its alert, written a second time with the faults inside: a pass keeps the session that the kept records leave,
//! and tries the rest on a copy of it. The judge has a new session for each cut.

use judge::image;
use judge::numbers::{POSITIONS, RECORD, SESSION};
use judge::session::{outcome, start, step, Outcome};

use crate::faults::{planted, Fault};

/// The records of a trace on sessions of one image.
struct Tries<'a> {
    image: &'a [u8],
    records: Vec<&'a [u8]>,
}

/// Whether a record of a cut that is answered so leaves the cut as one that may count.
fn passes(outcome: Outcome) -> bool {
    match outcome {
        Outcome::Quiet | Outcome::Alert => true,
        Outcome::Blocked => planted(Fault::BlockedInCut),
        Outcome::Refused => planted(Fault::RefusedInCut),
    }
}

impl Tries<'_> {
    fn started(&self) -> Vec<u64> {
        let mut session = vec![0; SESSION];
        assert_eq!(start(self.image, &mut session), 0, "the image is accepted");
        session
    }

    /// The record at a position, on a session.
    fn step(&self, session: &mut [u64], position: usize) -> Outcome {
        outcome(step(session, self.records[position]).number)
    }

    /// Whether a cut counts that goes on with these positions from the session on.
    fn counts(&self, session: &[u64], rest: &[usize]) -> bool {
        let mut session = session.to_vec();
        let (mut last, mut any) = (false, false);
        for &position in rest {
            let outcome = self.step(&mut session, position);
            if !passes(outcome) {
                return false;
            }
            last = outcome == Outcome::Alert;
            any |= last;
        }
        last || (any && planted(Fault::EarlierAlertCounts))
    }

    /// What one pass keeps of these positions, on a session as the start left it.
    fn pass(&self, positions: &[usize], session: &mut [u64]) -> Vec<usize> {
        let last = if planted(Fault::LastRecordDropped) { positions.len() } else { positions.len() - 1 };
        let (mut kept, mut alerts) = (Vec::new(), false);
        for at in 0..last {
            let goes = if at + 1 == positions.len() {
                // The last itself, tried as the others are.
                alerts
            } else if planted(Fault::CutOfTheBeginning) {
                let without = [&positions[..at], &positions[at + 1..]].concat();
                self.counts(&self.started(), &without)
            } else {
                self.counts(session, &positions[at + 1..])
            };
            if !goes {
                alerts = self.step(session, positions[at]) == Outcome::Alert;
                kept.push(positions[at]);
            }
        }
        kept.extend(&positions[last..]);
        kept
    }

    /// The same from last to first: what is kept so far is behind.
    fn pass_back(&self, positions: &[usize]) -> Vec<usize> {
        let mut kept = positions.to_vec();
        for at in (0..positions.len() - 1).rev() {
            let without = [&kept[..at], &kept[at + 1..]].concat();
            if self.counts(&self.started(), &without) {
                kept = without;
            }
        }
        kept
    }

    fn trimmed(&self) -> Vec<usize> {
        let mut positions: Vec<usize> = (0..self.records.len()).collect();
        let mut session = self.started();
        for pass in 1.. {
            let before = positions.len();
            if !planted(Fault::PassOnOldSession) {
                session = self.started();
            }
            let kept = if planted(Fault::LastToFirst) {
                self.pass_back(&positions)
            } else {
                self.pass(&positions, &mut session)
            };
            positions = if planted(Fault::PositionsInShortened) && kept.len() < before {
                // The trace itself is shortened, and counted anew.
                let shorter = Tries { image: self.image, records: kept.iter().map(|&k| self.records[k]).collect() };
                return shorter.trimmed();
            } else {
                kept
            };
            let ends = match Fault::planted() {
                Some(Fault::OnePassAlone) => true,
                Some(Fault::SixteenPasses) => pass == 16,
                _ => false,
            };
            if ends || positions.len() == before || positions.is_empty() {
                break;
            }
        }
        positions
    }
}

/// The kept positions, or the refusal.
fn positions(image: &[u8], trace: &[u8]) -> Result<Vec<usize>, u32> {
    let short = trace.chunks(RECORD).last().is_some_and(|record| record.len() < RECORD);
    if planted(Fault::TraceBeforeImage) && short {
        return Err(22);
    }
    image::read(image)?;
    let mut records: Vec<&[u8]> = trace.chunks(RECORD).collect();
    if short && planted(Fault::ShortRecordTrimmed) {
        records.pop();
    }
    let most = if planted(Fault::TraceOf256Refused) { POSITIONS - 1 } else { POSITIONS };
    if planted(Fault::TraceOf257Taken) {
        records.truncate(most);
    }
    if records.is_empty() || records.len() > most {
        return Err(22);
    }
    let tries = Tries { image, records };
    let all: Vec<usize> = (0..tries.records.len()).collect();
    if tries.counts(&tries.started(), &all) {
        Ok(tries.trimmed())
    } else {
        Err(22)
    }
}

pub fn put(image: &[u8], trace: &[u8], out: &mut [u8], kept: &mut usize) -> u32 {
    let wanted = if planted(Fault::OutputByTrace) { (trace.len() / RECORD).min(POSITIONS) } else { POSITIONS };
    let found = if out.len() < wanted { Err(9) } else { positions(image, trace) };
    match found {
        Err(number) => {
            if planted(Fault::RefusedTrimClearsCount) {
                *kept = 0;
            }
            number
        }
        Ok(positions) => {
            for (place, &position) in out.iter_mut().zip(&positions) {
                *place = position as u8;
            }
            if planted(Fault::PositionsCleared) {
                out[positions.len()..].fill(0);
            }
            *kept = positions.len();
            0
        }
    }
}
