//! Events and figures of the judge's answers, with the planted faults put in.

use judge::numbers::{CONTAINERS, RECORD, SESSION};
use judge::session::{outcome, Answer, Outcome};

use crate::faults::{planted, Fault};
use crate::step;

/// Numbers of an event, and of figures before those of the containers.
const EVENT: usize = 5;
const COUNTS: usize = 5;

/// How many records were judged, and how many events were written; nothing if it is refused.
pub fn events(session: &mut [u64], records: &[u8], events: &mut [u64]) -> Option<(usize, usize)> {
    if session.len() != SESSION || events.len() < EVENT && !planted(Fault::SmallRoomTaken) {
        return None;
    }
    let (mut taken, mut written) = (0, 0);
    let room = events.len() / EVENT;
    let mut stale = Answer { number: 0, receiver: 0, tag: 0, position: 0 };
    for record in records.chunks(RECORD) {
        let stops = if planted(Fault::LastEventDropped) { taken > 0 && written + 1 >= room } else { written == room };
        if stops {
            break;
        }
        let before = planted(Fault::EventsOnCopy).then(|| session.to_vec());
        let answer = step::step(session, record);
        if let Some(before) = before {
            session.copy_from_slice(&before);
        }
        let refused = outcome(answer.number) == Outcome::Refused;
        let told = if refused && planted(Fault::StaleReceiver) { stale } else { answer };
        stale = answer;
        if answer.number != 0 && !(planted(Fault::BlockedNoEvent) && outcome(answer.number) == Outcome::Blocked) {
            let place = taken + usize::from(planted(Fault::PlaceFromOne));
            let position = if planted(Fault::EventPositionUntold) { 0 } else { told.position };
            let numbers = [place as u64, answer.number.into(), told.receiver, told.tag, position.into()];
            events[written * EVENT..][..EVENT].copy_from_slice(&numbers);
            written += 1;
        }
        taken += 1;
    }
    if planted(Fault::EventsBehindCleared) {
        events[written * EVENT..].fill(0);
    }
    Some((taken, written))
}

pub fn figures(session: &mut [u64], records: &[u8], figures: &mut [u64]) -> u32 {
    if session.len() != SESSION || figures.len() != COUNTS + CONTAINERS.most {
        return 9;
    }
    if !planted(Fault::FiguresCountedOn) {
        figures.fill(0);
    }
    for record in records.chunks(RECORD) {
        let answer = step::step(session, record);
        figures[0] += 1;
        match outcome(answer.number) {
            Outcome::Quiet => figures[1] += 1,
            Outcome::Alert => {
                figures[1] += u64::from(!planted(Fault::AlertsNotAccepted));
                figures[2] += 1;
                let process = usize::from(record[2]);
                let receiver = answer.receiver as usize;
                let place = if planted(Fault::AlertOfProcess) { process } else { receiver };
                figures[COUNTS + place] += 1 + u64::from(planted(Fault::AlertCountedTwice));
            }
            Outcome::Refused => figures[3] += 1,
            Outcome::Blocked if planted(Fault::BlockedAsRefused) => figures[3] += 1,
            Outcome::Blocked => figures[4] += 1,
        }
    }
    0
}

pub fn add(total: &mut [u64], figures: &[u64]) -> u32 {
    let length = COUNTS + CONTAINERS.most;
    if total.len() != length || figures.len() != length {
        return 9;
    }
    let added = if planted(Fault::ContainersNotAdded) { COUNTS } else { length };
    for (sum, &more) in total.iter_mut().zip(figures).take(added) {
        *sum = if planted(Fault::SumStops) { sum.saturating_add(more) } else { sum.wrapping_add(more) };
    }
    0
}
