//! Steps and runs of the judge, with the planted faults put in at the points that the functions here name.

use std::borrow::Cow;

use judge::numbers::{
    container_row, user_row, CONTAINERS, NOBODY, RECORD, ROW_KIND, ROW_PERMIT, ROW_RUN, ROW_TAG, ROW_USER,
    RULE_MIXTURES, SESSION,
};
use judge::rules::{covers, holds, meet, position, running_atoms, NO_POSITION};
use judge::session::{self, outcome, Answer, Outcome, Record, Run, ALERT, BLOCKED, QUIET};

use crate::faults::{planted, Fault};

pub fn run(session: &mut [u64], records: &[u8]) -> Run {
    let quiet = Answer { number: QUIET, receiver: 0, tag: 0, position: 0 };
    if planted(Fault::EmptyRunUnchecked) && records.is_empty() {
        return Run { answer: quiet, taken: 0 };
    }
    if Fault::planted().is_none() || session.len() != SESSION {
        return session::run(session, records);
    }
    let before = session.to_vec();
    let shorter = if planted(Fault::ShortLastRecordLeftOut) { records.len() % RECORD } else { 0 };
    let mut taken = 0;
    for record in records[..records.len() - shorter].chunks(RECORD) {
        taken += 1;
        let answer = step(session, record);
        if refused(answer.number) && planted(Fault::RefusalUndoesRun) {
            session.copy_from_slice(&before);
        }
        let goes_on = match outcome(answer.number) {
            Outcome::Quiet => true,
            Outcome::Alert => planted(Fault::RunPastAlert),
            Outcome::Blocked => planted(Fault::RunPastBlocked),
            Outcome::Refused => false,
        };
        if !goes_on {
            return Run { answer, taken: taken - usize::from(planted(Fault::StopNotCounted)) };
        }
    }
    Run { answer: quiet, taken }
}

pub fn step(session: &mut [u64], bytes: &[u8]) -> Answer {
    if Fault::planted().is_none() {
        return session::step(session, bytes);
    }
    let bytes = &record_taken(bytes)[..];
    let kept = kept_permit(session, bytes);
    let before = session.to_vec();
    let answer = judged(session, bytes);
    if let Some(other) = other_answer(session, &before, bytes, answer.number) {
        return other;
    }
    let Some(record) = session::read_record(bytes).filter(|_| !refused(answer.number)) else { return answer };
    let answer = match outcome(answer.number) {
        Outcome::Quiet | Outcome::Alert => accepted(session, &before, record, kept, answer),
        Outcome::Blocked => blocked(session, record, answer),
        Outcome::Refused => answer,
    };
    Answer { position: position_told(session, record, answer), ..answer }
}

/// The position that an answer tells.
fn position_told(session: &[u64], record: Record, answer: Answer) -> u32 {
    if refused(answer.number) {
        return answer.position;
    }
    let row = &session[container_row(answer.receiver as usize)];
    let permit = rule(&row[ROW_PERMIT]);
    match (Fault::planted(), record.code) {
        (Some(Fault::LeaverPositionZero), 8 | 9) => 0,
        (_, 8 | 9) => NO_POSITION,
        (Some(Fault::PositionFromOne), _) if answer.position != NO_POSITION => answer.position + 1,
        (Some(Fault::PositionOfLast), _) => {
            permit.iter().rposition(|&mixture| holds(mixture, answer.tag)).map_or(NO_POSITION, |place| place as u32)
        }
        (Some(Fault::PositionInRunRule), _) => position(rule(&row[ROW_RUN]), answer.tag),
        (Some(Fault::NewFilePositionZero), 6) => 0,
        (Some(Fault::AlertPositionCount), _) if answer.number == ALERT => permit.len() as u32,
        (Some(Fault::BlockedOldPosition), _) if answer.number == BLOCKED => position(permit, row[ROW_TAG]),
        _ => position(permit, answer.tag),
    }
}

/// An operation that was blocked.
fn blocked(session: &mut [u64], record: Record, answer: Answer) -> Answer {
    let place = container_row(record.o);
    match Fault::planted() {
        Some(Fault::BlockedWrites) => {
            let made = unguarded(session, record);
            Answer { number: BLOCKED, ..made }
        }
        Some(Fault::GuardedAlerts) => unguarded(session, record),
        Some(Fault::AlwaysQuiet) => Answer { number: QUIET, ..unguarded(session, record) },
        Some(Fault::BlockedOldTag) => Answer { tag: session[place][ROW_TAG], ..answer },
        Some(Fault::BlockedAsAlert) => Answer { number: ALERT, ..answer },
        _ => answer,
    }
}

/// The operation on a file that is not guarded, which is guarded again behind it.
fn unguarded(session: &mut [u64], record: Record) -> Answer {
    let place = container_row(record.o);
    session[place.clone()][ROW_KIND] = 1;
    let answer = session::step(session, &spelled(record));
    session[place][ROW_KIND] = 4;
    answer
}

/// The bytes of a record.
fn spelled(record: Record) -> Vec<u8> {
    let user = record.u.map_or(u16::MAX, |user| user as u16);
    let numbers = [record.p as u16, record.o as u16, user];
    [record.code, 0].into_iter().chain(numbers.into_iter().flat_map(u16::to_le_bytes)).collect()
}

/// Whether a number is a refusal.
fn refused(number: u32) -> bool {
    outcome(number) == Outcome::Refused
}

fn refusal(number: u32) -> Option<Answer> {
    Some(Answer { number, receiver: 0, tag: 0, position: 0 })
}

/// The record that is judged.
fn record_taken(bytes: &[u8]) -> Cow<'_, [u8]> {
    if planted(Fault::ShortRecordPadded) && bytes.len() < RECORD {
        return bytes.iter().copied().chain([0; RECORD]).take(RECORD).collect();
    }
    bytes.into()
}

/// The permit rule that one who left has left in the free row of o, which the row then no longer has.
fn kept_permit(session: &mut [u64], bytes: &[u8]) -> Option<Vec<u64>> {
    let record = session::read_record(bytes).filter(|_| planted(Fault::LaterHolderKeepsPermit))?;
    let row = session.get_mut(container_row(record.o)).filter(|row| row[ROW_KIND] == 0)?;
    let permit = row[ROW_PERMIT].to_vec();
    row[ROW_PERMIT].fill(0);
    (permit[0] > 0).then_some(permit)
}

/// The judge's step, on the users that it is to read.
fn judged(session: &mut [u64], bytes: &[u8]) -> Answer {
    let moved = planted(Fault::UsersReadAtOldPlace) && session.len() == SESSION;
    let user = session::read_record(bytes).and_then(|record| record.u).filter(|_| moved);
    let Some(user) = user else { return session::step(session, bytes) };
    // Where the row would stand behind container rows without a user.
    let place = user_row(user);
    let from = place.start - CONTAINERS.most;
    let kept = session[place.clone()].to_vec();
    session.copy_within(from..from + place.len(), place.start);
    let answer = session::step(session, bytes);
    session[place].copy_from_slice(&kept);
    answer
}

/// A refusal in place of this answer, or another answer in place of this refusal.
fn other_answer(session: &mut [u64], before: &[u64], bytes: &[u8], number: u32) -> Option<Answer> {
    match Fault::planted()? {
        Fault::OtherUserBeforeUndeclared | Fault::NobodyRefusedByUser | Fault::ExecRefusedByUser => {
            let other = refused_18(before, bytes, number).then(|| refusal(18)).flatten()?;
            session.copy_from_slice(before);
            Some(other)
        }
        Fault::EndOfAnotherRefusedByKind => {
            let another = bytes.len() == RECORD && bytes[0] == 8 && bytes[2..4] != bytes[4..6];
            (number == 7 && another).then(|| refusal(12)).flatten()
        }
        Fault::ProcessDeleted => process_deleted(session, bytes).filter(|_| number == 12),
        Fault::GuardedNotExecuted | Fault::GuardedNotDeleted => {
            let code = if planted(Fault::GuardedNotExecuted) { 4 } else { 9 };
            let record = session::read_record(bytes).filter(|record| record.code == code)?;
            let judged = ![7, 9, 10, 11].contains(&number);
            if !judged || before[container_row(record.o)][ROW_KIND] != 4 {
                return None;
            }
            session.copy_from_slice(before);
            refusal(12)
        }
        Fault::BlockedBeforeMeet => {
            let record = session::read_record(bytes).filter(|record| number == 15 && record.code == 3)?;
            let (p, o) = (&before[container_row(record.p)], &before[container_row(record.o)]);
            let tag = p[ROW_TAG] | o[ROW_TAG];
            let blocks = o[ROW_KIND] == 4 && !covers(rule(&o[ROW_PERMIT]), tag);
            blocks.then_some(Answer { number: BLOCKED, receiver: record.o as u64, tag, position: NO_POSITION })
        }
        Fault::UnusedWordsUnseen | Fault::ProcessOfUser16 | Fault::FileOfUser0 | Fault::FreeRowOfNobody => {
            (number == 10).then(|| overlooked(session, before, bytes)).flatten()
        }
        _ => None,
    }
}

/// Whether 18 is given for another user too early, for nobody, or on an exec.
fn refused_18(session: &[u64], bytes: &[u8], number: u32) -> bool {
    let Some(record) = session::read_record(bytes) else { return false };
    let Some(row) = session.get(container_row(record.p)) else { return false };
    let other = row[ROW_USER] != NOBODY && record.u.map(|u| u as u64) != Some(row[ROW_USER]);
    match Fault::planted() {
        Some(Fault::OtherUserBeforeUndeclared) => record.code == 6 && number == 14 && other,
        Some(Fault::NobodyRefusedByUser) => record.code == 6 && !refused(number) && row[ROW_USER] == NOBODY,
        Some(Fault::ExecRefusedByUser) => record.code == 4 && (!refused(number) || number == 15) && other,
        _ => false,
    }
}

/// A delete of a process.
fn process_deleted(session: &mut [u64], bytes: &[u8]) -> Option<Answer> {
    let record = session::read_record(bytes).filter(|record| record.code == 9)?;
    let row = session.get_mut(container_row(record.o)).filter(|row| row[ROW_KIND] == 3)?;
    row.fill(0);
    Some(Answer { number: QUIET, receiver: record.o as u64, tag: 0, position: NO_POSITION })
}

/// A quiet step on a session that is not well formed, where the fault does not look.
fn overlooked(session: &mut [u64], before: &[u64], bytes: &[u8]) -> Option<Answer> {
    let mut cleared = before.to_vec();
    for number in 0..CONTAINERS.most {
        overlook(&mut cleared[container_row(number)]);
    }
    let again = session::step(&mut cleared, bytes);
    if again.number != QUIET {
        return None;
    }
    session.copy_from_slice(&cleared);
    Some(again)
}

/// Makes well formed what the fault does not look at.
fn overlook(row: &mut [u64]) {
    match (Fault::planted(), row[ROW_KIND], row[ROW_USER]) {
        (Some(Fault::UnusedWordsUnseen), _, _) => {
            for place in [ROW_PERMIT, ROW_RUN] {
                let words = &mut row[place];
                let count = words[0].min(RULE_MIXTURES as u64) as usize;
                words[1 + count..].fill(0);
            }
        }
        (Some(Fault::ProcessOfUser16), 3, 16) | (Some(Fault::FileOfUser0), 1, 0) => row[ROW_USER] = NOBODY,
        (Some(Fault::FreeRowOfNobody), 0, NOBODY) => row[ROW_USER] = 0,
        _ => {}
    }
}

/// An operation that was accepted: what it leaves, and its answer.
fn accepted(session: &mut [u64], before: &[u64], record: Record, kept: Option<Vec<u64>>, answer: Answer) -> Answer {
    if planted(Fault::SessionUntouched) {
        session.copy_from_slice(before);
    }
    if record.code >= 8 {
        return left(session, before, record, answer);
    }
    if planted(Fault::SessionUntouched) {
        return answer;
    }
    if let (Some(permit), 5..=7) = (kept, record.code) {
        session[container_row(record.o)][ROW_PERMIT].copy_from_slice(&permit);
    }
    let (p, o) = (&before[container_row(record.p)], &before[container_row(record.o)]);
    let row = &mut session[container_row(answer.receiver as usize)];
    change_row(row, record.code, p, o);
    let meet_of_eight = matches!(record.code, 1 | 3) && rule(&row[ROW_RUN]).len() == RULE_MIXTURES;
    if planted(Fault::MeetOfEightRefused) && meet_of_eight && p[ROW_RUN] != o[ROW_RUN] {
        session.copy_from_slice(before);
        return Answer { number: 15, receiver: 0, tag: 0, position: 0 };
    }
    if planted(Fault::NewFileGuarded) && record.code == 6 {
        row[ROW_KIND] = 4;
    }
    let (number, tag) = (verdict(row, record.code), row[ROW_TAG]);
    let blocks = match (Fault::planted(), record.code) {
        (Some(Fault::PlainFileBlocked), 2 | 3) => row[ROW_KIND] == 1,
        (Some(Fault::ReadBlocked), 1) => true,
        _ => false,
    };
    if blocks && number == ALERT {
        session.copy_from_slice(before);
        return Answer { number: BLOCKED, tag, ..answer };
    }
    Answer { number, tag, ..answer }
}

/// An end or a delete that was accepted.
fn left(session: &mut [u64], before: &[u64], record: Record, answer: Answer) -> Answer {
    let place = container_row(record.o);
    let held = &before[place.clone()];
    match Fault::planted() {
        Some(Fault::LeaverKeepsRow) => session[place].copy_from_slice(held),
        Some(Fault::LeaverLosesKindAlone) => {
            session[place.clone()].copy_from_slice(held);
            session[place][ROW_KIND] = 0;
        }
        Some(Fault::DeleteFreesProcess) => {
            if record.code == 9 {
                session[place].copy_from_slice(held);
            }
            session[container_row(record.p)].fill(0);
        }
        Some(Fault::LaterHolderKeepsPermit) => session[place][ROW_PERMIT].copy_from_slice(&held[ROW_PERMIT]),
        _ => {}
    }
    Answer { tag: if planted(Fault::LeaverAnswersOldTag) { held[ROW_TAG] } else { 0 }, ..answer }
}

/// A row's rule of nine words, its mixtures.
fn rule(words: &[u64]) -> &[u64] {
    &words[1..1 + words[0] as usize]
}

/// What an operation leaves in the receiver's row, where p and o had these.
fn change_row(row: &mut [u64], code: u8, p: &[u64], o: &[u64]) {
    match (Fault::planted(), code) {
        (Some(Fault::RunningAtomByRead), 1) | (Some(Fault::OverwrittenKeepsTag), 2) => row[ROW_TAG] |= o[ROW_TAG],
        (Some(Fault::ExecKeepsAll), 4) => row[ROW_TAG] |= p[ROW_TAG],
        (Some(Fault::ExecDropsData), 4) => row[ROW_TAG] = running_atoms(o[ROW_TAG]),
        (Some(Fault::ExecTurnsData), 4) => row[ROW_TAG] = running_atoms(p[ROW_TAG] | o[ROW_TAG]),
        (Some(Fault::ExecKeepsRunRule), 4) => row[ROW_RUN].copy_from_slice(&p[ROW_RUN]),
        (Some(Fault::ExecKeepsUser), 4) | (Some(Fault::WriteHandsOnUser), 2) => row[ROW_USER] = p[ROW_USER],
        (Some(Fault::ForkForNobody), 5) => row[ROW_USER] = NOBODY,
        (Some(Fault::ReadNarrowsPermit), 1) => {
            let narrowed = meet(rule(&p[ROW_PERMIT]), rule(&o[ROW_RUN]));
            if narrowed.len() <= RULE_MIXTURES {
                let permit = &mut row[ROW_PERMIT];
                permit.fill(0);
                permit[0] = narrowed.len() as u64;
                permit[1..1 + narrowed.len()].copy_from_slice(&narrowed);
            }
        }
        _ => {}
    }
}

/// Quiet or alert, for the receiver's row.
fn verdict(row: &[u64], code: u8) -> u32 {
    let (permit, tag) = (rule(&row[ROW_PERMIT]), row[ROW_TAG]);
    let covered = if planted(Fault::CoveringByAtoms) {
        (0..64).filter(|k| tag >> k & 1 == 1).all(|k| permit.iter().any(|&m| holds(m, 1 << k)))
    } else {
        covers(permit, tag)
    };
    if planted(Fault::AlwaysQuiet) || code > 5 || covered {
        QUIET
    } else {
        ALERT
    }
}
