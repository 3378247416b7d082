//! "Session" and "Operations".

use crate::image::{read, Kind};
use crate::numbers::{
    container_row, user_row, CONTAINERS, NOBODY, NO_USER, RECORD, ROW_DECLARED, ROW_KIND, ROW_PERMIT, ROW_RULE,
    ROW_RUN, ROW_TAG, ROW_USER, RULE_MIXTURES, RULE_WORDS, SESSION, USERS,
};
use crate::rules::{covers, data_atoms, meet, normal, position, running_atoms, unrestricted, Rule, NO_POSITION};

/// The numbers of the answers quiet, alert and blocked.
pub const QUIET: u32 = 0;
pub const ALERT: u32 = 256;
pub const BLOCKED: u32 = 257;

/// What one operation returns: quiet, alert, blocked or the number of its refusal; "Each answer gives receiver and tag", and "Every operation's
/// answer carries it for the receiver's permit rule" (the position, change request No. 12).
#[derive(Clone, Copy, Debug, PartialEq, Eq)]
pub struct Answer {
    pub number: u32,
    pub receiver: u64,
    pub tag: u64,
    pub position: u32,
}

/// What the number of an answer stands for. Each match names every case, so that a further one is missed nowhere.
#[derive(Clone, Copy, Debug, PartialEq, Eq)]
pub enum Outcome {
    Quiet,
    Alert,
    Blocked,
    Refused,
}

/// The outcome of a number that an operation returned. The refusals are numbered 1 to 18; any other number is an error of the
/// test's own.
pub fn outcome(number: u32) -> Outcome {
    match number {
        QUIET => Outcome::Quiet,
        ALERT => Outcome::Alert,
        BLOCKED => Outcome::Blocked,
        1..=18 => Outcome::Refused,
        unknown => panic!("unknown answer {unknown}"),
    }
}

/// "A refusal returns its number, zeros elsewhere"; "refusals 0" (change request No. 12, of the position).
fn refused(number: u32) -> Answer {
    Answer { number, receiver: 0, tag: 0, position: 0 }
}

/// A container row that is not free.
#[derive(Clone, Debug)]
struct Row {
    kind: Kind,
    tag: u64,
    permit: Rule,
    run: Rule,
    /// The user on whose behalf a process runs; none for "an initial process, a file or a volatile".
    user: Option<usize>,
}

/// What a well-formed container row says.
enum Place {
    Free,
    Taken(Row),
}

impl Place {
    fn row(&self) -> Option<&Row> {
        match self {
            Place::Free => None,
            Place::Taken(row) => Some(row),
        }
    }
}

/// A rule in nine words: "permit count, 8 mixtures". "Unused words are 0, rules in normal form".
fn read_rule(words: &[u64]) -> Option<Rule> {
    let (&count, places) = words.split_first()?;
    if count > RULE_MIXTURES as u64 {
        return None;
    }
    let (mixtures, unused) = places.split_at(count as usize);
    let well = unused.iter().all(|&word| word == 0) && normal(mixtures) == mixtures;
    well.then(|| mixtures.to_vec())
}

/// "the user for a process, 65535 for an initial process, a file or a volatile"; "10 covers any value but these (0 to 15 or
/// 65535 in a process)" (change request No. 5). Nothing for a value that 10 covers.
fn read_behalf(kind: Kind, word: u64) -> Option<Option<usize>> {
    match word {
        NOBODY => Some(None),
        user if kind == Kind::Process && user < USERS.most as u64 => Some(Some(user as usize)),
        _ => None,
    }
}

/// "A container row: kind (0 free, else as in the image), information tag, permit count, 8 mixtures, run count,
/// 8 mixtures." "a free or undeclared row is all 0"; "a free row still holds 0" (change request No. 5). Nothing for a row that is not as "Session" says.
fn read_container(words: &[u64]) -> Option<Place> {
    if words[ROW_KIND] == 0 {
        return words.iter().all(|&word| word == 0).then_some(Place::Free);
    }
    let kind = Kind::of(words[ROW_KIND])?;
    let permit = read_rule(&words[ROW_PERMIT])?;
    let run = read_rule(&words[ROW_RUN])?;
    let user = read_behalf(kind, words[ROW_USER])?;
    Some(Place::Taken(Row { kind, tag: words[ROW_TAG], permit, run, user }))
}

/// "A user row: 1 if declared, count, 8 mixtures." Nothing for a row that is not as "Session" says, an empty
/// inner option for a user that is not declared.
fn read_user(words: &[u64]) -> Option<Option<Rule>> {
    match words[ROW_DECLARED] {
        0 => words.iter().all(|&word| word == 0).then_some(None),
        1 => read_rule(&words[ROW_RULE]).map(Some),
        _ => None,
    }
}

/// A rule as nine words.
fn rule_words(rule: &[u64]) -> [u64; RULE_WORDS] {
    let mut words = [0; RULE_WORDS];
    words[0] = rule.len() as u64;
    words[1..1 + rule.len()].copy_from_slice(rule);
    words
}

fn write_container(session: &mut [u64], number: usize, row: &Row) {
    let words = &mut session[container_row(number)];
    words[ROW_KIND] = u64::from(row.kind.number());
    words[ROW_TAG] = row.tag;
    words[ROW_PERMIT].copy_from_slice(&rule_words(&row.permit));
    words[ROW_RUN].copy_from_slice(&rule_words(&row.run));
    words[ROW_USER] = row.user.map_or(NOBODY, |user| user as u64);
}

fn write_user(session: &mut [u64], number: usize, rule: &[u64]) {
    let words = &mut session[user_row(number)];
    words[ROW_DECLARED] = 1;
    words[ROW_RULE].copy_from_slice(&rule_words(rule));
}

/// The session start: 0 if the image is accepted, else the number of the refusal, 9 before 1 to 6.
pub fn start(image: &[u8], session: &mut [u64]) -> u32 {
    // "9 session of wrong length"
    if session.len() != SESSION {
        return 9;
    }
    let policy = match read(image) {
        Ok(policy) => policy,
        Err(number) => return number,
    };
    session.fill(0);
    for (number, container) in policy.containers.iter().enumerate() {
        // "At start a file holds its atom; the other containers hold nothing."
        let row = Row {
            kind: container.kind,
            tag: container.atom.map_or(0, |atom| 1 << atom),
            permit: normal(&policy.rule(container.permit)),
            run: normal(&policy.rule(container.run)),
            // "65535 for an initial process, a file or a volatile"
            user: None,
        };
        write_container(session, number, &row);
    }
    for (number, &user) in policy.users.iter().enumerate() {
        write_user(session, number, &normal(&policy.rule(user)));
    }
    0
}

/// A record that passes refusal 7.
#[derive(Clone, Copy, Debug, PartialEq, Eq)]
pub struct Record {
    pub code: u8,
    pub p: usize,
    pub o: usize,
    pub u: Option<usize>,
}

/// "A record has 8 bytes: code and a zero (8 bits each), process p, object o, user u (16 bits each); u is 65535
/// except for codes 4 and 6." "7 operation record (not 8 bytes, code, zero byte, u set wrongly, container over 255,
/// user over 15)". "Code 8 ends process p, with o equal to p; code 9 lets p remove file or volatile o; u is 65535." "7
/// also covers code 8 with another o" (change request No. 4).
pub fn read_record(bytes: &[u8]) -> Option<Record> {
    let &[code, zero, p0, p1, o0, o1, u0, u1] = bytes else {
        return None;
    };
    let (p, o, u) = (u16::from_le_bytes([p0, p1]), u16::from_le_bytes([o0, o1]), u16::from_le_bytes([u0, u1]));
    let (p, o) = (usize::from(p), usize::from(o));
    if !(1..=9).contains(&code) || zero != 0 || p >= CONTAINERS.most || o >= CONTAINERS.most {
        return None;
    }
    if code == 8 && o != p {
        return None;
    }
    let u = match code {
        4 | 6 if usize::from(u) < USERS.most => Some(usize::from(u)),
        4 | 6 => return None,
        _ if u == NO_USER => None,
        _ => return None,
    };
    Some(Record { code, p, o, u })
}

/// What an accepted operation changes: one row, the receiver's.
struct Effect {
    receiver: usize,
    place: Place,
}

/// "15 a meet has over 8 mixtures".
fn bounded(rule: Rule) -> Result<Rule, u32> {
    if rule.len() > RULE_MIXTURES {
        Err(15)
    } else {
        Ok(rule)
    }
}

/// The column "effect" of the table, for rows that are as "Session" says, after refusals 11 to 14 and 18.
fn effect(record: Record, p: &Row, o: Option<&Row>, user: Option<&Rule>) -> Result<Effect, u32> {
    let taken = || o.expect("codes 1 to 4 were refused with 12").clone();
    // "The row becomes free, so its number can be taken again by codes 5 to 7." The row is o's, which for 8 is p's.
    if record.code >= 8 {
        return Ok(Effect { receiver: record.o, place: Place::Free });
    }
    let user = || user.expect("codes 4 and 6 were refused with 14").clone();
    // "The receiver is p for 1 and 4, else o."
    let receiver = if record.code == 1 || record.code == 4 { record.p } else { record.o };
    let row = match record.code {
        // "p's tag gains o's data atoms; p's run rule becomes its meet with o's"
        1 => {
            let o = taken();
            Row { tag: p.tag | data_atoms(o.tag), run: bounded(meet(&p.run, &o.run))?, ..p.clone() }
        }
        // "o's tag and run rule become p's"
        2 => Row { tag: p.tag, run: p.run.clone(), ..taken() },
        // "o's tag gains all of p's; o's run rule becomes its meet with p's"
        3 => {
            let o = taken();
            Row { tag: o.tag | p.tag, run: bounded(meet(&o.run, &p.run))?, ..o }
        }
        // "p's tag becomes the twins of o's data atoms"; "Code 4 now keeps p's old data atoms beside the new twins. It
        // still drops old twins" (change request No. 2); "p's run rule becomes o's; p's permit rule becomes the meet of
        // o's run rule and u's"; "exec sets it" (change request No. 5)
        4 => {
            let o = taken();
            let tag = data_atoms(p.tag) | running_atoms(o.tag);
            Row { kind: p.kind, tag, permit: bounded(meet(&o.run, &user()))?, run: o.run, user: record.u }
        }
        // "o becomes a copy of p"; "and fork copies it" (change request No. 5)
        5 => p.clone(),
        // "empty tag, permit u's rule, run unrestricted"
        6 => Row { kind: Kind::File, tag: 0, permit: user(), run: unrestricted(), user: None },
        // "empty tag, both unrestricted"
        _ => Row { kind: Kind::Volatile, tag: 0, permit: unrestricted(), run: unrestricted(), user: None },
    };
    Ok(Effect { receiver, place: Place::Taken(row) })
}

/// Reads the named rows and goes through "Refused because of the session" in order.
fn judged(session: &[u64], record: Record) -> Result<Effect, u32> {
    // "10 a named row (p, o, and u for 4 and 6) is not as "Session" says"
    let p = read_container(&session[container_row(record.p)]).ok_or(10u32)?;
    let o = read_container(&session[container_row(record.o)]).ok_or(10u32)?;
    let user = match record.u {
        None => None,
        Some(u) => read_user(&session[user_row(u)]).ok_or(10u32)?,
    };
    // "11 p is no process"
    let p = p.row().filter(|row| row.kind == Kind::Process).ok_or(11u32)?;
    // "12 o of the wrong kind (codes 1 to 4)"; the column "o" of the table; "and 12 code 9 with o of another kind" than
    // "file or volatile" (change request No. 4)
    let kind = o.row().map(|row| row.kind);
    let right = match record.code {
        1..=3 | 9 => kind.is_some_and(|kind| kind.is_file() || kind == Kind::Volatile),
        4 => kind.is_some_and(Kind::is_file),
        _ => true,
    };
    if !right {
        return Err(12);
    }
    // "13 o not free (5 to 7)"
    if (5..=7).contains(&record.code) && kind.is_some() {
        return Err(13);
    }
    // "14 u not declared"
    if record.u.is_some() && user.is_none() {
        return Err(14);
    }
    // "18 when code 6 names a user other than p's own recorded one, placed after 14; a process with 65535 may name any
    // declared user" (change request No. 5)
    if record.code == 6 && p.user.is_some() && p.user != record.u {
        return Err(18);
    }
    effect(record, p, o.row(), user.as_ref())
}

/// One operation on the session, "9" first, then "7", then the refusals because of the session.
pub fn step(session: &mut [u64], record: &[u8]) -> Answer {
    // "9 session of wrong length"
    if session.len() != SESSION {
        return refused(9);
    }
    let Some(record) = read_record(record) else {
        return refused(7);
    };
    match judged(session, record) {
        Err(number) => refused(number),
        // "Both answer quiet with tag 0"; "a free or undeclared row is all 0".
        Ok(Effect { receiver, place: Place::Free }) => {
            session[container_row(receiver)].fill(0);
            // "codes 8 and 9 giving 255" (change request No. 12)
            Answer { number: QUIET, receiver: receiver as u64, tag: 0, position: NO_POSITION }
        }
        Ok(Effect { receiver, place: Place::Taken(row) }) => {
            // "Codes 1 to 5 answer alert if the receiver's permit rule does not cover its tag afterwards, else quiet;
            // 6 and 7 answer quiet." "An alert does not undo the access."
            let alert = record.code <= 5 && !covers(&row.permit, row.tag);
            // "A write or append into it that would raise an alert answers blocked, with the receiver and the tag it would
            // have had, and changes nothing." (change request No. 9)
            let blocked = alert && (record.code == 2 || record.code == 3) && row.kind == Kind::Guarded;
            if !blocked {
                write_container(session, receiver, &row);
            }
            let number = match (alert, blocked) {
                (_, true) => BLOCKED,
                (true, false) => ALERT,
                (false, false) => QUIET,
            };
            // "Every operation's answer carries it for the receiver's permit rule, blocked ones included"
            Answer { number, receiver: receiver as u64, tag: row.tag, position: position(&row.permit, row.tag) }
        }
    }
}

/// What a batch comes to: the answer at which it stops, and how many records were judged.
#[derive(Clone, Copy, Debug, PartialEq, Eq)]
pub struct Run {
    pub answer: Answer,
    pub taken: usize,
}

/// Records one behind the other, up to and with the first that is not quiet. The paper has one operation at a time; that
/// several are these one after the other is what `include/yaslaurel.h` says of a batch. 9 comes before every record.
pub fn run(session: &mut [u64], records: &[u8]) -> Run {
    if session.len() != SESSION {
        return Run { answer: refused(9), taken: 0 };
    }
    let mut taken = 0;
    for record in records.chunks(RECORD) {
        taken += 1;
        let answer = step(session, record);
        if answer.number != QUIET {
            return Run { answer, taken };
        }
    }
    Run { answer: Answer { number: QUIET, receiver: 0, tag: 0, position: 0 }, taken }
}

/// What a call gathers of records: how many it took, and what was not quiet, by the record's place.
pub struct Events {
    pub taken: usize,
    pub loud: Vec<(usize, Answer)>,
}

/// Records one behind the other, where there is room for so many events: "stops before the first record for which `events` has no
/// room for one more event" (`include/yaslaurel.h`).
pub fn events(session: &mut [u64], records: &[u8], room: usize) -> Events {
    let mut events = Events { taken: 0, loud: Vec::new() };
    for record in records.chunks(RECORD) {
        if events.loud.len() == room {
            break;
        }
        let answer = step(session, record);
        if outcome(answer.number) != Outcome::Quiet {
            events.loud.push((events.taken, answer));
        }
        events.taken += 1;
    }
    events
}

/// "how many there are, how many were accepted (alerts among them), alerted, refused and blocked, then the alerts of each container
/// number" (`include/yaslaurel.h`).
pub fn figures(session: &mut [u64], records: &[u8]) -> Vec<u64> {
    let answers: Vec<Answer> = records.chunks(RECORD).map(|record| step(session, record)).collect();
    let count =
        |wanted: &[Outcome]| answers.iter().filter(|answer| wanted.contains(&outcome(answer.number))).count() as u64;
    let counts =
        [&[Outcome::Quiet, Outcome::Alert][..], &[Outcome::Alert], &[Outcome::Refused], &[Outcome::Blocked]].map(count);
    let at = |c: u64| answers.iter().filter(|answer| answer.number == ALERT && answer.receiver == c).count() as u64;
    [answers.len() as u64].into_iter().chain(counts).chain((0..CONTAINERS.most as u64).map(at)).collect()
}

#[cfg(test)]
mod tests {
    use super::*;

    fn session_with(rows: &[(usize, Row)], users: &[(usize, Rule)]) -> Vec<u64> {
        let mut session = vec![0; SESSION];
        for (number, row) in rows {
            write_container(&mut session, *number, row);
        }
        for (number, rule) in users {
            write_user(&mut session, *number, rule);
        }
        session
    }

    fn row(kind: Kind, tag: u64) -> Row {
        Row { kind, tag, permit: unrestricted(), run: unrestricted(), user: None }
    }

    fn record(code: u8, p: u16, o: u16, u: u16) -> Vec<u8> {
        let mut bytes = vec![code, 0];
        for number in [p, o, u] {
            bytes.extend(number.to_le_bytes());
        }
        bytes
    }

    /// "Exec of a file holding 1 and 34: p holds 33", "for a p that held nothing"; one that held 3 and 35 holds 3 too.
    #[test]
    fn exec_takes_the_running_atoms() {
        for (held, kept) in [(0, 0), (1 << 3 | 1 << 35, 1 << 3)] {
            let rows = [(0, row(Kind::Process, held)), (1, row(Kind::File, 1 << 1 | 1 << 34))];
            let mut session = session_with(&rows, &[(3, unrestricted())]);
            let answer = step(&mut session, &record(4, 0, 1, 3));
            assert_eq!(answer, Answer { number: QUIET, receiver: 0, tag: kept | 1 << 33, position: 0 });
        }
    }

    /// "A write or append into it that would raise an alert answers blocked, with the receiver and the tag it would have had,
    /// and changes nothing. Blocked is given in just those cases, 15 being tested before it."
    #[test]
    fn a_guarded_file_takes_no_forbidden_mixture() {
        let guarded = Row { permit: vec![6], ..row(Kind::Guarded, 2) };
        let plain = Row { kind: Kind::File, ..guarded.clone() };
        let rows = [(0, row(Kind::Process, 5)), (1, guarded.clone()), (2, plain), (3, row(Kind::Process, 4))];
        let started = session_with(&rows, &[]);
        for (code, tag) in [(2, 5), (3, 7)] {
            let mut session = started.clone();
            let answer = |number, receiver| Answer { number, receiver, tag, position: NO_POSITION };
            assert_eq!(step(&mut session, &record(code, 0, 1, 65535)), answer(BLOCKED, 1));
            assert_eq!(session, started);
            assert_eq!(step(&mut session, &record(code, 0, 2, 65535)), answer(ALERT, 2));
            assert_ne!(session, started);
            assert_eq!(step(&mut session, &record(code, 3, 1, 65535)).number, QUIET);
        }
        // Read, executed and deleted as a file is.
        let mut session = session_with(&rows, &[(0, unrestricted())]);
        for (code, user) in [(1, 65535), (4, 0), (9, 65535)] {
            assert_eq!(step(&mut session, &record(code, 0, 1, user)).number, QUIET);
        }
        let process = Row { run: vec![59, 61, 62], ..row(Kind::Process, 1) };
        let file = Row { run: vec![31, 47, 55], ..guarded };
        let mut session = session_with(&[(0, process), (1, file)], &[]);
        assert_eq!(step(&mut session, &record(3, 0, 1, 65535)).number, 15);
    }

    /// "The covering test now gives the position, 0 to 7, of the first covering mixture in ascending order, or 255."
    #[test]
    fn the_first_covering_mixture_is_told() {
        let permit = vec![6, 9, 12];
        for (tag, position) in [(0, 0), (4, 0), (8, 1), (1, 1), (12, 2), (3, NO_POSITION)] {
            let rows = [(0, row(Kind::Process, tag)), (1, Row { permit: permit.clone(), ..row(Kind::File, 0) })];
            let answer = step(&mut session_with(&rows, &[]), &record(3, 0, 1, 65535));
            assert_eq!((answer.position, answer.number == QUIET), (position, position != NO_POSITION), "tag {tag}");
        }
        // A new file under a rule without mixtures is quiet, and none covers what it holds.
        let mut session = session_with(&[(0, row(Kind::Process, 0))], &[(0, vec![])]);
        let answer = Answer { number: QUIET, receiver: 1, tag: 0, position: NO_POSITION };
        assert_eq!(step(&mut session, &record(6, 0, 1, 0)), answer);
    }

    /// "Reading a file holding only 33 adds nothing."
    #[test]
    fn read_takes_no_running_atom() {
        let mut session = session_with(&[(0, row(Kind::Process, 5)), (1, row(Kind::File, 1 << 33))], &[]);
        let answer = Answer { number: QUIET, receiver: 0, tag: 5, position: 0 };
        assert_eq!(step(&mut session, &record(1, 0, 1, 65535)), answer);
    }

    /// "Fork onto p itself: 13."
    #[test]
    fn fork_onto_itself() {
        let mut session = session_with(&[(0, row(Kind::Process, 5))], &[]);
        assert_eq!(step(&mut session, &record(5, 0, 0, 65535)).number, 13);
    }

    /// "Meet of 62, 61, 59 with 55, 47, 31 has nine: 15."
    #[test]
    fn meet_over_eight_is_refused() {
        let process = Row { run: vec![59, 61, 62], ..row(Kind::Process, 0) };
        let file = Row { run: vec![31, 47, 55], ..row(Kind::File, 1) };
        let mut session = session_with(&[(0, process), (1, file)], &[]);
        let before = session.clone();
        assert_eq!(step(&mut session, &record(1, 0, 1, 65535)).number, 15);
        assert_eq!(session, before);
    }

    /// "The row becomes free, so its number can be taken again by codes 5 to 7." "Both answer quiet with tag 0".
    #[test]
    fn rows_become_free() {
        let rows = [(0, row(Kind::Process, 5)), (1, row(Kind::File, 2)), (2, row(Kind::Process, 4))];
        let mut session = session_with(&rows, &[]);
        let quiet = |receiver, tag, position| Answer { number: QUIET, receiver, tag, position };
        for (code, p, o, answer) in [
            (9, 0, 2, refused(12)),
            (9, 0, 3, refused(12)),
            (8, 0, 2, refused(7)),
            (8, 1, 1, refused(11)),
            (9, 0, 1, quiet(1, 0, NO_POSITION)),
            (1, 0, 1, refused(12)),
            (7, 0, 1, quiet(1, 0, 0)),
            (8, 2, 2, quiet(2, 0, NO_POSITION)),
            (8, 2, 2, refused(11)),
            (5, 0, 2, quiet(2, 5, 0)),
        ] {
            assert_eq!(step(&mut session, &record(code, p, o, 65535)), answer, "code {code} of {p} and {o}");
        }
        assert_eq!(
            session,
            session_with(&[rows[0].clone(), (1, row(Kind::Volatile, 0)), (2, row(Kind::Process, 5))], &[])
        );
    }

    /// "exec sets it and fork copies it"; "18 when code 6 names a user other than p's own recorded one, placed after 14; a
    /// process with 65535 may name any declared user."
    #[test]
    fn a_process_makes_files_for_its_own_user() {
        let rows = [(0, row(Kind::Process, 0)), (1, row(Kind::File, 2))];
        let users = [(0, unrestricted()), (1, unrestricted())];
        let mut session = session_with(&rows, &users);
        let quiet = |receiver, tag| Answer { number: QUIET, receiver, tag, position: 0 };
        let twin = 2 << 32;
        for (code, p, o, u, answer) in [
            (6, 0, 2, 1, quiet(2, 0)),
            (4, 0, 1, 1, quiet(0, twin)),
            (5, 0, 3, 65535, quiet(3, twin)),
            (6, 3, 4, 0, refused(18)),
            (6, 3, 4, 2, refused(14)),
            (6, 3, 1, 0, refused(13)),
            (6, 3, 4, 1, quiet(4, 0)),
            (4, 3, 1, 0, quiet(3, twin)),
            (6, 3, 5, 0, quiet(5, 0)),
            (6, 0, 6, 0, refused(18)),
            (2, 0, 1, 65535, quiet(1, twin)),
        ] {
            assert_eq!(step(&mut session, &record(code, p, o, u)), answer, "code {code} of {p} and {o} for {u}");
        }
        let behalf = |number: usize| session[container_row(number)][ROW_USER];
        assert_eq!([0, 1, 2, 3, 4, 5, 6].map(behalf), [1, NOBODY, NOBODY, 0, NOBODY, NOBODY, 0]);
    }

    /// "10 covers any value but these (0 to 15 or 65535 in a process), and a free row still holds 0."
    #[test]
    fn other_values_of_the_user_are_refused() {
        let rows = [(0, row(Kind::Process, 0)), (1, row(Kind::File, 2)), (2, row(Kind::Volatile, 0))];
        let whole = session_with(&rows, &[]);
        for (container, value, code, o, number) in [
            (0, 0, 1, 1, QUIET),
            (0, 15, 1, 1, QUIET),
            (0, 16, 1, 1, 10),
            (0, 65534, 1, 1, 10),
            (0, 65536, 1, 1, 10),
            (1, 0, 1, 1, 10),
            (2, 15, 1, 2, 10),
            (3, 65535, 7, 3, 10),
            (3, 0, 7, 3, QUIET),
        ] {
            let mut session = whole.clone();
            session[container_row(container)][ROW_USER] = value;
            let answer = step(&mut session, &record(code, 0, o, 65535));
            assert_eq!(answer.number, number, "container {container} with {value}");
        }
    }

    /// A batch stops behind what is not quiet, and counts it; a short last record is refused.
    #[test]
    fn batch_stops() {
        let rows = [(0, row(Kind::Process, 5)), (1, row(Kind::File, 2))];
        let mut session = session_with(&rows, &[]);
        let mut records = [record(1, 0, 1, 65535), record(1, 0, 0, 65535), record(1, 0, 1, 65535)].concat();
        assert_eq!(run(&mut session, &records), Run { answer: refused(12), taken: 2 });
        records.truncate(RECORD + 3);
        assert_eq!(run(&mut session, &records), Run { answer: refused(7), taken: 2 });
        let quiet = Answer { number: QUIET, receiver: 0, tag: 0, position: 0 };
        assert_eq!(run(&mut session, &records[..RECORD]), Run { answer: quiet, taken: 1 });
        assert_eq!(run(&mut session, &[]), Run { answer: quiet, taken: 0 });
        assert_eq!(run(&mut [0; 100], &[]), Run { answer: refused(9), taken: 0 });
    }

    /// "Code 9 with a short session: 9."
    #[test]
    fn session_comes_before_record() {
        assert_eq!(step(&mut [0; 100], &record(9, 0, 0, 65535)).number, 9);
    }
}
