//! Single operations on sessions made for them, whole and damaged.

use std::fmt::Write as _;

use judge::rules::{covers, normal, NO_POSITION};
use judge::session::{self, outcome, Outcome};
use yaslaurel::layout::image::{CONTAINERS, USERS};
use yaslaurel::layout::record::{self, NO_USER};
use yaslaurel::layout::session::{
    container, rule, user, BEHALF, CONTAINER_ROW, DECLARED, KIND, NOBODY, PERMIT, RULE, RULE_MIXTURES, RUN, TAG,
    USER_ROW, USER_RULE,
};
use yaslaurel::{ffi, SESSION_LENGTH};

use crate::bench::Bench;
use crate::case::{boxed, differ, differ_at, hex, Case, Difference, Part};
use crate::counters::{Counters, Need};
use crate::generate::{damage_record, length, pool, record_bytes};
use crate::lent::Guarded;
use crate::random::Random;

pub const PART: Part = Part {
    name: "single operations on whole and damaged sessions",
    cases: 900_000,
    make: |r| Box::new(make(r)),
    needs: &[
        Need::Numbers(STEP, &[session::QUIET, session::ALERT, session::BLOCKED, 7, 9, 10, 11, 12, 13, 14, 15, 18]),
        Need::Numbers(QUIET, &[1, 2, 3, 4, 5, 6, 7, 8, 9]),
        Need::Numbers(ALERT, &[1, 2, 3, 4, 5]),
        Need::Numbers(BLOCKED, &[2, 3]),
        Need::Numbers(POSITION, &[0, 1, 2, 3, 4, 5, 6, 7, NO_POSITION]),
        Need::Words(GUARDED, &["read", "executed", "deleted", "15 where it would be blocked"]),
        Need::Numbers(REFUSED_FILE, &[7, 10, 11, 13, 14, 18]),
        Need::Numbers(REFUSED_END, &[7, 10, 11]),
        Need::Numbers(REFUSED_DELETE, &[7, 10, 11, 12]),
        Need::Words(FILES, &["on nobody's behalf", "on its user's behalf"]),
    ],
};

const STEP: &str = "step, by answer";
const QUIET: &str = "quiet, by code";
const ALERT: &str = "alert, by code";
const BLOCKED: &str = "blocked, by code";
const GUARDED: &str = "guarded files";
const POSITION: &str = "quiet, by position";
const REFUSED_FILE: &str = "new file, by refusal";
const REFUSED_END: &str = "end, by refusal";
const REFUSED_DELETE: &str = "delete, by refusal";
const FILES: &str = "new file by a process that runs";

/// Container rows and user rows that a session holds at these numbers.
#[derive(Clone, Debug, Default, PartialEq, Eq)]
struct Rows {
    containers: Vec<(usize, [u64; CONTAINER_ROW])>,
    users: Vec<(usize, [u64; USER_ROW])>,
}

/// One operation on a session made for it.
#[derive(Clone, Debug, PartialEq, Eq)]
struct Operation {
    rows: Rows,
    /// What every other number of the session is.
    background: u64,
    /// The session's length, right or wrong.
    length: usize,
    record: Vec<u8>,
}

impl Case for Operation {
    fn run(&self, bench: &mut Bench, c: &mut Counters) -> Difference {
        bench.judge_session.clear();
        bench.judge_session.resize(self.length, self.background);
        for (number, row) in &self.rows.containers {
            if let Some(place) = bench.judge_session.get_mut(container(*number)) {
                place.copy_from_slice(row);
            }
        }
        for (number, row) in &self.rows.users {
            if let Some(place) = bench.judge_session.get_mut(user(*number)) {
                place.copy_from_slice(row);
            }
        }
        bench.lend_session();
        step(bench, &self.record, c).err()
    }

    fn simpler(&self) -> Vec<Box<dyn Case>> {
        boxed(simpler(self))
    }

    fn show(&self) -> String {
        let mut text = format!("session of {} numbers, each {:#x} but:\n", self.length, self.background);
        for (number, row) in &self.rows.containers {
            writeln!(text, "  container {number}: {row:x?}").unwrap();
        }
        for (number, row) in &self.rows.users {
            writeln!(text, "  user {number}: {row:x?}").unwrap();
        }
        writeln!(text, "record: {}", hex(&self.record)).unwrap();
        text
    }
}

/// Receiver, tag and position of an answer.
pub type Told = (u64, u64, u32);

/// The numbers behind `receiver`, `tag` and `position` before a call: a refusal must leave them.
pub const BEFORE: Told = (0x1111_2222_3333_4444, 0x5555_6666_7777_8888, 0x9999_aaaa);

fn library_step(session: &mut Guarded<u64>, record: &Guarded<u8>) -> (u32, Told) {
    let (mut receiver, mut tag, mut position) = BEFORE;
    let (words, length) = (session.pointer_mut(), session.length());
    let (bytes, bytes_length) = (record.pointer(), record.length());
    // SAFETY: as `lent` says; the three numbers are ours.
    let number =
        unsafe { ffi::yaslaurel_step(words, length, bytes, bytes_length, &mut receiver, &mut tag, &mut position) };
    (number, (receiver, tag, position))
}

/// One step on both sides, on the sessions as they stand.
pub fn step(bench: &mut Bench, record: &[u8], c: &mut Counters) -> Result<session::Answer, String> {
    bench.record.fill(record);
    let (number, told) = library_step(&mut bench.session, &bench.record);
    let at_guarded = guarded_object(&bench.judge_session, record);
    let expected = session::step(&mut bench.judge_session, record);
    if let Some(uncovered) = at_guarded {
        count_guarded(record, expected.number, uncovered, c);
    }
    count(record, expected.number, &bench.judge_session, c);
    if outcome(expected.number) == Outcome::Quiet {
        c.count(POSITION, expected.position);
    }
    let numbers = match outcome(expected.number) {
        Outcome::Quiet | Outcome::Alert | Outcome::Blocked => (expected.receiver, expected.tag, expected.position),
        // "changes no lent memory"
        Outcome::Refused => BEFORE,
    };
    let difference = differ("step", number, expected.number)
        .or_else(|| differ("receiver, tag and position", told, numbers))
        .or_else(|| differ_at("session after the step", bench.session.content(), &bench.judge_session))
        .or_else(|| differ_at("the record itself", bench.record.content(), record))
        .or_else(|| bench.guards());
    difference.map_or(Ok(expected), Err)
}

/// Whether the object of a record is a guarded file; then, whether its permit rule does not cover what p and it hold together.
fn guarded_object(session: &[u64], bytes: &[u8]) -> Option<bool> {
    let read = session::read_record(bytes)?;
    let (p, o) = (session.get(container(read.p))?, session.get(container(read.o))?);
    let rule = &o[rule(PERMIT)];
    let mixtures = rule.get(1..1 + rule[0] as usize)?;
    (o[KIND] == 4).then(|| !covers(mixtures, p[TAG] | o[TAG]))
}

/// Counts a step at a guarded file.
fn count_guarded(bytes: &[u8], number: u32, uncovered: bool, c: &mut Counters) {
    match (bytes[record::CODE], outcome(number)) {
        (1, Outcome::Quiet | Outcome::Alert) => c.count(GUARDED, "read"),
        (4, Outcome::Quiet | Outcome::Alert) => c.count(GUARDED, "executed"),
        (9, Outcome::Quiet) => c.count(GUARDED, "deleted"),
        (3, Outcome::Refused) if number == 15 && uncovered => c.count(GUARDED, "15 where it would be blocked"),
        _ => {}
    }
}

/// Counts a step by its answer and its code.
fn count(record: &[u8], number: u32, after: &[u64], c: &mut Counters) {
    c.count(STEP, number);
    let code = record.first().map(|&code| u32::from(code));
    match (outcome(number), code) {
        (Outcome::Quiet, Some(code)) => {
            c.count(QUIET, code);
            if code == 6 {
                let process = &after[container(usize::from(record[record::PROCESS]))];
                let nobody = process[BEHALF] == NOBODY;
                c.count(FILES, if nobody { "on nobody's behalf" } else { "on its user's behalf" });
            }
        }
        (Outcome::Alert, Some(code)) => c.count(ALERT, code),
        (Outcome::Blocked, Some(code)) => c.count(BLOCKED, code),
        (Outcome::Refused, Some(6)) => c.count(REFUSED_FILE, number),
        (Outcome::Refused, Some(8)) => c.count(REFUSED_END, number),
        (Outcome::Refused, Some(9)) => c.count(REFUSED_DELETE, number),
        (_, None) | (Outcome::Refused, Some(_)) => {}
    }
}

/// A rule in normal form, of 0 to 8 mixtures.
fn normal_rule(r: &mut Random, pool: &[u64]) -> Vec<u64> {
    let wanted = r.pick(&[0, 1, 1, 1, 2, 3, 4, 8, 8]);
    if wanted == 1 && r.percent(40) {
        return vec![u64::MAX];
    }
    let drawn: Vec<u64> = (0..2 * wanted).map(|_| r.pick(pool)).collect();
    let mut rule = normal(&drawn);
    rule.truncate(wanted);
    rule
}

/// A rule as the numbers of a row.
fn rule_words(rule: &[u64]) -> [u64; RULE] {
    let mut words = [0; RULE];
    words[0] = rule.len() as u64;
    words[1..1 + rule.len()].copy_from_slice(rule);
    words
}

fn tag(r: &mut Random) -> u64 {
    match r.below(4) {
        0 => 0,
        1 => 1 << r.below(64),
        2 => r.word() & r.word() & 0x3f_0000_003f,
        _ => r.word() & r.word(),
    }
}

fn container_row(r: &mut Random, kind: u64, pool: &[u64]) -> [u64; CONTAINER_ROW] {
    let mut row = [0; CONTAINER_ROW];
    if kind == 0 {
        return row;
    }
    row[KIND] = kind;
    row[TAG] = tag(r);
    row[rule(PERMIT)].copy_from_slice(&rule_words(&normal_rule(r, pool)));
    row[rule(RUN)].copy_from_slice(&rule_words(&normal_rule(r, pool)));
    row[BEHALF] = if kind == 3 && r.percent(60) { r.below(USERS.most) as u64 } else { NOBODY };
    row
}

/// Breaks the numbers of a rule in a way that refusal 10 looks at.
fn damage_rule(r: &mut Random, words: &mut [u64]) {
    let most = RULE_MIXTURES as u64;
    let count = words[0].min(most) as usize;
    match r.below(6) {
        0 => words[0] = r.pick(&[most + 1, 1 << 32, (1 << 32) + 1, u64::MAX, words[0] + 1]),
        1 => words[RULE_MIXTURES] ^= 1 << r.below(64),
        2 if count >= 2 => words.swap(1, count),
        3 if (1..RULE_MIXTURES).contains(&count) => {
            // A repeat, or a mixture that the last one holds.
            words[count + 1] = words[count] & r.pick(&[u64::MAX, 0xff, 0]);
            words[0] += 1;
        }
        4 if count >= 1 => words[0] -= 1,
        _ => words[1 + r.below(RULE_MIXTURES)] ^= 1 << r.below(64),
    }
}

fn damage_row(r: &mut Random, row: &mut [u64]) {
    match r.below(5) {
        4 => row[BEHALF] = r.pick(&[0, 15, 16, 255, NOBODY - 1, NOBODY, NOBODY + 1, 1 << 32, u64::MAX]),
        0 => row[KIND] = r.pick(&[0, 4, 5, 7, 1 << 32, (1 << 32) + 1, (1 << 32) + 4, u64::MAX, 2, 3]),
        1 => row[r.below(CONTAINER_ROW)] ^= 1 << r.below(64),
        2 => damage_rule(r, &mut row[rule(PERMIT)]),
        _ => damage_rule(r, &mut row[rule(RUN)]),
    }
}

fn damage_user(r: &mut Random, row: &mut [u64]) {
    match r.below(3) {
        0 => row[DECLARED] = r.pick(&[0, 2, (1 << 32) + 1, u64::MAX]),
        1 => row[r.below(USER_ROW)] ^= 1 << r.below(64),
        _ => damage_rule(r, &mut row[rule(USER_RULE)]),
    }
}

/// The kind of object that a code wants, or sometimes another.
fn object_kind(r: &mut Random, code: u8) -> u64 {
    if r.percent(10) {
        return r.below(5) as u64;
    }
    match code {
        1..=3 | 9 => r.pick(&[1, 4, 2]),
        4 => r.pick(&[1, 4]),
        8 => 3,
        _ => 0,
    }
}

/// A rule of `count` mixtures, each all atoms of `universe` but one of those from atom `from` on. Two such rules over
/// different atoms meet in as many mixtures as the product of their counts: around 8 the meets that just fit.
fn all_but_one(universe: u64, from: usize, count: usize) -> Vec<u64> {
    let mut rule: Vec<u64> = (from..from + count).map(|atom| universe & !(1 << atom)).collect();
    rule.sort_unstable();
    rule
}

/// Gives p and o run rules, and the user a rule, whose meets have about 8 mixtures.
fn about_eight(r: &mut Random, rows: &mut Rows) {
    let universe = r.pick(&[u64::MAX, 0xffff_ffff, 0xffff]);
    let (few, more) = r.pick(&[(1, 8), (2, 4), (3, 3), (2, 5), (2, 3), (3, 2), (4, 2), (8, 1), (8, 8)]);
    let rules = [all_but_one(universe, 0, few), all_but_one(universe, 8, more)];
    for (i, (_, row)) in rows.containers.iter_mut().enumerate() {
        if row[KIND] != 0 {
            row[rule(RUN)].copy_from_slice(&rule_words(&rules[i]));
        }
    }
    for (_, row) in &mut rows.users {
        if row[DECLARED] == 1 {
            row[rule(USER_RULE)].copy_from_slice(&rule_words(&rules[0]));
        }
    }
}

/// Rows for an operation of this code by p on o, for u.
fn rows_for(r: &mut Random, code: u8, p: usize, o: usize, u: usize, first: Vec<u64>) -> Rows {
    let kind = if r.percent(6) { r.below(5) as u64 } else { 3 };
    let mut rows = Rows::default();
    rows.containers.push((p, container_row(r, kind, &first)));
    // Rules from two sets of mixtures meet in more ways than rules from one, which share mixtures.
    let pool = if r.percent(50) { pool(r) } else { first };
    if o != p {
        let kind = object_kind(r, code);
        rows.containers.push((o, container_row(r, kind, &pool)));
    }
    let mut row = [0; USER_ROW];
    if r.percent(94) {
        row[DECLARED] = 1;
        row[rule(USER_RULE)].copy_from_slice(&rule_words(&normal_rule(r, &pool)));
    }
    rows.users.push((u, row));
    if r.percent(12) {
        about_eight(r, &mut rows);
    }
    rows
}

/// Breaks one or two rows.
fn damage_rows(r: &mut Random, rows: &mut Rows) {
    for _ in 0..r.pick(&[1, 1, 2]) {
        let at = r.below(rows.containers.len() + 1);
        match rows.containers.get_mut(at) {
            Some((_, row)) => damage_row(r, row),
            None => damage_user(r, &mut rows.users[0].1),
        }
    }
}

/// One operation on rows made for it, well formed or damaged.
fn make(r: &mut Random) -> Operation {
    let code = r.between(1, 9) as u8;
    let pool = pool(r);
    let (p, o, u) = (r.below(CONTAINERS.most), r.below(CONTAINERS.most), r.below(USERS.most));
    let o = if r.percent(if code == 8 { 92 } else { 4 }) { p } else { o };
    let mut rows = rows_for(r, code, p, o, u, pool);
    // Half of the files are made for the user of the process, where it has one.
    let process = &mut rows.containers[0].1;
    if code == 6 && process[KIND] == 3 && process[BEHALF] != NOBODY && r.percent(50) {
        process[BEHALF] = u as u64;
    }
    if r.percent(35) {
        damage_rows(r, &mut rows);
    }
    let user = if code == 4 || code == 6 { u as u16 } else { NO_USER };
    let mut record = record_bytes(code, p as u16, o as u16, user);
    if r.percent(8) {
        damage_record(r, &mut record);
    }
    // What the other rows hold must not matter.
    let background = if r.percent(50) { 0 } else { r.word() };
    Operation { rows, background, length: length(r, SESSION_LENGTH, false), record }
}

/// The operations a little simpler than one.
struct Simpler<'a> {
    of: &'a Operation,
    found: Vec<Operation>,
}

impl Simpler<'_> {
    fn add(&mut self, change: impl Fn(&mut Operation)) {
        let mut simpler = self.of.clone();
        change(&mut simpler);
        if simpler != *self.of {
            self.found.push(simpler);
        }
    }

    /// Simpler numbers in a container's row.
    fn row(&mut self, i: usize) {
        let row = self.of.rows.containers[i].1;
        for (at, &word) in row.iter().enumerate() {
            self.add(|s| s.rows.containers[i].1[at] = 0);
            let lowest = word & word.wrapping_neg();
            if at == TAG {
                self.add(|s| s.rows.containers[i].1[at] = lowest);
            }
            self.add(|s| s.rows.containers[i].1[at] &= !lowest);
        }
        // The unrestricted rule in place of another, then one mixture less.
        for at in [PERMIT, RUN] {
            let mut plain = [0; RULE];
            plain[..2].copy_from_slice(&[1, u64::MAX]);
            if row[at] > 1 {
                self.add(|s| s.rows.containers[i].1[rule(at)].copy_from_slice(&plain));
            }
            let last = at + row[at].min(RULE_MIXTURES as u64) as usize;
            if last > at {
                self.add(|s| {
                    s.rows.containers[i].1[last] = 0;
                    s.rows.containers[i].1[at] -= 1;
                });
            }
        }
    }
}

fn simpler(of: &Operation) -> Vec<Operation> {
    let mut simpler = Simpler { of, found: Vec::new() };
    simpler.add(|s| s.rows = Rows::default());
    simpler.add(|s| s.background = 0);
    simpler.add(|s| s.length = SESSION_LENGTH);
    for i in 0..of.rows.containers.len() {
        simpler.add(|s| _ = s.rows.containers.remove(i));
    }
    for i in 0..of.rows.users.len() {
        simpler.add(|s| _ = s.rows.users.remove(i));
    }
    for at in 0..of.record.len() {
        simpler.add(|s| s.record.truncate(at));
        simpler.add(|s| s.record[at] = 0);
    }
    for i in 0..of.rows.containers.len() {
        simpler.row(i);
    }
    for (i, (_, row)) in of.rows.users.iter().enumerate() {
        for (at, &word) in row.iter().enumerate() {
            let lowest = word & word.wrapping_neg();
            simpler.add(|s| s.rows.users[i].1[at] &= !lowest);
        }
    }
    simpler.found
}
