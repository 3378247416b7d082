//! Proposals to withdraw rights: the judgement.

use judge::matrix;
use judge::withdrawals::{self, consistent, rights, Access, Rights, Rows};
use yaslaurel::{ffi, Matrix};

use crate::bench::Bench;
use crate::case::{boxed, differ, differ_at, Case, Difference, Part};
use crate::counters::{Counters, Need};
use crate::lent::{guards_stand, Guarded};
use crate::random::Random;

pub const PART: Part = Part {
    name: "withdrawals: proposals judged",
    cases: 60_000,
    make: |r| Box::new(make(r)),
    needs: &[
        Need::Numbers(JUDGEMENT, &[0, 1, 2, 3, 4, 8]),
        Need::Words(PROPOSALS, &["accepted, withdrawing rights", "accepted, withdrawing none", "of differing counts"]),
    ],
};

const JUDGEMENT: &str = "judgement of a proposal, by answer";
const PROPOSALS: &str = "proposals";

/// The old matrix, the rights that must stay, and the proposed matrix.
struct Proposal([Rows; 3]);

impl Case for Proposal {
    fn run(&self, _: &mut Bench, c: &mut Counters) -> Difference {
        let [old, required, proposed] = &self.0;
        let lent = self.0.each_ref().map(|rows| (Guarded::new(&rows.reads), Guarded::new(&rows.writes)));
        let library = library_judge(&lent, self.0.each_ref().map(|rows| rows.objects));
        let expected = withdrawals::judge(old, required, proposed);
        self.count(expected, c);
        let rows_stay = lent.iter().zip(&self.0).find_map(|((reads, writes), rows)| {
            differ_at("the read rows", reads.content(), &rows.reads)
                .or_else(|| differ_at("the write rows", writes.content(), &rows.writes))
                .or_else(|| guards_stand(&[reads, writes]))
        });
        differ("judgement", library, expected)
            .or_else(|| differ("judgement of the Rust interface", self.safe_judgement(), expected))
            .or(rows_stay)
    }

    fn simpler(&self) -> Vec<Box<dyn Case>> {
        boxed(simpler(&self.0).into_iter().map(Proposal))
    }

    fn show(&self) -> String {
        let named = ["old", "must stay", "proposed"].into_iter().zip(&self.0);
        let lines = named.map(|(name, Rows { reads, writes, objects })| {
            format!("{name}: read rows {reads:x?}, write rows {writes:x?}, {objects} objects\n")
        });
        lines.collect()
    }
}

impl Proposal {
    fn count(&self, answer: u32, c: &mut Counters) {
        let [old, _, proposed] = &self.0;
        c.count(JUDGEMENT, answer);
        if answer == 0 {
            let none = rights(old) == rights(proposed);
            c.count(PROPOSALS, if none { "accepted, withdrawing none" } else { "accepted, withdrawing rights" });
        }
        let well_formed = |rows: &Rows| matrix::well_formed(&rows.reads, &rows.writes, rows.objects);
        if answer == 8 && self.0.iter().all(well_formed) {
            c.count(PROPOSALS, "of differing counts");
        }
    }

    fn safe_judgement(&self) -> u32 {
        let [old, required, proposed] =
            self.0.each_ref().map(|rows| Matrix { reads: &rows.reads, writes: &rows.writes, objects: rows.objects });
        match yaslaurel::judge_withdrawal(old, required, proposed) {
            Ok(judgement) => judgement.number(),
            Err(refusal) => refusal.number(),
        }
    }
}

/// Three matrices, each with its read rows, its write rows and its objects.
fn library_judge(rows: &[(Guarded<u32>, Guarded<u32>); 3], objects: [u32; 3]) -> u32 {
    let [(old_reads, old_writes), (required_reads, required_writes), (proposed_reads, proposed_writes)] = rows;
    // SAFETY: as `lent` says.
    unsafe {
        ffi::yaslaurel_matrix_judge(
            old_reads.pointer(),
            old_reads.length(),
            old_writes.pointer(),
            old_writes.length(),
            objects[0],
            required_reads.pointer(),
            required_reads.length(),
            required_writes.pointer(),
            required_writes.length(),
            objects[1],
            proposed_reads.pointer(),
            proposed_reads.length(),
            proposed_writes.pointer(),
            proposed_writes.length(),
            objects[2],
        )
    }
}

/// The rows of some rights.
fn rows_of(rights: &Rights, subjects: usize, objects: u32) -> Rows {
    let mut rows = Rows { reads: vec![0; subjects], writes: vec![0; subjects], objects };
    for &(access, s, k) in rights {
        let of = if access == Access::Read { &mut rows.reads } else { &mut rows.writes };
        of[s] |= 1 << k;
    }
    rows
}

/// Each of the rights with this chance in hundred.
fn some(r: &mut Random, rights: &Rights, percent: usize) -> Rights {
    rights.iter().copied().filter(|_| r.percent(percent)).collect()
}

/// A consistent part of the rights to which no single other one can be added: they are tried in random order.
fn fullest(r: &mut Random, rights: &Rights, objects: usize) -> Rights {
    let mut order: Vec<_> = rights.iter().copied().collect();
    for at in (1..order.len()).rev() {
        order.swap(at, r.below(at + 1));
    }
    let mut kept = Rights::new();
    loop {
        let before = kept.len();
        for &right in &order {
            if kept.insert(right) && !consistent(&kept, objects) {
                kept.remove(&right);
            }
        }
        if kept.len() == before {
            return kept;
        }
    }
}

/// The proposed rights: a part of the old ones, as full as can be in most cases, then a right more or less.
fn proposed(r: &mut Random, old: &Rights, all: &Rights, objects: usize) -> Rights {
    let mut proposed = match r.below(8) {
        0 => old.clone(),
        1 => some(r, old, 70),
        2 => some(r, old, 20),
        _ => fullest(r, old, objects),
    };
    let changed = r.pick(&[0, 0, 0, 1, 1, 2]);
    let from: Vec<_> = if r.percent(20) { all } else { old }.iter().copied().collect();
    for _ in 0..if from.is_empty() { 0 } else { changed } {
        let right = from[r.below(from.len())];
        if !proposed.remove(&right) {
            proposed.insert(right);
        }
    }
    proposed
}

/// Breaks a matrix, or gives it other counts.
fn damage(r: &mut Random, rows: &mut Rows) {
    match r.below(6) {
        0 => rows.objects = r.pick(&[0, 33, u32::MAX]),
        1 => rows.objects += 1,
        2 => {
            rows.reads.push(0);
            rows.writes.push(0);
        }
        3 => {
            rows.reads.pop();
            rows.writes.pop();
        }
        4 => {
            rows.writes.pop();
        }
        _ => rows.reads[0] |= 1 << r.below(32),
    }
}

/// Matrices most of which are well formed and of the same counts.
fn make(r: &mut Random) -> Proposal {
    let (subjects, objects) = if r.percent(3) { (8, 32) } else { (r.between(1, 5), r.between(1, 7)) };
    let all: Rights = [Access::Read, Access::Write]
        .into_iter()
        .flat_map(|access| (0..subjects).flat_map(move |s| (0..objects).map(move |k| (access, s, k))))
        .collect();
    let dense = r.pick(&[10, 30, 60, 100]);
    let old = some(r, &all, if objects == 32 { 10 } else { dense });
    let proposed = proposed(r, &old, &all, objects);
    let required = match r.below(10) {
        0 => some(r, &old, 10),
        1 => some(r, &all, 10),
        2 => some(r, &old, 100),
        3 => Rights::new(),
        _ => some(r, &proposed, 30),
    };
    let mut matrices = [old, required, proposed].map(|rights| rows_of(&rights, subjects, objects as u32));
    if r.percent(10) {
        let one = r.below(3);
        damage(r, &mut matrices[one]);
    }
    Proposal(matrices)
}

/// Without one subject.
fn subject_less(rows: &mut Rows, at: usize) {
    for rows in [&mut rows.reads, &mut rows.writes] {
        if at < rows.len() {
            rows.remove(at);
        }
    }
}

/// Without the last object.
fn object_less(rows: &mut Rows) {
    rows.objects = rows.objects.saturating_sub(1);
    let bits = |row: &mut u32| *row &= ((1u64 << rows.objects.min(32)) - 1) as u32;
    rows.reads.iter_mut().for_each(bits);
    rows.writes.iter_mut().for_each(bits);
}

/// A subject or an object less in all three matrices, then a right less in one of them.
fn simpler(matrices: &[Rows; 3]) -> Vec<[Rows; 3]> {
    let mut found = Vec::new();
    let mut add = |change: &dyn Fn(&mut [Rows; 3])| {
        let mut simpler = matrices.clone();
        change(&mut simpler);
        if simpler != *matrices {
            found.push(simpler);
        }
    };
    for at in 0..matrices.iter().map(|rows| rows.reads.len()).max().unwrap_or(0) {
        add(&|m| m.iter_mut().for_each(|rows| subject_less(rows, at)));
    }
    add(&|m| m.iter_mut().for_each(object_less));
    for one in 0..3 {
        for (at, bit) in (0..matrices[one].reads.len()).flat_map(|at| (0..32).map(move |bit| (at, bit))) {
            add(&|m| m[one].reads[at] &= !(1 << bit));
        }
        for (at, bit) in (0..matrices[one].writes.len()).flat_map(|at| (0..32).map(move |bit| (at, bit))) {
            add(&|m| m[one].writes[at] &= !(1 << bit));
        }
    }
    found
}
