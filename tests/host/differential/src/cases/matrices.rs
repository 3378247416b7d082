//! Access matrices: the verdict, silence, and the policy that is derived.

use judge::matrix;
use yaslaurel::{ffi, MatrixVerdict, OUTPUT_LENGTH};

use crate::bench::Bench;
use crate::case::{boxed, differ, differ_at, Case, Difference, Part};
use crate::cases::images::image_answer;
use crate::counters::{Counters, Need};
use crate::generate;
use crate::lent::{guards_stand, Guarded};
use crate::random::Random;

pub const PART: Part = Part {
    name: "matrices: verdict, silence, derived policy",
    cases: 210_000,
    make: |r| Box::new(make(r)),
    needs: &[
        Need::Numbers(VERDICT, &[0, 1, 8]),
        Need::Words(SILENCE, &["silent", "consistent, not silent", "not consistent", "refused"]),
        Need::Numbers(DERIVED, &[0, 8, 9]),
    ],
};

const VERDICT: &str = "matrix verdict, by answer";
const SILENCE: &str = "matrices";
const DERIVED: &str = "derived policy, by answer (0: a length)";

#[derive(Clone)]
struct Matrix {
    reads: Vec<u32>,
    writes: Vec<u32>,
    objects: u32,
    out_length: usize,
}

/// What a verdict gives: its number, then the count, the source and the target.
type Verdict = (u32, u32, u32, u32);

impl Case for Matrix {
    fn run(&self, bench: &mut Bench, c: &mut Counters) -> Difference {
        let Matrix { reads, writes, objects, out_length } = self;
        let (lent_reads, lent_writes) = (Guarded::new(reads), Guarded::new(writes));
        let library = library_verdict(&lent_reads, &lent_writes, *objects);
        let matrix::Verdict { number, count, source, target } = matrix::verdict(reads, writes, *objects);
        c.count(VERDICT, number);
        let silent = matrix::silent(reads, writes, *objects);
        c.count(SILENCE, in_words(silent, number));
        let (count_after, source_after, target_after) = if number <= 1 { (count, source, target) } else { BEFORE };
        bench.lend_out(*out_length);
        let length = library_policy(&lent_reads, &lent_writes, *objects, &mut bench.out);
        let expected_length = matrix::policy(reads, writes, *objects, &mut bench.judge_out);
        c.count(DERIVED, image_answer(expected_length));
        differ("matrix verdict", library, (number, count_after, source_after, target_after))
            .or_else(|| {
                differ("matrix verdict of the Rust interface", self.safe_verdict(), (number, count, source, target))
            })
            .or_else(|| differ("silent", library_silent(&lent_reads, &lent_writes, *objects), silent))
            .or_else(|| differ("silent of the Rust interface", self.safe_silent(), silent))
            .or_else(|| differ("derived policy", length, expected_length))
            .or_else(|| differ_at("output of the derived policy", bench.out.content(), &bench.judge_out))
            .or_else(|| differ_at("the read rows", lent_reads.content(), reads))
            .or_else(|| differ_at("the write rows", lent_writes.content(), writes))
            .or_else(|| guards_stand(&[&lent_reads, &lent_writes]))
            .or_else(|| bench.guards())
    }

    fn simpler(&self) -> Vec<Box<dyn Case>> {
        boxed(self.fewer().into_iter().chain(self.without_rights()))
    }

    fn show(&self) -> String {
        let Matrix { reads, writes, objects, out_length } = self;
        format!("read rows {reads:x?}, write rows {writes:x?}, {objects} objects\noutput of {out_length} bytes\n")
    }
}

impl Matrix {
    fn safe_verdict(&self) -> Verdict {
        match yaslaurel::matrix_verdict(&self.reads, &self.writes, self.objects) {
            Ok(MatrixVerdict::Consistent) => (0, 0, 0, 0),
            Ok(MatrixVerdict::Inconsistent { flows, source, target }) => (1, flows, source, target),
            Err(refusal) => (refusal.number(), 0, 0, 0),
        }
    }

    fn safe_silent(&self) -> u32 {
        match yaslaurel::matrix_silent(&self.reads, &self.writes, self.objects) {
            Ok(silent) => u32::from(silent),
            Err(refusal) => refusal.number(),
        }
    }

    /// The right length of the output, a subject less, an object less.
    fn fewer(&self) -> Vec<Matrix> {
        let mut found = Vec::new();
        if self.out_length != OUTPUT_LENGTH {
            found.push(Matrix { out_length: OUTPUT_LENGTH, ..self.clone() });
        }
        for at in 0..self.reads.len().min(self.writes.len()) {
            let mut less = self.clone();
            less.reads.remove(at);
            less.writes.remove(at);
            found.push(less);
        }
        if (2..=32).contains(&self.objects) {
            let mask = ((1u64 << (self.objects - 1)) - 1) as u32;
            let cut = |rows: &[u32]| rows.iter().map(|row| row & mask).collect::<Vec<u32>>();
            let (reads, writes) = (cut(&self.reads), cut(&self.writes));
            found.push(Matrix { reads, writes, objects: self.objects - 1, out_length: self.out_length });
        }
        found
    }

    /// Without one of the rights.
    fn without_rights(&self) -> Vec<Matrix> {
        let mut found = Vec::new();
        for (at, row) in self.reads.iter().enumerate() {
            for bit in (0..32).filter(|bit| row >> bit & 1 == 1) {
                let mut less = self.clone();
                less.reads[at] &= !(1 << bit);
                found.push(less);
            }
        }
        for (at, row) in self.writes.iter().enumerate() {
            for bit in (0..32).filter(|bit| row >> bit & 1 == 1) {
                let mut less = self.clone();
                less.writes[at] &= !(1 << bit);
                found.push(less);
            }
        }
        found
    }
}

/// What a matrix is, by the answers on its silence and its consistency.
fn in_words(silent: u32, verdict: u32) -> &'static str {
    match (silent, verdict) {
        (1, 0) => "silent",
        (0, 0) => "consistent, not silent",
        (0, 1) => "not consistent",
        (8, 8) => "refused",
        _ => "silent, not consistent",
    }
}

/// The three numbers behind the verdict's pointers before the call.
const BEFORE: (u32, u32, u32) = (0x1111_2222, 0x3333_4444, 0x5555_6666);

fn library_verdict(reads: &Guarded<u32>, writes: &Guarded<u32>, objects: u32) -> Verdict {
    let (mut count, mut source, mut target) = BEFORE;
    // SAFETY: as `lent` says; the three numbers are ours.
    let number = unsafe {
        ffi::yaslaurel_matrix_verdict(
            reads.pointer(),
            reads.length(),
            writes.pointer(),
            writes.length(),
            objects,
            &mut count,
            &mut source,
            &mut target,
        )
    };
    (number, count, source, target)
}

fn library_silent(reads: &Guarded<u32>, writes: &Guarded<u32>, objects: u32) -> u32 {
    // SAFETY: as `lent` says.
    unsafe { ffi::yaslaurel_matrix_silent(reads.pointer(), reads.length(), writes.pointer(), writes.length(), objects) }
}

fn library_policy(reads: &Guarded<u32>, writes: &Guarded<u32>, objects: u32, out: &mut Guarded<u8>) -> u32 {
    // SAFETY: as `lent` says.
    unsafe {
        ffi::yaslaurel_matrix_policy(
            reads.pointer(),
            reads.length(),
            writes.pointer(),
            writes.length(),
            objects,
            out.pointer_mut(),
            out.length(),
        )
    }
}

fn make(r: &mut Random) -> Matrix {
    let objects = match r.below(20) {
        0 => r.pick(&[0, 33, 64, u32::MAX]),
        1 => 32,
        _ => r.between(1, 12) as u32,
    };
    let subjects = match r.below(20) {
        0 => r.pick(&[0, 9, 20]),
        _ => r.between(1, 8),
    };
    let mask = if objects >= 32 { u32::MAX } else { (1u32 << objects) - 1 };
    let dense = r.below(4);
    let row = |r: &mut Random| {
        let row = match dense {
            0 => r.word() & r.word() & r.word(),
            1 => r.word() & r.word(),
            2 => r.word(),
            _ => 1 << r.below(32) | 1 << r.below(32),
        };
        let row = row as u32;
        if r.percent(1) {
            row
        } else {
            row & mask
        }
    };
    let reads: Vec<u32> = (0..subjects).map(|_| row(r)).collect();
    let differ = r.percent(2);
    let writers = if differ { r.below(10) } else { subjects };
    let writes = (0..writers).map(|_| row(r)).collect();
    Matrix { reads, writes, objects, out_length: generate::length(r, OUTPUT_LENGTH, true) }
}
