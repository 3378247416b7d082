//! Traces trimmed to their alert, against natural Rust: for each cut a clone of the started session, and a run of the whole cut.

use yaslaurel::layout::image::{NO_ATOM, UNRESTRICTED};
use yaslaurel::layout::record;
use yaslaurel::{ffi, trim_into, Operation, Session, Verdict, SESSION_LENGTH, TRIM_LIMIT};

use crate::plain::{self, Natural};
use crate::race::{race, Variant};
use crate::work::{self, Random};
use crate::{head, line, ROUNDS};

/// The positions that natural Rust keeps, in one number.
fn natural(image: &[u8], trace: &[u8]) -> u64 {
    let mut started = vec![0; SESSION_LENGTH];
    assert_eq!(plain::start::<Natural>(image, &mut started), 0, "the image is accepted");
    let records: Vec<&[u8]> = trace.chunks(record::LENGTH).collect();
    let counts = |positions: &[usize]| {
        let mut session = started.clone();
        let mut last = ffi::QUIET;
        for &position in positions {
            last = plain::step::<Natural>(&mut session, records[position]).0;
            if last != ffi::QUIET && last != ffi::ALERT {
                return false;
            }
        }
        last == ffi::ALERT
    };
    let mut positions: Vec<usize> = (0..records.len()).collect();
    assert!(counts(&positions), "the trace ends in an alert");
    loop {
        let before = positions.len();
        let mut at = 0;
        while at + 1 < positions.len() {
            let taken = positions.remove(at);
            if !counts(&positions) {
                positions.insert(at, taken);
                at += 1;
            }
        }
        if positions.len() == before {
            return positions.iter().fold(0, |sum, &position| sum * 31 + position as u64);
        }
    }
}

fn library(image: &[u8], trace: &[u8]) -> u64 {
    let mut positions = [0; TRIM_LIMIT];
    let kept = trim_into(image, trace, &mut positions).expect("the trace ends in an alert");
    positions[..kept].iter().fold(0, |sum, &position| sum * 31 + u64::from(position))
}

fn judge(image: &[u8], trace: &[u8]) -> u64 {
    let trimmed = judge::trim::trim(image, trace).expect("the trace ends in an alert");
    trimmed.positions.iter().fold(0, |sum, &position| sum * 31 + position as u64)
}

/// Files that may hold themselves and their neighbour, and processes.
fn policy(files: usize, processes: usize) -> Vec<u8> {
    let rules: Vec<Vec<u64>> = (0..16).map(|file| vec![1 << file | 1 << ((file + 1) % 16)]).collect();
    let mut containers: Vec<(u8, u8, u16, u16)> =
        (0..files).map(|file| (1, (file % 16) as u8, (file % 16) as u16, UNRESTRICTED)).collect();
    containers.extend(vec![(3, NO_ATOM, UNRESTRICTED, UNRESTRICTED); processes]);
    work::image(&containers, &[UNRESTRICTED], &rules)
}

/// Accepted reads, writes and appends by random processes, of which the last alerts.
fn trace(image: &[u8], files: usize, processes: usize, count: usize) -> Vec<u8> {
    let mut r = Random(count as u64);
    let mut session = Session::start(image).expect("the image is accepted");
    let mut records = Vec::new();
    while records.len() < record::LENGTH * count {
        let (process, object) = ((files + r.below(processes)) as u8, r.below(files) as u8);
        let operation = match r.below(4) {
            0 | 1 => Operation::Read { process, object },
            2 => Operation::Write { process, object },
            _ => Operation::Append { process, object },
        };
        let mut after = session.clone();
        let alert = after.perform(operation).is_ok_and(|answer| answer.verdict == Verdict::Alert);
        // The last record is the only one that has to alert.
        if records.len() < record::LENGTH * (count - 1) || alert {
            session = after;
            records.extend(operation.record());
        }
    }
    records
}

/// A chain of forks, each of the process before, of which a pass drops the last, then the read and the append that alert.
fn chain(files: usize) -> Vec<u8> {
    let forks = (0..TRIM_LIMIT - files - 8).map(|n| ((files + 7 + n) as u8, (files + 8 + n) as u8));
    let mut operations: Vec<Operation> = forks.map(|(process, child)| Operation::Fork { process, child }).collect();
    let process = files as u8;
    operations.extend([Operation::Read { process, object: 2 }, Operation::Append { process, object: 0 }]);
    operations.into_iter().flat_map(Operation::record).collect()
}

pub fn trims() {
    head("A trace trimmed to its alert", "records");
    let (small, large) = (policy(12, 8), policy(150, 40));
    let mut works: Vec<(String, &[u8], Vec<u8>)> = Vec::new();
    for count in [16, 64, TRIM_LIMIT] {
        works.push((format!("{count}, 20 containers"), &small, trace(&small, 12, 8, count)));
        works.push((format!("{count}, 190 containers"), &large, trace(&large, 150, 40, count)));
    }
    let forks = policy(4, 8);
    let chained = chain(4);
    works.push((format!("{}, a chain of forks", chained.len() / record::LENGTH), &forks, chained));
    for (name, image, trace) in &works {
        type Trim = fn(&[u8], &[u8]) -> u64;
        let slow = trace.len() > record::LENGTH * 100;
        let all: [(&'static str, Trim); 3] = [("library", library), ("natural", natural), ("judge", judge)];
        let variants = all.into_iter().filter(|(name, _)| !slow || *name != "judge");
        let mut variants: Vec<Variant<'_>> = variants
            .map(|(name, function)| Variant {
                name,
                prepare: Box::new(|| {}),
                run: Box::new(move || function(image, trace)),
            })
            .collect();
        let rounds = if name.ends_with("forks") { 3 } else { ROUNDS };
        line(name, &race(rounds, 1, &mut variants));
    }
}
