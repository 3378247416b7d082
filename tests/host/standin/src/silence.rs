//! Silent matrices by composed flows and permit rules, with the faults inside. The judge goes by the fullest session.

use judge::matrix::{verdict, well_formed};
use judge::rules::covers;

use crate::faults::{planted, Fault};

fn atoms(set: u64, objects: usize) -> impl Iterator<Item = usize> {
    (0..objects).filter(move |k| set >> k & 1 == 1)
}

/// The objects with a composed flow into each object, as sets.
fn sources(reads: &[u32], writes: &[u32], objects: usize) -> Vec<u64> {
    let by = if planted(Fault::SilentAppendByRead) { reads } else { writes };
    let readers = |b: usize| reads.iter().zip(by).filter(move |(_, w)| *w >> b & 1 == 1).map(|(&r, _)| u64::from(r));
    let mut into: Vec<u64> = (0..objects).map(|b| readers(b).fold(1 << b, |all, r| all | r)).collect();
    if planted(Fault::SilentByGranted) {
        return into;
    }
    for _ in 0..objects {
        into = into.iter().map(|&set| atoms(set, objects).fold(set, |all, a| all | into[a])).collect();
    }
    if planted(Fault::SilentByRows) {
        let out = |a: usize| atoms(u64::MAX, objects).filter(|&b| into[b] >> a & 1 == 1).fold(0, |all, b| all | 1 << b);
        return (0..objects).map(out).collect();
    }
    into
}

/// The permit rule of an object: for each writer what it reads and the object itself, or the object alone.
fn rule(reads: &[u32], writes: &[u32], b: usize) -> Vec<u64> {
    let writers = reads.iter().zip(writes).filter(|(_, w)| *w >> b & 1 == 1);
    let rule: Vec<u64> = writers.map(|(&r, _)| u64::from(r) | 1 << b).collect();
    if rule.is_empty() && !planted(Fault::UnwrittenNotSilent) {
        return vec![1 << b];
    }
    rule
}

fn covered(rule: &[u64], set: u64, objects: usize) -> bool {
    let each = || atoms(set, objects).map(|a| 1u64 << a);
    match Fault::planted() {
        Some(Fault::SilentByEachSource) => each().all(|a| covers(rule, a)),
        Some(Fault::SilentByPairs) => each().all(|a| each().all(|b| covers(rule, a | b))),
        _ => covers(rule, set),
    }
}

pub fn answer(reads: &[u32], writes: &[u32], objects: u32) -> u32 {
    if !well_formed(reads, writes, objects) {
        return if planted(Fault::RefusedNotSilent) { 0 } else { 8 };
    }
    if planted(Fault::ConsistentAsSilent) {
        return u32::from(verdict(reads, writes, objects).number == 0);
    }
    let count = objects as usize;
    let sources = sources(reads, writes, count);
    u32::from((0..count).all(|b| covered(&rule(reads, writes, b), sources[b], count)))
}
