//! The cover test of a rule of eight mixtures (change request No. 3): the first one covers the tag, or only the last one does.

use std::time::Instant;

use yaslaurel::layout::image::{NO_ATOM, UNRESTRICTED};
use yaslaurel::layout::record;
use yaslaurel::layout::session::RULE_MIXTURES;

use crate::race::median;
use crate::{library_step, started, work, ROUNDS};

/// The data atoms of one mixture.
const ATOMS: usize = 32 / RULE_MIXTURES;

#[cfg(covering)]
extern "C" {
    /// The cover test alone, of the crate `covering`: the place of the first mixture that covers.
    fn yaslaurel_cover_place(mixtures: *const u64, count: usize, tag: u64) -> usize;
}

/// Eight mixtures of data atoms, no two of which share one.
fn mixtures() -> Vec<u64> {
    (0..RULE_MIXTURES).map(|place| ((1 << ATOMS) - 1) << (ATOMS * place)).collect()
}

/// A session with a file of that permit rule and a process that holds an atom of the mixture at this place, and the record
/// of a write by the process to the file. Every run rule is unrestricted.
fn write_from(place: usize) -> (Vec<u64>, [u8; record::LENGTH]) {
    let receiver = (1, NO_ATOM, 0, UNRESTRICTED);
    let source = (1, (ATOMS * place) as u8, UNRESTRICTED, UNRESTRICTED);
    let process = (3, NO_ATOM, UNRESTRICTED, UNRESTRICTED);
    let mut session = started(&work::image(&[receiver, source, process], &[], &[mixtures()]));
    assert_eq!(library_step(&mut session, &work::record(1, 2, 1, record::NO_USER)).0, 0, "the process reads");
    let write = work::record(2, 2, 0, record::NO_USER);
    let tag = 1 << (ATOMS * place);
    assert_eq!(library_step(&mut session, &write), (0, 0, tag, place as u32), "the write is quiet");
    (session, write)
}

/// Prints a line of the table: both cases by turns within each round, and the median of the first one's ratio to the last
/// one's.
fn by_turns(name: &str, calls: usize, cases: &mut [&mut dyn FnMut(); 2]) {
    let mut times = [Vec::new(), Vec::new()];
    for round in 0..ROUNDS + 2 {
        for turn in 0..2 {
            let which = (turn + round) % 2;
            let begun = Instant::now();
            for _ in 0..calls {
                cases[which]();
            }
            // The first two rounds warm up.
            if round >= 2 {
                times[which].push(begun.elapsed().as_nanos() as f64 / calls as f64);
            }
        }
    }
    let ratio = median(times[0].iter().zip(&times[1]).map(|(first, last)| first / last).collect());
    let [first, last] = times.map(median);
    println!("| {name} | {first:.1} | {last:.1} | {ratio:.2} |");
    if ratio >= 1.0 {
        println!("\nNOT SHOWN for {name}: a rule whose first mixture covers takes no less time than one where only the last does.\n");
    }
}

pub fn cover() {
    println!("\n## A rule of eight: its first mixture covers the tag, or only its last one\n");
    println!("| call | first covers, ns | only the last covers, ns | first to last |\n|---|---|---|---|");
    let [(mut early, write), (mut late, _)] = [write_from(0), write_from(RULE_MIXTURES - 1)];
    let step = |session: &mut [u64]| {
        std::hint::black_box(library_step(session, &write));
    };
    by_turns("a write, by `yaslaurel_step`", 4_096, &mut [&mut || step(&mut early), &mut || step(&mut late)]);
    cover_alone();
}

#[cfg(covering)]
fn cover_alone() {
    let rule = mixtures();
    let covers = |place: usize| {
        let tag = std::hint::black_box(1 << (ATOMS * place));
        // SAFETY: the slice is valid and aligned for its length.
        assert_eq!(unsafe { yaslaurel_cover_place(rule.as_ptr(), rule.len(), tag) }, place);
    };
    by_turns("the cover test alone", 65_536, &mut [&mut || covers(0), &mut || covers(RULE_MIXTURES - 1)]);
}

#[cfg(not(covering))]
fn cover_alone() {
    println!("\nThe cover test alone is not measured: there is no libcovering.a (make covering).");
}
