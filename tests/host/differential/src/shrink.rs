//! Makes a case that shows a difference as small as it can.

use std::time::{Duration, Instant};

use yaslaurel::layout::image::{HEADER, SECTIONS};

use crate::bench::Bench;
use crate::case::Case;
use crate::counters::Counters;
use crate::spec::{number_at, put_number, Spec};

/// The smallest case found within the time, and its difference.
pub fn shrink(bench: &mut Bench, case: Box<dyn Case>, difference: String, time: Duration) -> (Box<dyn Case>, String) {
    let deadline = Instant::now() + time;
    let mut candidates = case.simpler();
    let mut best = (case, difference);
    // The place among the candidates, and how many in a row were no smaller case.
    let (mut place, mut in_vain) = (0, 0);
    while in_vain < candidates.len() && Instant::now() < deadline {
        place %= candidates.len();
        if let Some(difference) = candidates[place].run(bench, &mut Counters::default()) {
            best = (candidates.swap_remove(place), difference);
            candidates = best.0.simpler();
            // The same kind of change is tried again first.
            in_vain = 0;
        } else {
            place += 1;
            in_vain += 1;
        }
    }
    best
}

/// Simpler images: of an accepted one the simpler specs, of any other simpler bytes.
pub fn images(image: &[u8]) -> Vec<Vec<u8>> {
    if judge::image::check(image) == 0 {
        let spec = Spec::of_accepted(image);
        let plain = Some(spec.encode(0)).filter(|plain| plain.len() < image.len());
        return plain.into_iter().chain(spec.simpler().iter().map(|simpler| simpler.encode(0))).collect();
    }
    let mut found = Vec::new();
    for keep in [image.len() / 2, image.len().saturating_sub(8), image.len().saturating_sub(1)] {
        if keep < image.len() {
            found.push(image[..keep].to_vec());
        }
    }
    found.extend(shorter_sections(image));
    for at in (0..image.len().min(2_000)).filter(|&at| image[at] != 0) {
        let mut zeroed = image.to_vec();
        zeroed[at] = 0;
        found.push(zeroed);
    }
    found
}

/// One record less in one section, the bytes behind it moved up.
fn shorter_sections(image: &[u8]) -> Vec<Vec<u8>> {
    let mut found = Vec::new();
    let sections = if image.len() >= HEADER { &SECTIONS[..] } else { &[] };
    for (place, section) in sections.iter().enumerate() {
        let (offset, length) = (number_at(image, section.offset_at()), number_at(image, section.length_at()));
        if offset >= HEADER && length >= section.record && offset + length <= image.len() {
            let mut less = image.to_vec();
            less.drain(offset + length - section.record..offset + length);
            put_number(&mut less, section.length_at(), length - section.record);
            for later in &SECTIONS[place + 1..] {
                let moved = number_at(image, later.offset_at()).saturating_sub(section.record);
                put_number(&mut less, later.offset_at(), moved);
            }
            found.push(less);
        }
    }
    found
}
