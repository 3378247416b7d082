//! Two images composed, and an image with itself against its normal image.

use yaslaurel::layout::image::{CONTAINERS, NO_ATOM, UNRESTRICTED};
use yaslaurel::layout::session::RULE_MIXTURES;
use yaslaurel::{ffi, OUTPUT_LENGTH};

use crate::plain::{self, Natural, Tuned};
use crate::race::{race, Variant};
use crate::work::{self, Random};
use crate::{head_of, library_normalise, line_of, ROUNDS};

type Compose = fn(&[u8], &[u8], &[u8], &mut [u8]) -> (u32, usize);

fn library_compose(first: &[u8], second: &[u8], consent: &[u8], out: &mut [u8]) -> (u32, usize) {
    let mut length = 0;
    // SAFETY: the slices are valid for their lengths, and Rust keeps `out` apart from the others.
    let number = unsafe {
        ffi::yaslaurel_image_compose(
            first.as_ptr(),
            first.len(),
            second.as_ptr(),
            second.len(),
            consent.as_ptr(),
            consent.len(),
            out.as_mut_ptr(),
            out.len(),
            &mut length,
        )
    };
    (number, length)
}

/// The normal image of the first, which is the second too.
fn normalised(first: &[u8], _: &[u8], _: &[u8], out: &mut [u8]) -> (u32, usize) {
    (0, library_normalise(first, out) as usize)
}

/// Two images of one shape: files that take the rules in turn, and processes; two users. Every other rule of the second image permits
/// less.
fn pair(files: usize, processes: usize, rules: usize, mixtures: usize) -> [Vec<u8>; 2] {
    let mut r = Random(files as u64);
    let own: Vec<Vec<u64>> = (0..rules).map(|_| (0..mixtures).map(|_| r.word() & r.word()).collect()).collect();
    let less = |mixture: &u64, r: &mut Random| mixture & r.word();
    let other: Vec<Vec<u64>> = own
        .iter()
        .enumerate()
        .map(|(place, rule)| if place % 2 == 0 { rule.clone() } else { rule.iter().map(|m| less(m, &mut r)).collect() })
        .collect();
    let number = |place: usize| (place % rules) as u16;
    let mut containers: Vec<(u8, u8, u16, u16)> =
        (0..files).map(|file| (1, (file % 32) as u8, number(file), number(file + 1))).collect();
    containers.extend(vec![(3, NO_ATOM, UNRESTRICTED, UNRESTRICTED); processes]);
    let users = [0, UNRESTRICTED];
    [work::image(&containers, &users, &own), work::image(&containers, &users, &other)]
}

/// A race of these on two images, one atom consenting.
fn line(name: &str, [first, second]: [&[u8]; 2], variants: &[(&'static str, Compose)], columns: [&str; 3]) {
    let times = 400_000 / (first.len() + 400);
    let mut consent = [0; 32];
    consent[3] = 1;
    let mut variants: Vec<Variant<'_>> = variants
        .iter()
        .map(|&(name, compose)| {
            let mut out = vec![0u8; OUTPUT_LENGTH];
            let mut one = move || {
                let (number, length) = compose(std::hint::black_box(first), second, &consent, &mut out);
                u64::from(number) + length as u64 * 256 + u64::from(out[length / 2])
            };
            let run = move || (0..times).fold(0, |sum: u64, _| sum.wrapping_mul(31).wrapping_add(one()));
            Variant { name, prepare: Box::new(|| ()), run: Box::new(run) }
        })
        .collect();
    line_of(name, &race(ROUNDS, times, &mut variants), columns);
}

pub fn compositions() {
    let pairs = [
        ("6 containers, 3 rules of 1", pair(4, 2, 3, 1)),
        ("40 containers, 12 rules of 2", pair(30, 10, 12, 2)),
        ("160 containers, 6 rules of 8", pair(100, 60, 6, RULE_MIXTURES)),
        ("256 containers, 16 rules of 1", pair(CONTAINERS.most, 0, 16, 1)),
        ("256 containers, 100 rules of 8", pair(CONTAINERS.most, 0, 100, RULE_MIXTURES)),
    ];
    head_of("Two images composed", "images", ["natural", "tuned", ""]);
    let all: [(&str, Compose); 3] =
        [("library", library_compose), ("natural", plain::compose::<Natural>), ("tuned", plain::compose::<Tuned>)];
    for (name, [first, second]) in &pairs {
        line(name, [first, second], &all, ["natural", "tuned", ""]);
    }
    head_of("An image with itself", "image", ["natural", "tuned", "normalise"]);
    for (name, [first, _]) in &pairs {
        let mut with = all.to_vec();
        with.push(("normalise", normalised));
        line(name, [first, first], &with, ["natural", "tuned", "normalise"]);
    }
}
