//! Images: check, normaliser and start.

use judge::{image, normal, session};
use yaslaurel::layout::image::HEADER;
use yaslaurel::{ffi, OUTPUT_LENGTH, SESSION_LENGTH};

use crate::bench::Bench;
use crate::case::{boxed, differ, differ_at, hex, Case, Difference, Part};
use crate::counters::{Counters, Need};
use crate::generate;
use crate::lent::Guarded;
use crate::random::Random;
use crate::shrink;

pub const PART: Part = Part {
    name: "images: check, normaliser, start",
    cases: 210_000,
    make: |r| Box::new(make(r)),
    needs: &[
        Need::Numbers(CHECK, &[0, 1, 2, 3, 4, 5, 6]),
        Need::Numbers(NORMALISER, &[0, 1, 2, 3, 4, 5, 6, 9]),
        Need::Numbers(START, &[0, 1, 2, 3, 4, 5, 6, 9]),
        Need::Words(NORMAL, &["its own", "not its own"]),
        Need::Largest(LONGEST, OUTPUT_LENGTH),
    ],
};

const CHECK: &str = "image check, by answer";
const NORMALISER: &str = "normaliser, by answer (0: a length)";
const START: &str = "start, by answer";
const NORMAL: &str = "normal image of an accepted image";
const LONGEST: &str = "longest normal image";

/// An image, and the lengths of the output and of the session that are lent.
struct Image {
    image: Vec<u8>,
    out_length: usize,
    session_length: usize,
}

fn make(r: &mut Random) -> Image {
    Image {
        image: generate::image(r),
        out_length: generate::length(r, OUTPUT_LENGTH, true),
        session_length: generate::length(r, SESSION_LENGTH, false),
    }
}

impl Case for Image {
    fn run(&self, bench: &mut Bench, c: &mut Counters) -> Difference {
        let image = &self.image;
        bench.image.fill(image);
        let number = library_check(&bench.image);
        let expected = image::check(image);
        c.count(CHECK, expected);
        differ("image check", number, expected)
            .or_else(|| normal_of(bench, image, self.out_length, c))
            .or_else(|| start_of(bench, image, self.session_length, c))
            .or_else(|| differ_at("the image itself", bench.image.content(), image))
            .or_else(|| bench.guards())
    }

    fn simpler(&self) -> Vec<Box<dyn Case>> {
        let &Image { ref image, out_length, session_length } = self;
        let right = Image { image: image.clone(), out_length: OUTPUT_LENGTH, session_length: SESSION_LENGTH };
        let wrong = (out_length, session_length) != (OUTPUT_LENGTH, SESSION_LENGTH);
        let images = shrink::images(image).into_iter().map(|image| Image { image, out_length, session_length });
        boxed(wrong.then_some(right).into_iter().chain(images))
    }

    fn show(&self) -> String {
        let Image { image, out_length, session_length } = self;
        let lengths = format!("output of {out_length} bytes, session of {session_length} numbers\n");
        show_image(image) + &lengths
    }
}

pub fn show_image(image: &[u8]) -> String {
    format!("image of {} bytes: {}\n", image.len(), hex(image))
}

/// The length of the image that a function wrote; nothing if its answer is a refusal.
pub fn image_length(answer: u32) -> Option<usize> {
    Some(answer as usize).filter(|&length| length >= HEADER)
}

/// The answer of a function that writes an image, with 0 for every length.
pub fn image_answer(answer: u32) -> u32 {
    image_length(answer).map_or(answer, |_| 0)
}

fn normal_of(bench: &mut Bench, image: &[u8], out_length: usize, c: &mut Counters) -> Difference {
    bench.lend_out(out_length);
    let number = library_normalise(&bench.image, &mut bench.out);
    let expected = normal::normalise(image, &mut bench.judge_out);
    let length = image_length(expected);
    c.count(NORMALISER, image_answer(expected));
    if let Some(length) = length {
        c.largest(LONGEST, length);
        c.count(NORMAL, if bench.judge_out[..length] == *image { "its own" } else { "not its own" });
    }
    differ("normaliser", number, expected)
        .or_else(|| differ_at("output of the normaliser", bench.out.content(), &bench.judge_out))
        .or_else(|| length.and_then(|length| normal_again(bench, length)))
}

/// The image of this length in the judge's output is its own normal image.
pub fn normal_again(bench: &mut Bench, length: usize) -> Difference {
    let first = bench.judge_out[..length].to_vec();
    bench.record.fill(&first);
    let number = library_normalise(&bench.record, &mut bench.out);
    differ("normaliser on a normal image", number, length as u32)
        .or_else(|| differ_at("normal image of a normal image", &bench.out.content()[..length], &first))
}

/// Starts a session of this length on both sides, from the image that is lent.
pub fn start_of(bench: &mut Bench, image: &[u8], length: usize, c: &mut Counters) -> Difference {
    bench.judge_session.clear();
    bench.judge_session.resize(length, 0x0123_4567_89ab_cdef);
    bench.lend_session();
    let number = library_start(&bench.image, &mut bench.session);
    let expected = session::start(image, &mut bench.judge_session);
    c.count(START, expected);
    differ("start", number, expected)
        .or_else(|| differ_at("session after start", bench.session.content(), &bench.judge_session))
}

fn library_check(image: &Guarded<u8>) -> u32 {
    // SAFETY: as `lent` says.
    unsafe { ffi::yaslaurel_image_check(image.pointer(), image.length()) }
}

fn library_normalise(image: &Guarded<u8>, out: &mut Guarded<u8>) -> u32 {
    // SAFETY: as `lent` says.
    unsafe { ffi::yaslaurel_image_normalise(image.pointer(), image.length(), out.pointer_mut(), out.length()) }
}

fn library_start(image: &Guarded<u8>, session: &mut Guarded<u64>) -> u32 {
    // SAFETY: as `lent` says.
    unsafe { ffi::yaslaurel_session_start(image.pointer(), image.length(), session.pointer_mut(), session.length()) }
}
