//! Texts of profiles: the policy, and what is told of a text.

use judge::{normal, profiles};
use yaslaurel::layout::profiles::{PATHS, PATH_LIMIT, TEXT_LIMIT};
use yaslaurel::layout::session::RULE_MIXTURES;
use yaslaurel::{ffi, Refusal, OUTPUT_LENGTH};

use crate::bench::Bench;
use crate::case::{boxed, differ, differ_at, Case, Difference, Part};
use crate::cases::images::{image_answer, image_length, normal_again};
use crate::counters::{Counters, Need};
use crate::generate;
use crate::lent::Guarded;
use crate::random::Random;
use crate::texts::{self, KIND_NAMES};
use crate::told::told_differs;

pub const PART: Part = Part {
    name: "profiles: policy",
    cases: 80_000,
    make: |r| Box::new(make(r)),
    needs: &[
        Need::Numbers(POLICY, &[0, 9, 16, 17]),
        Need::Words(KIND, &KIND_NAMES),
        Need::Words(ACCEPTED, &[LONGEST, MOST_PATHS, LONGEST_PATH, PERMIT_OF_8, RUN_OF_8]),
        Need::Words(REFUSED, &[LENGTH, GRAMMAR, TWICE, MANY_PATHS, PERMIT_OVER, RUN_OVER]),
    ],
};

const POLICY: &str = "policy of profiles, by answer (0: a length)";
const KIND: &str = "texts of profiles, by kind";
const ACCEPTED: &str = "texts of profiles accepted, at a limit";
const REFUSED: &str = "texts of profiles refused";

const LONGEST: &str = "of 16,384 bytes";
const MOST_PATHS: &str = "of 32 paths";
const LONGEST_PATH: &str = "with a path of 64 bytes";
const PERMIT_OF_8: &str = "with a permit rule of 8";
const RUN_OF_8: &str = "with a run rule of 8";

const LENGTH: &str = "for its length alone";
const GRAMMAR: &str = "for its grammar";
const TWICE: &str = "for a path profiled twice";
const MANY_PATHS: &str = "for its paths";
const PERMIT_OVER: &str = "for a permit rule";
const RUN_OVER: &str = "for a run rule";

/// A text of profiles, and what kind of text it is.
struct Text {
    kind: &'static str,
    text: Vec<u8>,
    out_length: usize,
}

fn make(r: &mut Random) -> Text {
    let (kind, text) = texts::text(r);
    Text { kind, text, out_length: generate::length(r, OUTPUT_LENGTH, true) }
}

impl Case for Text {
    fn run(&self, bench: &mut Bench, c: &mut Counters) -> Difference {
        let text = &self.text;
        bench.image.fill(text);
        bench.lend_out(self.out_length);
        let number = library_policy(&bench.image, &mut bench.out);
        let expected = profiles::derive(text, &mut bench.judge_out);
        self.count(expected, c);
        differ("policy of profiles", number, expected)
            .or_else(|| differ_at("output of the policy of profiles", bench.out.content(), &bench.judge_out))
            .or_else(|| differ_at("the text itself", bench.image.content(), text))
            .or_else(|| bench.guards())
            .or_else(|| {
                let judge = profiles::policy(text).map(|policy| normal::encode(&policy));
                let safe = yaslaurel::profiles_policy(text).map_err(Refusal::number);
                differ("policy of profiles of the Rust interface", safe, judge.map_err(profiles::Refused::number))
            })
            .or_else(|| image_length(expected).and_then(|length| normal_again(bench, length)))
            .or_else(|| {
                // The judge's own reading is the only one.
                let reading = profiles::reading(text)?;
                (profiles::spelled(&reading) != *text).then(|| "the judge's reading is spelled differently".into())
            })
            .or_else(|| told_differs(text))
    }

    fn simpler(&self) -> Vec<Box<dyn Case>> {
        let &Text { kind, ref text, out_length } = self;
        let shorter = shorter(text).into_iter().map(|text| Text { kind, text, out_length });
        let right = Text { kind, text: text.clone(), out_length: OUTPUT_LENGTH };
        boxed(shorter.chain((out_length != OUTPUT_LENGTH).then_some(right)))
    }

    fn show(&self) -> String {
        let Text { kind, text, out_length } = self;
        let lines = text.split_inclusive(|&byte| byte == 10).map(|line| format!("  {}\n", line.escape_ascii()));
        format!("text of {} bytes ({kind}), output of {out_length} bytes:\n", text.len()) + &lines.collect::<String>()
    }
}

impl Text {
    /// Counts the text and what it comes to.
    fn count(&self, answer: u32, c: &mut Counters) {
        c.count(KIND, self.kind);
        c.count(POLICY, image_answer(answer));
        if answer == 9 {
            return;
        }
        match profiles::policy(&self.text) {
            Ok(policy) => self.at_limits(&policy).into_iter().for_each(|limit| c.count(ACCEPTED, limit)),
            Err(refused) => self.refused_for(refused).into_iter().for_each(|reason| c.count(REFUSED, reason)),
        }
    }

    /// The limits at which the text is, whose policy is this one.
    fn at_limits(&self, policy: &judge::image::Policy) -> Vec<&'static str> {
        let reading = profiles::reading(&self.text).expect("an accepted text has a reading");
        let named = profiles::paths(&reading);
        let full = |number: u16| judge::rules::normal(&policy.rule(number)).len() == RULE_MIXTURES;
        let limits = [
            (self.text.len() == TEXT_LIMIT, LONGEST),
            (named.len() == PATHS, MOST_PATHS),
            (named.iter().any(|path| path.len() == PATH_LIMIT), LONGEST_PATH),
            (policy.containers.iter().any(|container| full(container.permit)), PERMIT_OF_8),
            (policy.containers.iter().any(|container| full(container.run)), RUN_OF_8),
        ];
        limits.into_iter().filter(|(at_limit, _)| *at_limit).map(|(_, limit)| limit).collect()
    }

    fn refused_for(&self, refused: profiles::Refused) -> Option<&'static str> {
        match refused {
            profiles::Refused::TooLong => profiles::reading(&self.text).map(|_| LENGTH),
            profiles::Refused::Grammar => Some(GRAMMAR),
            profiles::Refused::ProfiledTwice => Some(TWICE),
            profiles::Refused::Paths => Some(MANY_PATHS),
            profiles::Refused::PermitRule => Some(PERMIT_OVER),
            profiles::Refused::RunRule => Some(RUN_OVER),
        }
    }
}

fn library_policy(text: &Guarded<u8>, out: &mut Guarded<u8>) -> u32 {
    // SAFETY: as `lent` says.
    unsafe { ffi::yaslaurel_profiles_policy(text.pointer(), text.length(), out.pointer_mut(), out.length()) }
}

/// Without a profile, without a line, without a byte.
fn shorter(text: &[u8]) -> Vec<Vec<u8>> {
    let mut found = Vec::new();
    let ends: Vec<usize> = (0..text.len()).filter(|&at| text[at] == 10).map(|at| at + 1).collect();
    let mut without = |from: usize, to: usize| found.push([&text[..from], &text[to..]].concat());
    for half in [text.len() / 2, text.len() / 4] {
        without(0, half);
        without(text.len() - half, text.len());
    }
    let mut begin = 0;
    for &end in ends.iter().filter(|&&end| text[..end].ends_with(b"\n}\n")) {
        without(begin, end);
        begin = end;
    }
    let mut begin = 0;
    for &end in &ends {
        without(begin, end);
        begin = end;
    }
    for at in 0..text.len().min(400) {
        without(at, at + 1);
    }
    found.retain(|simpler| simpler.len() < text.len());
    found
}
