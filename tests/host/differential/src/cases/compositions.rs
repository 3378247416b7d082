//! Two images composed: pairs of one shape, with the exchange compared on each that is accepted, pairs of other shapes and damaged ones.

use judge::composition;
use judge::image;
use yaslaurel::layout::image::{CONTAINERS, NO_ATOM, NO_OWNER, RULES, UNRESTRICTED, USERS};
use yaslaurel::layout::session::RULE_MIXTURES;
use yaslaurel::{compose_into, ffi, OUTPUT_LENGTH};

use crate::bench::Bench;
use crate::case::{boxed, differ, differ_at, hex, Case, Difference, Part};
use crate::cases::images::normal_again;
use crate::counters::{Counters, Need};
use crate::generate::{self, PROCESS_RECORD};
use crate::lent::{guards_stand, Guarded};
use crate::random::Random;
use crate::shrink;
use crate::spec::{Spec, GAPS};

pub const PART: Part = Part {
    name: "compositions of two images",
    cases: 40_000,
    make: |r| Box::new(make(r)),
    needs: &[
        Need::Numbers(COMPOSE, &[0, 1, 2, 3, 4, 5, 6, 9, 20, 21]),
        Need::Words(
            KINDS,
            &[
                "one image twice",
                "exchanged",
                "refused by the second image",
                "a place without mixtures",
                "an owner stays",
                "256 rules",
            ],
        ),
    ],
};

const COMPOSE: &str = "composition, by answer";
const KINDS: &str = "compositions";

#[derive(Clone)]
struct Composition {
    first: Vec<u8>,
    second: Vec<u8>,
    consent: Vec<u8>,
    out_length: usize,
}

/// What stands behind the pointer before the call.
const BEFORE: usize = 0x7654_3210;

impl Case for Composition {
    fn run(&self, bench: &mut Bench, c: &mut Counters) -> Difference {
        let (number, length) = match both(bench, [&self.first, &self.second], &self.consent, self.out_length) {
            Ok(answer) => answer,
            Err(difference) => return Some(difference),
        };
        self.count(bench, number, length, c);
        let out = bench.judge_out.clone();
        let mut safe = vec![0x5a; self.out_length];
        let told = compose_into(&self.first, &self.second, &self.consent, &mut safe);
        let told = told.map_or_else(|refusal| (refusal.number(), BEFORE), |length| (0, length));
        let difference = differ("composition of the Rust interface", told, (number, length))
            .or_else(|| differ_at("output of the Rust interface", &safe, &out));
        if difference.is_some() || image::check(&self.first) != 0 || image::check(&self.second) != 0 {
            return difference;
        }
        // "exchanging two accepted inputs gives the same bytes"
        c.count(KINDS, "exchanged");
        let exchanged = match both(bench, [&self.second, &self.first], &self.consent, self.out_length) {
            Ok(answer) => answer,
            Err(difference) => return Some(format!("exchanged: {difference}")),
        };
        differ("exchanged", exchanged, (number, length))
            .or_else(|| differ_at("output after exchange", bench.out.content(), &out))
            .or_else(|| if number == 0 { normal_again(bench, length) } else { None })
    }

    fn simpler(&self) -> Vec<Box<dyn Case>> {
        let with = |change: &dyn Fn(&mut Composition)| {
            let mut simpler = self.clone();
            change(&mut simpler);
            simpler
        };
        let mut found = vec![with(&|s| s.out_length = OUTPUT_LENGTH), with(&|s| s.consent = vec![0; 32])];
        found.retain(|s| (s.out_length, &s.consent) != (self.out_length, &self.consent));
        found.extend(shrink::images(&self.first).into_iter().map(|image| with(&|s| s.first = image.clone())));
        found.extend(shrink::images(&self.second).into_iter().map(|image| with(&|s| s.second = image.clone())));
        // A place less in both.
        let places = |image: &[u8]| image::read(image).map_or(0, |policy| policy.containers.len());
        for place in 0..places(&self.first).min(places(&self.second)).min(40) {
            let less = |image: &[u8]| {
                let mut spec = Spec::of_accepted(image);
                spec.containers.remove(place);
                spec.encode(0)
            };
            found.push(with(&|s| (s.first, s.second) = (less(&self.first), less(&self.second))));
        }
        boxed(found)
    }

    fn show(&self) -> String {
        let Composition { first, second, consent, out_length } = self;
        let images = format!("first image: {}\nsecond image: {}\n", hex(first), hex(second));
        images + &format!("consent: {}, output of {out_length} bytes\n", hex(consent))
    }
}

impl Composition {
    fn count(&self, bench: &Bench, number: u32, length: usize, c: &mut Counters) {
        c.count(COMPOSE, number);
        let second = image::check(&self.first) == 0 && image::check(&self.second) != 0 && number != 9;
        c.add(KINDS, "refused by the second image", u64::from(second));
        if number != 0 {
            return;
        }
        c.add(KINDS, "one image twice", u64::from(self.first == self.second));
        let made = image::read(&bench.judge_out[..length]).expect("what is composed is accepted");
        c.add(KINDS, "a place without mixtures", u64::from(made.rules.iter().any(Vec::is_empty)));
        c.add(KINDS, "an owner stays", u64::from(made.owners.iter().any(|&owner| owner != NO_OWNER)));
        c.add(KINDS, "256 rules", u64::from(made.rules.len() == RULES.most));
    }
}

/// Composes two images on both sides, each lent memory of its own: the answer and the length behind the pointer.
fn both(
    bench: &mut Bench,
    [first, second]: [&[u8]; 2],
    consent: &[u8],
    out_length: usize,
) -> Result<(u32, usize), String> {
    bench.image.fill(first);
    bench.record.fill(second);
    bench.lend_out(out_length);
    let lent = Guarded::new(consent);
    let mut length = BEFORE;
    // SAFETY: as `lent` says; the number is ours.
    let number = unsafe {
        ffi::yaslaurel_image_compose(
            bench.image.pointer(),
            bench.image.length(),
            bench.record.pointer(),
            bench.record.length(),
            lent.pointer(),
            lent.length(),
            bench.out.pointer_mut(),
            bench.out.length(),
            &mut length,
        )
    };
    let mut expected = BEFORE;
    let judged = composition::compose(first, second, consent, &mut bench.judge_out, &mut expected);
    let difference = differ("composition", (number, length), (judged, expected))
        .or_else(|| differ_at("output of the composition", bench.out.content(), &bench.judge_out))
        .or_else(|| differ_at("the first image", bench.image.content(), first))
        .or_else(|| differ_at("the second image", bench.record.content(), second))
        .or_else(|| differ_at("the consent", lent.content(), consent))
        .or_else(|| guards_stand(&[&lent]))
        .or_else(|| bench.guards());
    difference.map_or(Ok((judged, expected)), Err)
}

/// 32 bytes of 0 and 1: nobody, everybody, or some; seldom of another length or with another byte.
fn consent(r: &mut Random) -> Vec<u8> {
    let some = r.pick(&[0u64, u64::MAX, 1, 3, 7]);
    let bits = if r.percent(50) { some } else { r.word() };
    let mut bytes: Vec<u8> = (0..32).map(|atom| (bits >> atom & 1) as u8).collect();
    match r.below(60) {
        0 => bytes.truncate(31),
        1 => bytes.push(0),
        2 => bytes.truncate(r.below(31)),
        3 => bytes[r.below(32)] = r.pick(&[2, 3, 128, 255]),
        _ => {}
    }
    bytes
}

fn number(r: &mut Random, rules: usize) -> u16 {
    if rules == 0 || r.percent(20) {
        UNRESTRICTED
    } else {
        r.below(rules) as u16
    }
}

/// A policy of the same shape: other rules at its places, or the same ones with a few changes.
fn of_shape(r: &mut Random, spec: &Spec) -> Spec {
    let mut other = if r.percent(60) {
        generate::respelled(r, spec)
    } else {
        let class = r.pick(&[0, 1, 1, 2]);
        let rules = generate::policy(r, class);
        let users = spec.users.iter().map(|_| number(r, rules.rules.len())).collect();
        let mut other = Spec { containers: spec.containers.clone(), users, ..rules };
        for container in other.containers.iter_mut().filter(|container| [1, 4].contains(&container.0)) {
            (container.2, container.3) = (number(r, other.rules.len()), number(r, other.rules.len()));
        }
        let declared = other.users.len();
        for rule in &mut other.rules {
            if usize::from(rule.2) >= declared {
                rule.2 = NO_OWNER;
            }
        }
        other
    };
    for _ in 0..r.pick(&[0, 1, 3, 8]) {
        let (mixtures, rules, users) = (other.mixtures.len(), other.rules.len(), other.users.len());
        match r.below(3) {
            0 if mixtures > 0 => other.mixtures[r.below(mixtures)] ^= 1 << r.below(34),
            1 if mixtures > 0 => other.mixtures[r.below(mixtures)] &= r.word(),
            2 if rules > 0 && users > 0 => {
                let user = r.below(users) as u16;
                other.rules[r.below(rules)].2 = r.pick(&[NO_OWNER, user]);
            }
            _ => {}
        }
    }
    other
}

/// A small change of the shape.
fn reshaped(r: &mut Random, spec: &mut Spec) {
    let (containers, users) = (spec.containers.len(), spec.users.len());
    match r.below(5) {
        0 if containers < CONTAINERS.most => spec.containers.push(PROCESS_RECORD),
        1 if users < USERS.most => spec.users.push(UNRESTRICTED),
        2 if containers > 0 => {
            spec.containers.pop();
        }
        3 if containers > 0 => {
            let kind = &mut spec.containers[r.below(containers)].0;
            *kind = match *kind {
                1 => 4,
                4 => 1,
                2 => 3,
                _ => 2,
            };
        }
        _ if containers > 0 => {
            let container = &mut spec.containers[r.below(containers)];
            if [1, 4].contains(&container.0) {
                container.1 = if container.1 == NO_ATOM { 0 } else { NO_ATOM };
            }
        }
        _ => {}
    }
}

/// Two policies of `each` rules, at a place for each pair of them: with all consenting, as many different rules as pairs.
fn products(r: &mut Random, each: usize) -> [Spec; 2] {
    let uses: Vec<(u16, u16)> = (0..each * each).map(|k| ((k / each) as u16, (k % each) as u16)).collect();
    let spec = |side: fn(&(u16, u16)) -> u16, shift: usize| {
        let numbers: Vec<u16> = uses.iter().map(side).chain([UNRESTRICTED]).collect();
        Spec {
            containers: numbers.chunks_exact(2).map(|pair| (1, NO_ATOM, pair[0], pair[1])).collect(),
            users: vec![UNRESTRICTED],
            rules: (0..each as u16).map(|k| (k, 1, NO_OWNER)).collect(),
            mixtures: (0..each).map(|k| 1 << (k % 17 + shift)).collect(),
            gaps: [0; GAPS],
        }
    };
    let shift = r.pick(&[17, 40]);
    [spec(|pair| pair.0, 0), spec(|pair| pair.1, shift)]
}

/// Two policies with a rule for each of 16 mixtures and 16 owners, at a place of its own: as many rules as there can be, and at one
/// more place, with all consenting, one that is new.
fn by_owners() -> [Spec; 2] {
    [0, 1].map(|last| {
        let rules = RULES.most as u16;
        let numbers: Vec<u16> = (0..rules).chain([last * 16, UNRESTRICTED]).collect();
        Spec {
            containers: numbers.chunks_exact(2).map(|pair| (1, NO_ATOM, pair[0], pair[1])).collect(),
            users: vec![UNRESTRICTED; USERS.most],
            rules: (0..rules).map(|rule| (rule / 16, 1, rule % 16)).collect(),
            mixtures: (0..16).map(|atom| 1 << atom).collect(),
            gaps: [0; GAPS],
        }
    })
}

/// Two policies of one place, with about as many mixtures together as a rule may have, some of which hold others.
fn crowded(r: &mut Random) -> [Spec; 2] {
    let one = r.between(1, RULE_MIXTURES);
    let counts = [one, (r.pick(&[8, 9, 10, 12]) - one).clamp(1, RULE_MIXTURES)];
    let mut next = 0;
    counts.map(|count| {
        let mut mixture = |r: &mut Random| {
            next += usize::from(r.percent(90));
            let held = if r.percent(30) { 1 << r.below(next + 1) } else { 0 };
            1u64 << next | held | if r.percent(20) { 1 << (next + 32) } else { 0 }
        };
        Spec {
            containers: vec![(1, 0, 0, UNRESTRICTED)],
            users: vec![0],
            mixtures: (0..count).map(|_| mixture(r)).collect(),
            rules: vec![(0, count as u16, NO_OWNER)],
            gaps: [0; GAPS],
        }
    })
}

fn make(r: &mut Random) -> Composition {
    let out_length = generate::length(r, OUTPUT_LENGTH, true);
    let mut consent = consent(r);
    let [first, second] = match r.below(40) {
        0 => {
            consent = vec![1; 32];
            match r.pick(&[15, 16, 16, 17, 18]) {
                18 => by_owners(),
                each => products(r, each),
            }
        }
        1..=4 => {
            if r.percent(70) {
                consent = vec![1; 32];
            }
            crowded(r)
        }
        kind => {
            let class = generate::class(r);
            let one = generate::policy(r, class);
            let mut other = if kind == 5 { one.clone() } else { of_shape(r, &one) };
            if kind == 6 {
                reshaped(r, &mut other);
            }
            [one, other]
        }
    };
    let filler = r.word() as u8;
    let [mut first, mut second] = [first, second].map(|spec| spec.encode(filler));
    if r.percent(6) {
        first = generate::image(r);
    }
    if r.percent(6) {
        second = generate::image(r);
    }
    Composition { first, second, consent, out_length }
}
