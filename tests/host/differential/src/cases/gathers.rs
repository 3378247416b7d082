//! Records gathered as events into rooms of all sizes, counted into figures, and figures added, on sessions of which some are
//! damaged or of a wrong length.

use judge::session::{self, outcome, Answer, Outcome};
use yaslaurel::layout::{self, event, figures, record};
use yaslaurel::{ffi, SESSION_LENGTH};

use crate::bench::Bench;
use crate::case::{boxed, differ, differ_at, hex, Case, Difference, Part};
use crate::cases::images::show_image;
use crate::cases::traces::{self, safe_answer, Trace};
use crate::counters::{Counters, Need};
use crate::generate;
use crate::lent::{guards_stand, Guarded};
use crate::random::Random;
use crate::shrink;

pub const PART: Part = Part {
    name: "gathers of events and figures",
    cases: 60_000,
    make: |r| Box::new(make(r)),
    needs: &[
        Need::Numbers(EVENTS, &[session::ALERT, session::BLOCKED, 7, 10, 11, 12, 13, 14, 15, 18]),
        Need::Words(
            ENDS,
            &["refused with 9", "all taken", "room used up at the end", "records left", "without a record"],
        ),
        Need::Words(COUNTS, &["refused with 9", "alerts", "blocked", "sum refused with 9", "sum that wraps"]),
    ],
};

const EVENTS: &str = "events, by answer";
const ENDS: &str = "calls for events by their ends";
const COUNTS: &str = "calls for figures";

#[derive(Clone)]
struct Gathers {
    image: Vec<u8>,
    /// What is exchanged of the session that the image starts: place and bits.
    damage: Vec<(usize, u64)>,
    /// The session's length.
    length: usize,
    records: Vec<u8>,
    /// Numbers that are lent for events, for figures and for a total, and what the last begins with.
    room: usize,
    wide: usize,
    total: usize,
    begun: u64,
    /// Bytes of the first part of which figures are added.
    cut: usize,
}

fn make(r: &mut Random) -> Gathers {
    let class = r.pick(&[0, 0, 1, 2]);
    let length = r.between(0, 40);
    let Trace { image, records } = traces::make(r, class, length);
    let moved = r.percent(10);
    let mut records: Vec<u8> =
        records.into_iter().filter(|bytes| moved || bytes.len() == record::LENGTH).flatten().collect();
    if r.percent(10) {
        records.truncate(records.len() - r.below(record::LENGTH).min(records.len()));
    }
    let damage = if r.percent(15) {
        let places = layout::session::container(r.below(12));
        vec![(places.start + r.below(places.len()), 1 << r.below(64))]
    } else {
        vec![]
    };
    let room = r.pick(&[0, 4, 5, 6, 9, 10, 14, 15, 23, 40, 205]);
    let cut = r.below(records.len() / record::LENGTH + 1) * record::LENGTH;
    let begun = r.pick(&[0, 1, u64::MAX, u64::MAX - 2]);
    Gathers {
        image,
        damage,
        length: generate::length(r, SESSION_LENGTH, false),
        records,
        room,
        wide: generate::length(r, figures::LENGTH, false),
        total: generate::length(r, figures::LENGTH, false),
        begun,
        cut,
    }
}

/// What stands in lent numbers before a call.
const FILLER: u64 = 0x5a5a_5a5a_5a5a_5a5a;
const COUNT_BEFORE: usize = 0x1234_5678;

impl Case for Gathers {
    fn run(&self, bench: &mut Bench, c: &mut Counters) -> Difference {
        bench.judge_session.clear();
        bench.judge_session.resize(SESSION_LENGTH, 0);
        if session::start(&self.image, &mut bench.judge_session) != 0 {
            return None;
        }
        for &(place, bits) in &self.damage {
            bench.judge_session[place] ^= bits;
        }
        bench.judge_session.resize(self.length, 0);
        let begun = bench.judge_session.clone();
        self.all_events(bench, c).or_else(|| {
            bench.judge_session.clone_from(&begun);
            self.all_figures(bench, c)
        })
    }

    fn simpler(&self) -> Vec<Box<dyn Case>> {
        let mut found = Vec::new();
        let mut add = |change: &dyn Fn(&mut Gathers)| {
            let mut simpler = self.clone();
            change(&mut simpler);
            simpler.cut = simpler.cut.min(simpler.records.len() / record::LENGTH * record::LENGTH);
            found.push(simpler);
        };
        for place in (0..self.records.len()).step_by(record::LENGTH) {
            let behind = self.records.len().min(place + record::LENGTH);
            add(&|s| drop(s.records.drain(place..behind)));
        }
        if !self.damage.is_empty() {
            add(&|s| s.damage.clear());
        }
        if self.length != SESSION_LENGTH {
            add(&|s| s.length = SESSION_LENGTH);
        }
        for image in shrink::images(&self.image) {
            add(&|s| s.image = image.clone());
        }
        boxed(found)
    }

    fn show(&self) -> String {
        let Gathers { image, damage, length, records, room, wide, total, begun, cut } = self;
        show_image(image)
            + &format!("session of {length} numbers, exchanged in it: {damage:x?}\n")
            + &format!("room of {room} numbers, figures of {wide}, total of {total} with {begun}, cut at {cut}\n")
            + &format!("records: {}\n", hex(records))
    }
}

/// The numbers of an event: "its place .., its answer .., then receiver, tag and position .., all 0 for a refusal".
fn numbers((place, answer): &(usize, Answer)) -> [u64; event::LENGTH] {
    let Answer { number, receiver, tag, position } = *answer;
    match outcome(number) {
        Outcome::Refused => [*place as u64, number.into(), 0, 0, 0],
        Outcome::Quiet | Outcome::Alert | Outcome::Blocked => {
            [*place as u64, number.into(), receiver, tag, position.into()]
        }
    }
}

impl Gathers {
    /// The records gathered call by call to their end, on both sides.
    fn all_events(&self, bench: &mut Bench, c: &mut Counters) -> Difference {
        bench.lend_session();
        let mut rest = &self.records[..];
        loop {
            let refused = bench.judge_session.len() != SESSION_LENGTH || self.room < event::LENGTH;
            let expected = if refused {
                session::Events { taken: COUNT_BEFORE, loud: vec![] }
            } else {
                session::events(&mut bench.judge_session, rest, self.room / event::LENGTH)
            };
            let difference = self.one_call(bench, rest, refused, &expected);
            if difference.is_some() {
                return difference;
            }
            for (_, answer) in &expected.loud {
                c.count(EVENTS, answer.number);
            }
            let full = !refused && expected.loud.len() == self.room / event::LENGTH;
            let left = !refused && expected.taken * record::LENGTH < rest.len();
            c.add(ENDS, "refused with 9", u64::from(refused));
            c.add(ENDS, "without a record", u64::from(rest.is_empty()));
            c.add(ENDS, "all taken", u64::from(!refused && !left));
            c.add(ENDS, "room used up at the end", u64::from(full && !left));
            c.add(ENDS, "records left", u64::from(left));
            if !left {
                return None;
            }
            rest = &rest[expected.taken * record::LENGTH..];
        }
    }

    fn one_call(&self, bench: &mut Bench, rest: &[u8], refused: bool, expected: &session::Events) -> Difference {
        bench.record.fill(rest);
        let mut events = Guarded::new(&vec![FILLER; self.room]);
        let (mut taken, mut written) = (COUNT_BEFORE, COUNT_BEFORE);
        let (words, length) = (bench.session.pointer_mut(), bench.session.length());
        let (bytes, bytes_length) = (bench.record.pointer(), bench.record.length());
        let (at, room) = (events.pointer_mut(), events.length());
        // SAFETY: as `lent` says; the two numbers are ours.
        let number =
            unsafe { ffi::yaslaurel_events(words, length, bytes, bytes_length, at, room, &mut taken, &mut written) };
        let mut stands: Vec<u64> = expected.loud.iter().flat_map(numbers).collect();
        let loud = expected.loud.len();
        stands.resize(self.room, FILLER);
        let wanted = if refused { (9, COUNT_BEFORE, COUNT_BEFORE) } else { (0, expected.taken, loud) };
        differ("events", (number, taken, written), wanted)
            .or_else(|| differ_at("the events", events.content(), &stands))
            .or_else(|| differ_at("session after the events", bench.session.content(), &bench.judge_session))
            .or_else(|| differ_at("the records themselves", bench.record.content(), rest))
            .or_else(|| bench.guards())
            .or_else(|| guards_stand(&[&events]))
            .or_else(|| {
                let told = events.content().chunks(event::LENGTH).take(loud).map(yaslaurel::event);
                let told: Vec<_> = told.map(|(place, answer)| (place, safe_answer(answer))).collect();
                differ("events of the Rust interface", &told, &expected.loud)
            })
    }

    /// The records counted in two parts, whose figures are added to a total.
    fn all_figures(&self, bench: &mut Bench, c: &mut Counters) -> Difference {
        bench.lend_session();
        let mut sum = vec![self.begun; self.total];
        let mut total = Guarded::new(&sum);
        for part in [&self.records[..self.cut], &self.records[self.cut..]] {
            bench.record.fill(part);
            let refused = bench.judge_session.len() != SESSION_LENGTH || self.wide != figures::LENGTH;
            let expected =
                if refused { vec![FILLER; self.wide] } else { session::figures(&mut bench.judge_session, part) };
            let mut counted = Guarded::new(&vec![FILLER; self.wide]);
            let (words, length) = (bench.session.pointer_mut(), bench.session.length());
            let (bytes, bytes_length) = (bench.record.pointer(), bench.record.length());
            let (at, wide) = (counted.pointer_mut(), counted.length());
            // SAFETY: as `lent` says.
            let number = unsafe { ffi::yaslaurel_figures(words, length, bytes, bytes_length, at, wide) };
            let difference = differ("figures", number, if refused { 9 } else { 0 })
                .or_else(|| differ_at("the figures", counted.content(), &expected))
                .or_else(|| differ_at("session after the figures", bench.session.content(), &bench.judge_session))
                .or_else(|| differ_at("the records themselves", bench.record.content(), part))
                .or_else(|| bench.guards())
                .or_else(|| guards_stand(&[&counted]))
                .or_else(|| self.one_sum(&mut total, &mut sum, &counted, c));
            if difference.is_some() {
                return difference;
            }
            c.add(COUNTS, "refused with 9", u64::from(refused));
            if !refused {
                c.add(COUNTS, "alerts", u64::from(expected[figures::ALERTS] > 0));
                c.add(COUNTS, "blocked", u64::from(expected[figures::BLOCKED] > 0));
            }
        }
        None
    }

    fn one_sum(
        &self,
        total: &mut Guarded<u64>,
        sum: &mut [u64],
        counted: &Guarded<u64>,
        c: &mut Counters,
    ) -> Difference {
        let refused = self.total != figures::LENGTH || self.wide != figures::LENGTH;
        c.add(COUNTS, "sum refused with 9", u64::from(refused));
        if !refused {
            for (number, &more) in sum.iter_mut().zip(counted.content()) {
                c.add(COUNTS, "sum that wraps", u64::from(number.checked_add(more).is_none()));
                *number = number.wrapping_add(more);
            }
        }
        let (at, length) = (total.pointer_mut(), total.length());
        // SAFETY: as `lent` says.
        let number = unsafe { ffi::yaslaurel_figures_add(at, length, counted.pointer(), counted.length()) };
        differ("sum of figures", number, if refused { 9 } else { 0 })
            .or_else(|| differ_at("the total", total.content(), sum))
            .or_else(|| guards_stand(&[&*total, counted]))
    }
}
