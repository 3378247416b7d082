//! What bounds a call: the bytes that it is lent to read or fill, and its instructions, which valgrind counts: the
//! difference between many calls and few, so that the start of the program is not in it, less what as many turns without
//! the call take.

use std::env;
use std::hint::black_box;
use std::process::Command;

use yaslaurel::layout::image::HEADER;
use yaslaurel::layout::record;
use yaslaurel::layout::session::container;
use yaslaurel::{OUTPUT_LENGTH, SESSION_LENGTH};

use crate::plain::{self, Natural};
use crate::{library_check, library_normalise, library_start, library_step, profiles, refused_lines, started, work};

/// How often a call is made: few and many times, and those that fill or read much less often.
const COUNTS: [usize; 2] = [200, 1_200];
const LONG_COUNTS: [usize; 2] = [4, 24];
const LONG: usize = 10_000;

/// Who makes a call: nobody for what is around it.
#[derive(Clone, Copy, PartialEq)]
enum Side {
    Library,
    Natural,
    Nobody,
}

impl Side {
    const NAMES: [(&str, Side); 3] = [("library", Side::Library), ("natural", Side::Natural), ("nobody", Side::Nobody)];

    fn name(self) -> &'static str {
        Side::NAMES.iter().find(|(_, side)| *side == self).map_or("", |(name, _)| name)
    }
}

/// A call, and its bytes.
struct Call {
    name: String,
    bytes: usize,
    run: Box<dyn FnMut(Side)>,
}

/// One record on a session.
fn step_by(side: Side, session: &mut [u64], record: &[u8]) {
    match side {
        Side::Library => drop(black_box(library_step(session, record))),
        Side::Natural => drop(black_box(plain::step::<Natural>(session, record))),
        Side::Nobody => (),
    }
}

fn step(name: &str, mixtures: usize, codes: &[u8]) -> Call {
    let session = started(&work::policy(mixtures, 6));
    let records = work::records(codes, COUNTS[0]);
    let (mut words, mut next) = (session, 0);
    Call {
        name: name.into(),
        bytes: record::LENGTH + 2 * 8 * container(0).len(),
        run: Box::new(move |side| {
            next = (next + 1) % records.len();
            step_by(side, black_box(&mut words), black_box(&records[next]));
        }),
    }
}

/// A record that is refused with that number, as the table of operations has it.
fn refused(number: u32) -> Call {
    let line = refused_lines().into_iter().find(|line| line.refusal == number).expect("a line of that refusal");
    let (mut words, record) = (line.session, line.records[0]);
    Call {
        name: line.name,
        bytes: record::LENGTH + if number == 7 { 0 } else { 2 * 8 * container(0).len() },
        run: Box::new(move |side| step_by(side, black_box(&mut words), black_box(&record))),
    }
}

fn verdict(subjects: usize, objects: usize) -> Call {
    let mut r = work::Random(3);
    let all = ((1u64 << objects) - 1) as u32;
    let mut rows = || -> Vec<u32> { (0..subjects).map(|_| (r.word() & r.word() & r.word()) as u32 & all).collect() };
    let (reads, writes) = (rows(), rows());
    Call {
        name: format!("verdict, {subjects} subjects, {objects} objects"),
        bytes: 8 * subjects + 12,
        run: Box::new(move |side| {
            let (reads, writes) = (black_box(&reads), black_box(&writes));
            match side {
                Side::Library => drop(black_box(yaslaurel::matrix_verdict(reads, writes, objects as u32))),
                Side::Natural => drop(black_box(plain::verdict(reads, writes, objects as u32))),
                Side::Nobody => (),
            }
        }),
    }
}

/// What a call may fill, the same for all calls.
struct Room {
    out: Vec<u8>,
    session: Vec<u64>,
}

/// A function of an image or a text by the library, and by natural Rust.
type Pair = [fn(&[u8], &mut Room) -> u32; 2];

fn on_bytes(name: &str, given: Vec<u8>, filled: usize, pair: Pair) -> Call {
    let bytes = given.len() + filled;
    let mut room = Room { out: vec![0; OUTPUT_LENGTH], session: vec![0; SESSION_LENGTH] };
    Call {
        name: name.into(),
        bytes,
        run: Box::new(move |side| {
            let [ours, natural] = pair;
            let (given, room) = (black_box(&given), black_box(&mut room));
            match side {
                Side::Library => drop(black_box(ours(given, room))),
                Side::Natural => drop(black_box(natural(given, room))),
                Side::Nobody => (),
            }
        }),
    }
}

fn library_profiles(text: &[u8], out: &mut [u8]) -> u32 {
    yaslaurel::profiles_policy_into(text, out).map_or_else(|refusal| refusal.number(), |length| length as u32)
}

fn calls() -> Vec<Call> {
    let empty = work::image(&[], &[], &[]);
    let typical = work::policy(1, 6);
    let texts = [
        ("profiles, 512 bytes", work::profiles(3, 12, 14, 512)),
        ("profiles, 1024 of them", work::many_profiles(16_384)),
    ];
    let check: Pair = [|i, _| library_check(i), |i, _| plain::check(i)];
    let start: Pair = [|i, r| library_start(i, &mut r.session), |i, r| plain::start::<Natural>(i, &mut r.session)];
    let normal: Pair = [|i, r| library_normalise(i, &mut r.out), |i, r| plain::normalise::<Natural>(i, &mut r.out)];
    let profile: Pair = [|t, r| library_profiles(t, &mut r.out), |t, r| profiles::derive(t, &mut r.out)];
    let mut list = vec![
        step("read, rules of 1", 1, &[1]),
        step("append, rules of 1", 1, &[3]),
        step("read, rules of 2", 2, &[1]),
        step("exec, rules of 2", 2, &[4]),
        step("exec, rules of 3", 3, &[4]),
        step("exec, rules of 4", 4, &[4]),
        step("mixed, rules of 8", 8, &[1, 2, 3, 4]),
        refused(7),
        refused(10),
        refused(15),
        verdict(1, 1),
        verdict(3, 4),
        verdict(8, 8),
        verdict(8, 32),
        on_bytes("check, smallest", empty.clone(), 0, check),
        on_bytes("check, 160 containers", typical.clone(), 0, check),
        on_bytes("start, 160 containers", typical.clone(), 8 * SESSION_LENGTH, start),
        on_bytes("normalise, smallest", empty, HEADER, normal),
        on_bytes("normalise, 160 containers", typical.clone(), typical.len(), normal),
    ];
    list.extend(texts.map(|(name, text)| on_bytes(name, text, 0, profile)));
    list
}

/// So many of one call, for valgrind to count.
pub fn repeat(number: &str, side: &str, count: &str) {
    let mut list = calls();
    let call = &mut list[number.parse::<usize>().expect("a number of a call")];
    let (_, side) = Side::NAMES.iter().find(|(name, _)| *name == side).expect("a side");
    for _ in 0..count.parse::<usize>().expect("a count of calls") {
        (call.run)(black_box(*side));
    }
}

/// The instructions of one turn; none where there is no valgrind.
fn turn(number: usize, call: &Call, side: Side) -> Option<f64> {
    let counted = |count: usize| -> Option<f64> {
        let output = Command::new("valgrind")
            .args(["--tool=callgrind", "--callgrind-out-file=/dev/null"])
            .arg(env::current_exe().ok()?)
            .args(["repeat", &number.to_string(), side.name(), &count.to_string()])
            .output()
            .ok()?;
        let said = String::from_utf8_lossy(&output.stderr).into_owned();
        let line = said.lines().find(|line| line.contains("Collected :"))?;
        line.rsplit(' ').next()?.parse().ok()
    };
    let [few, many] = if call.bytes < LONG { COUNTS } else { LONG_COUNTS };
    Some((counted(many)? - counted(few)?) / (many - few) as f64)
}

pub fn limits() {
    println!(
        "\n## What bounds a call\n\n| call | bytes read or filled | instructions | to natural |\n|---|---|---|---|"
    );
    for (number, call) in calls().iter().enumerate() {
        let sides = [Side::Library, Side::Natural, Side::Nobody].map(|side| turn(number, call, side));
        match sides {
            [Some(ours), Some(natural), Some(around)] => {
                let (ours, natural) = (ours - around, natural - around);
                println!("| {} | {} | {ours:.0} | {:.2} |", call.name, call.bytes, ours / natural);
            }
            _ => println!("| {} | {} | not counted: valgrind is missing | |", call.name, call.bytes),
        }
    }
}
