//! Random policies, damaged images, and records that suit a session.

use yaslaurel::layout::image::{
    CONTAINERS, HEADER, LEADING, LIMIT, MIXTURES, NO_ATOM, NO_OWNER, RULES, SECTIONS, UNRESTRICTED, USERS,
};
use yaslaurel::layout::record::{CODE, NO_USER, OBJECT, PROCESS, USER, ZERO};
use yaslaurel::layout::session::{container, user, BEHALF, DECLARED, KIND, RULE_MIXTURES};

use crate::random::Random;
use crate::spec::{number_at, put_number, Spec, GAPS};

/// The record of a process.
pub const PROCESS_RECORD: (u8, u8, u16, u16) = (3, NO_ATOM, UNRESTRICTED, UNRESTRICTED);

/// A set of mixtures to draw from: few enough that rules repeat, hold one another and meet in many ways.
pub fn pool(r: &mut Random) -> Vec<u64> {
    let size = r.between(1, 12);
    match r.below(5) {
        // All of a few atoms but one: meets of these have many mixtures.
        0 => {
            let atoms = r.between(4, 8);
            let all = (1u64 << atoms) - 1;
            let shift = r.pick(&[0, 0, 3, 32]);
            (0..atoms).map(|k| (all & !(1 << k)) << shift).collect()
        }
        // Sets of few atoms.
        1 => (0..size).map(|_| (0..r.between(0, 3)).fold(0, |m, _| m | 1 << r.below(6))).collect(),
        // Sets of few data atoms and running atoms.
        2 => (0..size).map(|_| r.word() & r.pick(&[0x7, 0x3f]) & r.word() | (r.word() & 0x7) << 32).collect(),
        // Any sets.
        3 => (0..size).map(|_| if r.percent(10) { u64::MAX } else { r.word() }).collect(),
        // Most atoms.
        _ => (0..size).map(|_| r.word() | r.word() | r.word()).collect(),
    }
}

/// How many records a section has: few, or up to its limit.
fn count(r: &mut Random, class: usize, limit: usize) -> usize {
    match class {
        0 => r.below(4).min(limit),
        1 => r.below(13).min(limit),
        2 => r.below(61).min(limit),
        _ => r.between(limit - limit / 8, limit),
    }
}

fn rule_number(r: &mut Random, rules: usize) -> u16 {
    if rules == 0 || r.percent(20) {
        UNRESTRICTED
    } else {
        r.below(rules) as u16
    }
}

/// The rules of a spec and their mixtures: each with mixtures of its own, or ranges that overlap.
fn rules(r: &mut Random, class: usize, spec: &mut Spec) {
    let mut pool = pool(r);
    if r.percent(30) {
        pool.extend(self::pool(r));
    }
    let wanted = count(r, class, RULES.most);
    let most = r.pick(&[1, 2, RULE_MIXTURES, RULE_MIXTURES]);
    let least = if r.percent(30) { 0 } else { 1 };
    if r.percent(60) {
        for _ in 0..wanted {
            let count = r.between(least, most);
            if spec.mixtures.len() + count > MIXTURES.most {
                break;
            }
            spec.rules.push((spec.mixtures.len() as u16, count as u16, NO_OWNER));
            for _ in 0..count {
                spec.mixtures.push(r.pick(&pool));
            }
        }
    } else {
        let mixtures = count(r, class, MIXTURES.most).max(least);
        spec.mixtures = (0..mixtures).map(|_| r.pick(&pool)).collect();
        let mut firsts: Vec<usize> = (0..wanted).map(|_| r.below(mixtures + 1)).collect();
        firsts.sort_unstable();
        for first in firsts {
            let count = r.between(least.min(mixtures - first), most.min(mixtures - first));
            spec.rules.push((first as u16, count as u16, NO_OWNER));
        }
    }
}

/// Owners for half of the specs that have users: of some rules or of all, of few users or of any, so that equal rules have other
/// owners; and unrestricted rules that are owned.
fn owners(r: &mut Random, spec: &mut Spec) {
    if spec.users.is_empty() || r.percent(50) {
        return;
    }
    let (users, owned) = (r.between(1, spec.users.len()), r.pick(&[30, 80, 100]));
    for rule in &mut spec.rules {
        if r.percent(owned) {
            rule.2 = r.below(users) as u16;
        }
    }
    if let (true, Some(first)) = (r.percent(40), spec.mixtures.len().checked_sub(1)) {
        spec.mixtures[first] = u64::MAX;
        if spec.rules.len() < RULES.most {
            let owner = r.pick(&[NO_OWNER, 0, users as u16 - 1]);
            spec.rules.push((first as u16, 1, owner));
        }
    }
}

/// A policy that is accepted. `class` 0 to 3: tiny, small, middle, largest.
pub fn policy(r: &mut Random, class: usize) -> Spec {
    let mut spec = Spec { containers: vec![], users: vec![], rules: vec![], mixtures: vec![], gaps: [0; GAPS] };
    rules(r, class, &mut spec);
    let rules = spec.rules.len();
    let atoms = r.pick(&[2, 4, 32]);
    // Files, guarded ones, or both.
    let kinds: &[u8] = r.pick(&[&[1], &[1, 1, 4], &[1, 4], &[4]]);
    for _ in 0..count(r, class, CONTAINERS.most) {
        spec.containers.push(match r.below(20) {
            0..=10 => {
                let atom = if r.percent(10) { NO_ATOM } else { r.below(atoms) as u8 };
                let run = if r.percent(40) { UNRESTRICTED } else { rule_number(r, rules) };
                (r.pick(kinds), atom, rule_number(r, rules), run)
            }
            11..=13 => (2, NO_ATOM, UNRESTRICTED, UNRESTRICTED),
            _ => PROCESS_RECORD,
        });
    }
    for _ in 0..count(r, class.max(1), USERS.most) {
        spec.users.push(rule_number(r, rules));
    }
    owners(r, &mut spec);
    if r.percent(30) {
        for gap in &mut spec.gaps {
            *gap = r.below(6);
        }
    }
    spec
}

/// A policy whose normal image is the longest: every record that there can be, and no two rules alike.
pub fn largest(r: &mut Random) -> Spec {
    let (rules, mixtures) = (RULES.most as u16, RULE_MIXTURES as u16);
    Spec {
        containers: (0..CONTAINERS.most as u16).map(|i| (1, r.below(32) as u8, i, rules - 1 - i)).collect(),
        users: (0..USERS.most).map(|_| r.below(RULES.most) as u16).collect(),
        rules: (0..rules).map(|i| (mixtures * i, mixtures, r.pick(&[NO_OWNER, 0, 15]))).collect(),
        mixtures: (0..MIXTURES.most).map(|_| r.word()).collect(),
        gaps: [0, r.below(200), r.below(200), r.below(200), r.below(200)],
    }
}

/// A spec with the same meaning, spelled differently: rules copied, padded with repeats and with rules that nothing
/// names.
pub fn respelled(r: &mut Random, spec: &Spec) -> Spec {
    let mut other = Spec { rules: vec![], mixtures: vec![], ..spec.clone() };
    let mut moved = Vec::new();
    for &(first, count, owner) in &spec.rules {
        if r.percent(20) && other.rules.len() < 200 {
            other.rules.push((other.mixtures.len() as u16, 1, NO_OWNER));
            other.mixtures.push(r.word());
        }
        let mut own: Vec<u64> = spec.mixtures[usize::from(first)..usize::from(first + count)].to_vec();
        if let (true, Some(&some)) = (own.len() < RULE_MIXTURES && r.percent(50), own.first()) {
            own.push(some & r.word());
        }
        for i in (1..own.len()).rev() {
            own.swap(i, r.below(i + 1));
        }
        moved.push(other.rules.len() as u16);
        other.rules.push((other.mixtures.len() as u16, own.len() as u16, owner));
        other.mixtures.extend(own);
    }
    let renumber = |number: &mut u16| {
        if *number != UNRESTRICTED {
            *number = moved[usize::from(*number)];
        }
    };
    for container in &mut other.containers {
        renumber(&mut container.2);
        renumber(&mut container.3);
    }
    other.users.iter_mut().for_each(renumber);
    for gap in &mut other.gaps {
        *gap = r.below(4);
    }
    other
}

/// Breaks a spec in one place that refusals 3 to 6 look at.
fn damage_spec(r: &mut Random, spec: &mut Spec) {
    let (rules, mixtures) = (spec.rules.len() as u16, spec.mixtures.len() as u16);
    match r.below(11) {
        10 if rules > 0 => {
            let (at, users) = (r.below(spec.rules.len()), spec.users.len() as u16);
            spec.rules[at].2 = r.pick(&[0, users.saturating_sub(1), users, users + 1, 15, 16, 65534]);
        }
        0 if rules > 0 => {
            let at = r.below(spec.rules.len());
            spec.rules[at].1 = r.pick(&[9, 10, 255, 256, 65535]);
        }
        1 if rules > 0 => {
            let at = r.below(spec.rules.len());
            spec.rules[at].0 = r.pick(&[0, mixtures, mixtures + 1, 65535]);
        }
        2 | 3 if !spec.containers.is_empty() => {
            let at = r.below(spec.containers.len());
            let container = &mut spec.containers[at];
            match r.below(5) {
                0 => container.0 = r.pick(&[0, 1, 2, 3, 4, 5, 7, 255]),
                1 => container.1 = r.pick(&[0, 31, 32, 63, 254, 255]),
                2 => container.2 = r.pick(&[0, rules, rules + 1, 65534, 65535]),
                3 => container.3 = r.pick(&[0, rules, rules + 1, 65534, 65535]),
                _ => *container = (r.pick(&[2, 3]), r.pick(&[0, 255]), r.pick(&[0, 65535]), r.pick(&[0, 65535])),
            }
        }
        4 | 5 if !spec.users.is_empty() => {
            let at = r.below(spec.users.len());
            spec.users[at] = r.pick(&[rules, rules + 1, 65534]);
        }
        6 => spec.users.resize(r.about(USERS.most), UNRESTRICTED),
        7 => spec.containers.resize(r.about(CONTAINERS.most), PROCESS_RECORD),
        8 => spec.rules.resize(r.about(RULES.most), (mixtures, 0, NO_OWNER)),
        _ => spec.mixtures.resize(r.about(MIXTURES.most), 1),
    }
}

/// Where the header has the offset or the length of some section.
fn header_field(r: &mut Random) -> usize {
    let section = r.pick(&SECTIONS);
    r.pick(&[section.offset_at(), section.length_at()])
}

/// Breaks the bytes of an image.
fn damage_bytes(r: &mut Random, image: &mut Vec<u8>) {
    match r.below(8) {
        0 => image[r.below(HEADER)] = r.word() as u8,
        1 => {
            // One of the offsets and lengths, a little off or anything.
            let at = header_field(r);
            let new = match r.below(4) {
                0 => number_at(image, at).wrapping_add(1),
                1 => number_at(image, at).wrapping_sub(1),
                2 => r.pick(&[0, HEADER - 1, HEADER, 65535]),
                _ => r.word() as usize,
            };
            put_number(image, at, new);
        }
        2 => image.truncate(r.below(image.len() + 1)),
        3 => image.truncate(image.len() - 1),
        4 => image.resize(r.about(LIMIT), 7),
        5 => {
            let at = header_field(r) + 1;
            image[at] = image[at].wrapping_add(r.pick(&[1, 255]));
        }
        _ => {
            for _ in 0..r.between(1, 3) {
                let at = r.below(image.len());
                image[at] = match r.below(3) {
                    0 => r.word() as u8,
                    1 => image[at] ^ 1 << r.below(8),
                    _ => r.pick(&[0, 1, 255]),
                };
            }
        }
    }
}

/// The class of a policy: mostly tiny and small, now and then the largest.
pub fn class(r: &mut Random) -> usize {
    match r.below(100) {
        0..=34 => 0,
        35..=79 => 1,
        80..=97 => 2,
        _ => 3,
    }
}

/// An image: accepted, or damaged in one or several places, or any bytes at all.
pub fn image(r: &mut Random) -> Vec<u8> {
    if r.percent(3) {
        let length = r.pick(&[0, 1, HEADER - 1, HEADER, HEADER + 1, 40]);
        let mut bytes: Vec<u8> = (0..length).map(|_| r.word() as u8).collect();
        if length > 2 && r.percent(70) {
            put_number(&mut bytes, 0, usize::from(LEADING));
        }
        return bytes;
    }
    let class = class(r);
    let mut spec = if class == 3 && r.percent(50) { largest(r) } else { policy(r, class) };
    let damaged = r.percent(50);
    if damaged {
        for _ in 0..r.pick(&[0, 1, 1, 2, 3]) {
            damage_spec(r, &mut spec);
        }
    }
    let mut image = spec.encode(r.word() as u8);
    if damaged {
        for _ in 0..r.pick(&[0, 0, 1, 1, 2]) {
            if image.len() >= HEADER {
                damage_bytes(r, &mut image);
            }
        }
    }
    image
}

/// The length of a lent slice: right, or a little or quite wrong.
pub fn length(r: &mut Random, right: usize, longer: bool) -> usize {
    match r.below(40) {
        0 => right - 1,
        1 => right + 1,
        2 => 0,
        3 => r.below(2 * right),
        4 | 5 if longer => right + r.below(3_000),
        _ => right,
    }
}

/// The bytes of a record.
pub fn record_bytes(code: u8, p: u16, o: u16, u: u16) -> Vec<u8> {
    let mut bytes = vec![code, 0];
    for number in [p, o, u] {
        bytes.extend(number.to_le_bytes());
    }
    bytes
}

/// Breaks a record: its length, or one of its fields.
pub fn damage_record(r: &mut Random, record: &mut Vec<u8>) {
    match r.below(6) {
        0 => {
            let length = r.below(21);
            record.resize(length, 0);
        }
        1 => *record = (0..r.below(21)).map(|_| r.word() as u8).collect(),
        2 => record[CODE] = r.pick(&[0, 200, 255]),
        3 => record[ZERO] = r.pick(&[1, 128, 255]),
        4 => {
            let at = r.pick(&[PROCESS, OBJECT]);
            put_number(record, at, r.pick(&[256, 257, 65535]));
        }
        _ => put_number(record, USER, r.pick(&[0, 15, 16, 65534, 65535])),
    }
}

/// A code for the session; in so many of a hundred a container leaves.
fn code(r: &mut Random, session: &[u64], leaving: usize) -> u8 {
    if r.percent(leaving) {
        // The last process stays in most cases, or all that follows is refused.
        let processes = (0..CONTAINERS.most).filter(|&number| session[container(number)][KIND] == 3).count();
        let end = if processes > 1 { r.percent(40) } else { r.below(500) == 0 };
        r.pick(if end { &[8] } else { &[9] })
    } else if leaving == 0 {
        r.pick(&[1, 1, 1, 2, 2, 3, 3, 3, 4, 4, 5, 6, 7])
    } else {
        // Where containers leave, others come, and take their numbers.
        r.pick(&[1, 1, 1, 2, 2, 3, 3, 3, 4, 4, 5, 5, 6, 6, 7])
    }
}

/// The first container from a random place below the bound on whose kind will do.
fn container_of(r: &mut Random, session: &[u64], wanted: &[u64], bound: usize) -> u16 {
    let from = r.below(bound.max(1));
    let turn = (from..bound).chain(0..from).find(|&c| wanted.contains(&session[container(c)][KIND]));
    turn.unwrap_or(from) as u16
}

/// An object for a code.
fn object(r: &mut Random, session: &[u64], code: u8, p: u16, containers: usize) -> u16 {
    let kinds: &[u64] = match code {
        1..=3 | 9 => &[1, 2, 4],
        4 => &[1, 4],
        _ => &[0],
    };
    // A free number among the first ones is mostly one that was left.
    let near = (0..containers).any(|number| session[container(number)][KIND] == 0) && r.percent(85);
    let bound = if (5..=7).contains(&code) && !near { CONTAINERS.most } else { containers };
    match code {
        8 if r.percent(94) => p,
        _ if r.percent(94) => container_of(r, session, kinds, bound),
        _ => r.below(containers.max(1)) as u16,
    }
}

/// A record that suits the session in most ways; in so many of a hundred a container leaves.
pub fn record(r: &mut Random, session: &[u64], containers: usize, leaving: usize) -> Vec<u8> {
    let code = code(r, session, leaving);
    let p = if r.percent(96) { container_of(r, session, &[3], containers) } else { r.below(containers.max(1)) as u16 };
    let o = object(r, session, code, p, containers);
    let declared = (0..USERS.most).filter(|&u| session[user(u)][DECLARED] == 1).count();
    let own = session[container(usize::from(p))][BEHALF];
    let u = match code {
        6 if own < USERS.most as u64 && r.percent(60) => own as u16,
        4 | 6 if declared > 0 && r.percent(95) => r.below(declared) as u16,
        4 | 6 => r.below(USERS.most) as u16,
        _ => NO_USER,
    };
    let mut record = record_bytes(code, p, o, u);
    if r.percent(3) {
        damage_record(r, &mut record);
    }
    record
}
