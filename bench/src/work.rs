//! What is timed: sessions, records, images, matrices and texts of profiles of several sizes.

use yaslaurel::layout::image::{HEADER, LEADING, NO_ATOM, NO_OWNER, UNRESTRICTED, USERS};
use yaslaurel::layout::record;

/// A small generator of random numbers.
pub struct Random(pub u64);

impl Random {
    pub fn word(&mut self) -> u64 {
        self.0 = self.0.wrapping_add(0x9e37_79b9_7f4a_7c15);
        let mut z = self.0;
        z = (z ^ (z >> 30)).wrapping_mul(0xbf58_476d_1ce4_e5b9);
        z = (z ^ (z >> 27)).wrapping_mul(0x94d0_49bb_1331_11eb);
        z ^ (z >> 31)
    }

    pub fn below(&mut self, bound: usize) -> usize {
        (self.word() % bound as u64) as usize
    }
}

/// A text of exactly so many bytes: so many programs with lines on all of the paths, each path of so many bytes or a few
/// less, only the first eight programs writing or naming by ix.
pub fn profiles(programs: usize, paths: usize, path_length: usize, bytes: usize) -> Vec<u8> {
    let mut r = Random(7);
    let path = |number: usize| format!("/{:m<width$}{number}", "", width = path_length - 3);
    let mut texts = vec![String::new(); programs];
    for (number, text) in texts.iter_mut().enumerate() {
        *text = format!("profile {} {{\n", path(number));
    }
    let mut left = bytes - texts.iter().map(|text| text.len() + 2).sum::<usize>();
    // Every path is named, then any.
    let mut number = 0;
    loop {
        let program = r.below(programs);
        let name = path(if number < paths { number } else { r.below(paths) });
        let modes = ["r", "m", "rl", "rpx", "Ux", "rw", "a", "rix"];
        let line = format!("{name} {},\n", modes[r.below(if program < 8 { modes.len() } else { 5 })]);
        if left < line.len() + path_length + 5 {
            // What is left becomes one line.
            let name = path(0);
            let modes = "r".repeat(left - name.len() - 3);
            texts[programs - 1] += &format!("{name} {modes},\n");
            break;
        }
        left -= line.len();
        texts[program] += &line;
        number += 1;
    }
    let text: String = texts.into_iter().map(|text| text + "}\n").collect();
    assert_eq!(text.len(), bytes);
    text.into_bytes()
}

/// As many different profiles without lines as fit into so many bytes, 16 each.
pub fn many_profiles(bytes: usize) -> Vec<u8> {
    let letters: Vec<char> = ('a'..='z').chain('A'..='Z').chain('0'..='9').chain(['.', '/']).collect();
    let pair = |number: usize| format!("/{}{}", letters[number / letters.len()], letters[number % letters.len()]);
    (0..bytes / 16).flat_map(|number| format!("profile {} {{\n}}\n", pair(number)).into_bytes()).collect()
}

/// A rule of so many mixtures in normal form. Each mixture has a block of atoms of its own, without one that depends on
/// `variant`, so that two variants meet in as many mixtures.
pub fn rule(mixtures: usize, variant: usize) -> Vec<u64> {
    let width = 64 / mixtures;
    let block = if width == 64 { u64::MAX } else { (1 << width) - 1 };
    (0..mixtures)
        .map(|i| {
            let without = if variant == 0 { 0 } else { 1 << (variant % (width - 1)) };
            (block & !without) << (width * i)
        })
        .collect()
}

/// An image: containers as (kind, atom, permit, run), users, rules that nobody owns.
pub fn image(containers: &[(u8, u8, u16, u16)], users: &[u16], rules: &[Vec<u64>]) -> Vec<u8> {
    owned_image(containers, users, rules, |_| NO_OWNER)
}

/// The same, with an owner of each rule by its number.
fn owned_image(
    containers: &[(u8, u8, u16, u16)],
    users: &[u16],
    rules: &[Vec<u64>],
    owner: impl Fn(usize) -> u16,
) -> Vec<u8> {
    let mut sections: [Vec<u8>; 4] = Default::default();
    let [for_containers, for_users, for_rules, for_mixtures] = &mut sections;
    for (kind, atom, permit, run) in containers {
        for_containers.extend([*kind, *atom]);
        for_containers.extend(permit.to_le_bytes());
        for_containers.extend(run.to_le_bytes());
    }
    for user in users {
        for_users.extend(user.to_le_bytes());
    }
    let mut first = 0u16;
    for (number, rule) in rules.iter().enumerate() {
        for_rules.extend(first.to_le_bytes());
        for_rules.extend((rule.len() as u16).to_le_bytes());
        for_rules.extend(owner(number).to_le_bytes());
        for_mixtures.extend(rule.iter().flat_map(|mixture| mixture.to_le_bytes()));
        first += rule.len() as u16;
    }
    let mut bytes = LEADING.to_le_bytes().to_vec();
    let mut offset = HEADER;
    for section in &sections {
        bytes.extend((offset as u16).to_le_bytes());
        bytes.extend((section.len() as u16).to_le_bytes());
        offset += section.len();
    }
    bytes.extend(sections.concat());
    bytes
}

/// 100 files, 20 volatiles and 40 processes, the files with rules of so many mixtures, in 1 or 6 variants; 4 users.
pub fn policy(mixtures: usize, variants: usize) -> Vec<u8> {
    let mut containers = Vec::new();
    for i in 0..100 {
        let number = (i % variants) as u16;
        containers.push((1, (i % 32) as u8, number, number));
    }
    containers.extend([(2, NO_ATOM, UNRESTRICTED, UNRESTRICTED); 20]);
    containers.extend([(3, NO_ATOM, UNRESTRICTED, UNRESTRICTED); 40]);
    let rules: Vec<Vec<u64>> = (0..variants).map(|v| rule(mixtures, if variants == 1 { 0 } else { v + 1 })).collect();
    image(&containers, &[0, 0, 0, 0], &rules)
}

/// 100 guarded files that may hold atoms 0 to 30, 20 volatiles, and processes 120 and 121, of which the latter is made to hold
/// atom 31 by [`guarded_appends`].
pub fn guarded() -> Vec<u8> {
    let mut containers = vec![(4, NO_ATOM, 0, UNRESTRICTED); 100];
    containers.extend([(2, NO_ATOM, UNRESTRICTED, UNRESTRICTED); 20]);
    containers.extend([(3, NO_ATOM, UNRESTRICTED, UNRESTRICTED); 2]);
    containers.push((1, 31, UNRESTRICTED, UNRESTRICTED));
    image(&containers, &[], &[vec![(1 << 31) - 1]])
}

/// Appends to the files of [`guarded`] by a process; of 121, which first reads atom 31, all but the first are blocked.
pub fn guarded_appends(process: usize) -> Records {
    let first = record(1, process, if process == 121 { 122 } else { 119 }, record::NO_USER);
    let appends = (1..1_024).map(|i| record(3, process, i % 100, record::NO_USER));
    std::iter::once(first).chain(appends).collect()
}

/// A policy of so many files, each with two rules of its own of so many mixtures, and users as many as there can be.
pub fn policy_of_files(files: usize, mixtures: usize, seed: u64) -> Vec<u8> {
    files_with(&random_rules(files, mixtures, seed), |_| NO_OWNER)
}

/// So many rules of so many mixtures.
pub fn random_rules(count: usize, mixtures: usize, seed: u64) -> Vec<Vec<u64>> {
    let mut r = Random(seed);
    (0..count).map(|_| (0..mixtures).map(|_| r.word()).collect()).collect()
}

/// A policy whose rules differ in the owner alone from others: each of these rules once for every user, and files as many as rules.
pub fn policy_of_owners(rules: &[Vec<u64>]) -> Vec<u8> {
    let each: Vec<Vec<u64>> = rules.iter().flat_map(|rule| vec![rule.clone(); USERS.most]).collect();
    files_with(&each, |number| (number % USERS.most) as u16)
}

/// A file for each rule, which is one file's permit rule and another's run rule, and users as many as there can be.
fn files_with(rules: &[Vec<u64>], owner: impl Fn(usize) -> u16) -> Vec<u8> {
    let (files, number) = (rules.len(), |i: usize| i as u16);
    let containers: Vec<_> = (0..files).map(|i| (1, (i % 32) as u8, number(i), number(files - 1 - i))).collect();
    let users: Vec<u16> = (0..files.min(USERS.most)).map(number).collect();
    owned_image(&containers, &users, rules, owner)
}

/// Records.
pub type Records = Vec<[u8; record::LENGTH]>;

/// The bytes of a record.
pub fn record(code: u8, p: usize, o: usize, u: u16) -> [u8; record::LENGTH] {
    let [u0, u1] = u.to_le_bytes();
    [code, 0, p as u8, 0, o as u8, 0, u0, u1]
}

/// Records of the given codes on a session of [`policy`], none of them refused.
pub fn records(codes: &[u8], count: usize) -> Records {
    let mut r = Random(7);
    (0..count)
        .map(|_| {
            let code = codes[r.below(codes.len())];
            let o = if code == 4 { r.below(100) } else { r.below(120) };
            let u = if code == 4 { r.below(4) as u16 } else { record::NO_USER };
            record(code, 120 + r.below(40), o, u)
        })
        .collect()
}

/// Records by which containers come and leave, on a session of [`policy`], none of them refused: by turns at the numbers
/// that are free at the start, then all containers but one process, once each.
pub fn leaving() -> [(&'static str, Records); 4] {
    let by_turns = |takes: u8, u: u16, leaves: u8| {
        (0..1_024).map(move |i| {
            let (p, o) = (120 + i % 40, 160 + i / 2 % 96);
            match i % 2 {
                0 => record(takes, p, o, u),
                _ => record(leaves, if leaves == 8 { o } else { p }, o, record::NO_USER),
            }
        })
    };
    [
        ("fork and end by turns", by_turns(5, record::NO_USER, 8).collect()),
        ("new file and delete by turns", by_turns(6, 0, 9).collect()),
        ("end", (121..160).map(|p| record(8, p, p, record::NO_USER)).collect()),
        ("delete", (0..120).map(|o| record(9, 120, o, record::NO_USER)).collect()),
    ]
}
