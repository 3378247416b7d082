//! Texts of profiles: of the grammar, near its limits, and damaged in every way that a text can be.

use yaslaurel::layout::profiles::{PATHS, PATH_LIMIT, TEXT_LIMIT};
use yaslaurel::layout::session::RULE_MIXTURES;

use crate::random::Random;

/// A kind of text: what it is, how many in a thousand are of it, and how one is made.
struct Kind {
    name: &'static str,
    weight: usize,
    make: fn(&mut Random) -> Vec<u8>,
}

const fn kind(name: &'static str, weight: usize, make: fn(&mut Random) -> Vec<u8>) -> Kind {
    Kind { name, weight, make }
}

/// Every kind; a run that does not make one of each has failed.
const KINDS: [Kind; 35] = [
    kind("any profiles", 200, |r| joined(&any(r))),
    kind("no profile", 5, |_| vec![]),
    kind("one program's lines over and over", 30, |r| joined(&repeated_lines(r))),
    kind("31 to 34 paths", 60, |r| joined(&about_paths(r))),
    kind("permit rules of 7 to 10 mixtures", 60, |r| joined(&about_mixtures(r, &["w", "a", "rw", "lwa"]))),
    kind("run rules of 7 to 10 mixtures", 60, |r| joined(&about_mixtures(r, &["ix", "rix", "ixpx"]))),
    kind("mixtures that hold one another", 60, |r| joined(&held(r))),
    kind("16,382 to 16,386 bytes", 15, about_length),
    kind("far too long", 3, far_too_long),
    kind("a thousand profiles", 5, |r| joined(&thousand(r))),
    kind("paths of 1 to 3 and 63 to 66 bytes", 40, |r| damaged(r, path_length)),
    kind("a byte changed", 40, byte_changed),
    kind("a byte dropped", 25, byte_dropped),
    kind("a byte inserted", 25, byte_inserted),
    kind("cut short", 10, cut),
    kind("half of a mode", 30, |r| damaged(r, half_mode)),
    kind("no mode", 20, |r| damaged(r, no_mode)),
    kind("another letter as a mode", 20, |r| damaged(r, other_mode)),
    kind("no last byte 10", 20, |r| joined(&any(r)).split_last().map_or(vec![], |(_, rest)| rest.to_vec())),
    kind("an open profile at the end", 20, |r| damaged(r, left_open)),
    kind("a line dropped", 20, |r| damaged(r, line_dropped)),
    kind("lines exchanged", 20, |r| damaged(r, lines_exchanged)),
    kind("a blank line", 15, |r| damaged(r, blank_line)),
    kind("a comment", 10, |r| damaged(r, comment)),
    kind("a tab", 10, |r| damaged(r, tab)),
    kind("two spaces", 10, |r| damaged(r, two_spaces)),
    kind("a trailing space", 10, |r| damaged(r, trailing_space)),
    kind("lines ended by 13 and 10", 10, |r| damaged(r, carriage_return)),
    kind("a byte beyond the letters", 20, |r| damaged(r, beyond_letters)),
    kind("a profile repeated next to its first", 30, |r| damaged(r, repeated_next)),
    kind("a profile repeated far from its first", 30, |r| damaged(r, repeated_far)),
    kind("a profile repeated beyond the 32nd path", 30, |r| joined(&repeated_beyond(r))),
    kind("over 32 paths and damaged", 30, over_and_damaged),
    kind("over 8 mixtures and damaged", 20, mixtures_and_damaged),
    kind("any bytes", 10, |r| (0..r.below(60)).map(|_| byte(r)).collect()),
];

/// The names of the kinds.
pub const KIND_NAMES: [&str; KINDS.len()] = {
    let mut names = [""; KINDS.len()];
    let mut place = 0;
    while place < names.len() {
        names[place] = KINDS[place].name;
        place += 1;
    }
    names
};

/// A text and its kind's name.
pub fn text(r: &mut Random) -> (&'static str, Vec<u8>) {
    let mut left = r.below(KINDS.iter().map(|kind| kind.weight).sum());
    for kind in &KINDS {
        if left < kind.weight {
            return (kind.name, (kind.make)(r));
        }
        left -= kind.weight;
    }
    unreachable!("the weights add up")
}

type Lines = Vec<Vec<u8>>;

/// "byte 10 after every line"
fn joined(lines: &[Vec<u8>]) -> Vec<u8> {
    lines.iter().flat_map(|line| line.iter().copied().chain([10])).collect()
}

const INSIDE: &[u8] = b"abcdefghijklmnopqrstuvwxyzABCDEFGHIJKLMNOPQRSTUVWXYZ0123456789./";

/// A byte that stands somewhere in texts, or any.
fn byte(r: &mut Random) -> u8 {
    if r.percent(15) {
        return r.word() as u8;
    }
    r.pick(b"profile /{},\n\n  \trwalmixpPuUx.0-aZ9#")
}

/// So many different paths: short ones, long ones that differ in their last bytes, in their first, in one byte anywhere or
/// in the order of their bytes, or any.
fn paths(r: &mut Random, count: usize) -> Lines {
    let style = r.below(8);
    let mut found: Lines = Vec::new();
    while found.len() < count {
        let two = [r.pick(INSIDE), r.pick(INSIDE)];
        let filler = |length: usize| vec![b'm'; length];
        let path = match style {
            0 => [b"/", &two[..r.between(1, 2)]].concat(),
            1 => format!("/usr/bin/p{}", r.below(3 * count)).into_bytes(),
            2 => [b"/", &filler(PATH_LIMIT - 3)[..], &two[..]].concat(),
            3 => [b"/", &two[..], &filler(r.pick(&[3, PATH_LIMIT - 3]))[..]].concat(),
            // Each the beginning of others.
            4 => [b"/", &b"aaaa/bbbb.cccc/dddd"[..r.between(1, 19)], &two[..r.below(3)]].concat(),
            5 => {
                let mut path = [b"/", &filler(PATH_LIMIT - 1)[..]].concat();
                path[r.between(1, PATH_LIMIT - 1)] = two[0];
                path
            }
            6 => {
                let mut path = b"/abcdefgh".to_vec();
                (0..8).for_each(|_| path.swap(r.between(1, 8), r.between(1, 8)));
                path
            }
            _ => [vec![b'/'], (0..r.between(1, PATH_LIMIT - 1)).map(|_| r.pick(INSIDE)).collect()].concat(),
        };
        if !found.contains(&path) {
            found.push(path);
        }
    }
    found
}

const MODES: [&str; 10] = ["r", "w", "a", "l", "m", "ix", "px", "Px", "ux", "Ux"];

fn modes(r: &mut Random) -> Vec<u8> {
    let most = r.pick(&[1, 1, 2, 4, 12]);
    (0..r.between(1, most)).flat_map(|_| r.pick(&MODES).bytes()).collect()
}

fn opening(path: &[u8]) -> Vec<u8> {
    [b"profile ", path, b" {"].concat()
}

fn entry(path: &[u8], modes: &[u8]) -> Vec<u8> {
    [path, b" ", modes, b","].concat()
}

/// The lines of one profile.
fn profile(path: &[u8], entries: Lines) -> Lines {
    [vec![opening(path)], entries, vec![b"}".to_vec()]].concat()
}

/// Profiles of some of the paths, each with about so many lines on any of them.
fn profiles(r: &mut Random, paths: &[Vec<u8>], programs: usize, lines: usize) -> Lines {
    let mut left: Vec<usize> = (0..paths.len()).collect();
    let mut found = Vec::new();
    for _ in 0..programs.min(paths.len()) {
        let program = left.swap_remove(r.below(left.len()));
        let entries = (0..r.below(lines + 1)).map(|_| entry(&paths[r.below(paths.len())], &modes(r))).collect();
        found.extend(profile(&paths[program], entries));
    }
    found
}

/// 0 to 40 paths and programs.
fn any(r: &mut Random) -> Lines {
    let most = r.pick(&[2, 5, 12, 32, 40]);
    let count = r.between(1, most);
    let paths = paths(r, count);
    let programs = if r.percent(20) { count } else { r.below(count + 1).max(r.below(2)) };
    let lines = r.pick(&[0, 2, 4, 12]);
    profiles(r, &paths, programs, lines)
}

/// One program of several, with many lines on few paths.
fn repeated_lines(r: &mut Random) -> Lines {
    let paths = paths(r, 4);
    let lines = r.between(10, 60);
    profiles(r, &paths, 2, lines)
}

/// All of 31 to 34 paths are named, and the last ones anywhere.
fn about_paths(r: &mut Random) -> Lines {
    let count = r.between(PATHS - 1, PATHS + 2);
    let paths = paths(r, count);
    let programs = r.between(1, count);
    let mut lines = Vec::new();
    // Each path in a profile of its own, or in a line of one.
    let (own, rest) = paths.split_at(programs);
    for (place, path) in own.iter().enumerate() {
        let named = rest.iter().skip(place).step_by(programs);
        let named = named.map(|path| entry(path, r.pick(&["r", "l", "m", "Ux", "px"]).as_bytes())).collect();
        lines.extend(profile(path, named));
    }
    if r.percent(20) {
        lines.insert(lines.len() - 1, entry(&paths[r.below(count)], &modes(r)));
    }
    lines
}

/// 7 to 10 programs with one of these modes on the same path, which has no profile in most texts.
fn about_mixtures(r: &mut Random, with: &[&str]) -> Lines {
    let count = r.between(RULE_MIXTURES - 1, RULE_MIXTURES + 2);
    let paths = paths(r, count + 3);
    let shared = &paths[count];
    let mut lines = Vec::new();
    for program in &paths[..count] {
        let mut entries = vec![entry(shared, r.pick(with).as_bytes())];
        if r.percent(50) {
            let place = r.below(2);
            entries.insert(place, entry(&paths[count + 1 + r.below(2)], r.pick(&["r", "m", "l"]).as_bytes()));
        }
        lines.extend(profile(program, entries));
    }
    match r.below(8) {
        0 => lines.extend(profile(shared, vec![])),
        1 => lines.extend(profile(&paths[count + 1], vec![entry(shared, r.pick(&["ux", "px", "r"]).as_bytes())])),
        _ => {}
    }
    lines
}

/// As above, but some programs may execute another and read what it reads, so that their mixtures hold the other's.
fn held(r: &mut Random) -> Lines {
    let count = r.between(RULE_MIXTURES, RULE_MIXTURES + 4);
    let paths = paths(r, count + 2);
    let mode = r.pick(&["w", "a", "ix"]);
    let mut lines = Vec::new();
    for (place, program) in paths[..count].iter().enumerate() {
        let mut entries = vec![entry(&paths[count], mode.as_bytes())];
        for _ in 0..r.below(4) {
            entries.push(entry(&paths[r.below(place + 1)], r.pick(&["px", "Ux", "ux", "Px"]).as_bytes()));
        }
        if r.percent(10) {
            entries.push(entry(&paths[count + 1], b"r"));
        }
        lines.extend(profile(program, entries));
    }
    lines
}

/// A text of 16,382 to 16,386 bytes.
fn about_length(r: &mut Random) -> Vec<u8> {
    let wanted = r.about(TEXT_LIMIT);
    let count = r.between(2, 12);
    let paths = paths(r, count);
    let mut lines = vec![opening(&paths[0])];
    let mut left = wanted - lines[0].len() - 1 - 2;
    // A line takes 4 bytes beside path and modes with its byte 10; the last one takes what is left.
    let shortest = paths[1].len() + 4;
    loop {
        let line = entry(&paths[r.below(count)], &modes(r));
        if left < line.len() + 1 + shortest {
            break;
        }
        left -= line.len() + 1;
        lines.push(line);
    }
    lines.push(entry(&paths[1], &vec![b'r'; left - paths[1].len() - 3]));
    lines.push(b"}".to_vec());
    joined(&lines)
}

/// Much longer than a text may be, of the grammar or not.
fn far_too_long(r: &mut Random) -> Vec<u8> {
    let wanted = r.pick(&[17_000, 32_768, 65_535, 65_536, 81_920]);
    let mut text = b"profile /a {\n/b r".to_vec();
    text.resize(wanted, b'r');
    text.extend(if r.percent(80) { &b",\n}\n"[..] } else { b"}" });
    text
}

/// As many profiles as fit, all different or the last one not.
fn thousand(r: &mut Random) -> Lines {
    let mut lines: Lines = Vec::new();
    for number in 0..TEXT_LIMIT / 16 {
        let two = [INSIDE[number / INSIDE.len()], INSIDE[number % INSIDE.len()]];
        lines.extend(profile(&[b"/", &two[..]].concat(), vec![]));
    }
    let last = lines.len() - 2;
    match r.below(4) {
        0 => lines[last] = lines[2 * r.below(last / 2)].clone(),
        1 => lines[last].push(b' '),
        _ => {}
    }
    lines
}

/// Any profiles with at least one line of an entry, damaged.
fn damaged(r: &mut Random, damage: fn(&mut Random, &mut Lines)) -> Vec<u8> {
    let mut lines = any(r);
    if !lines.iter().any(|line| line.ends_with(b",")) {
        lines.extend(profile(b"/some.program", vec![entry(b"/some/file", &modes(r))]));
    }
    damage(r, &mut lines);
    joined(&lines)
}

/// The place of a line that ends so.
fn line_with(r: &mut Random, lines: &Lines, end: &[u8]) -> usize {
    let from = r.below(lines.len());
    let turn = (from..lines.len()).chain(0..from).find(|&place| lines[place].ends_with(end));
    turn.expect("there is such a line")
}

/// Path and modes of an entry.
fn parts(line: &[u8]) -> (Vec<u8>, Vec<u8>) {
    let space = line.iter().position(|&byte| byte == b' ').expect("an entry has a space");
    (line[..space].to_vec(), line[space + 1..line.len() - 1].to_vec())
}

fn path_length(r: &mut Random, lines: &mut Lines) {
    let length = r.pick(&[1, 2, 3, PATH_LIMIT - 1, PATH_LIMIT, PATH_LIMIT + 1, PATH_LIMIT + 1, PATH_LIMIT + 2]);
    let path = [b"/", &vec![r.pick(INSIDE); length - 1][..]].concat();
    if r.percent(50) {
        let place = line_with(r, lines, b",");
        lines[place] = entry(&path, &parts(&lines[place]).1);
    } else {
        let place = line_with(r, lines, b"{");
        lines[place] = opening(&path);
    }
}

fn byte_changed(r: &mut Random) -> Vec<u8> {
    let mut text = damaged(r, |_, _| ());
    let place = r.below(text.len());
    text[place] = byte(r);
    text
}

fn byte_dropped(r: &mut Random) -> Vec<u8> {
    let mut text = damaged(r, |_, _| ());
    text.remove(r.below(text.len()));
    text
}

fn byte_inserted(r: &mut Random) -> Vec<u8> {
    let mut text = damaged(r, |_, _| ());
    text.insert(r.below(text.len() + 1), byte(r));
    text
}

fn cut(r: &mut Random) -> Vec<u8> {
    let mut text = damaged(r, |_, _| ());
    text.truncate(r.below(text.len()));
    text
}

/// A mode is put where it breaks no other.
fn with_mode(r: &mut Random, lines: &mut Lines, mode: &str) {
    let place = line_with(r, lines, b",");
    let (path, old) = parts(&lines[place]);
    let modes = match r.below(3) {
        0 => mode.as_bytes().to_vec(),
        1 => [mode.as_bytes(), &old].concat(),
        _ => [&old, mode.as_bytes()].concat(),
    };
    lines[place] = entry(&path, &modes);
}

fn half_mode(r: &mut Random, lines: &mut Lines) {
    let half = r.pick(&["x", "x", "x", "i", "p", "P", "u", "U", "rx", "ixx", "pix"]);
    with_mode(r, lines, half);
}

fn other_mode(r: &mut Random, lines: &mut Lines) {
    let other = r.pick(&["R", "W", "k", "Ix", "iX", "cx", "-", " r", "r ", ",", "r,w", "/", "0"]);
    with_mode(r, lines, other);
}

fn no_mode(r: &mut Random, lines: &mut Lines) {
    let place = line_with(r, lines, b",");
    let path = parts(&lines[place]).0;
    lines[place] = match r.below(4) {
        0 => [&path[..], b","].concat(),
        1 => path,
        _ => entry(&path, b""),
    };
}

fn left_open(r: &mut Random, lines: &mut Lines) {
    lines.pop();
    if r.percent(30) {
        lines.push(opening(b"/another"));
    }
}

fn line_dropped(r: &mut Random, lines: &mut Lines) {
    lines.remove(r.below(lines.len()));
}

fn lines_exchanged(r: &mut Random, lines: &mut Lines) {
    let (one, other) = (r.below(lines.len()), r.below(lines.len()));
    lines.swap(one, other);
}

fn new_line(r: &mut Random, lines: &mut Lines, line: &[u8]) {
    lines.insert(r.below(lines.len() + 1), line.to_vec());
}

fn blank_line(r: &mut Random, lines: &mut Lines) {
    new_line(r, lines, b"");
}

fn comment(r: &mut Random, lines: &mut Lines) {
    let line = r.pick(&["# a comment", "#", "#include <base>", " "]);
    new_line(r, lines, line.as_bytes());
}

/// A space of some line, from left to right.
fn space(r: &mut Random, lines: &Lines) -> (usize, usize) {
    let end = r.pick(&[&b"{"[..], b","]);
    let place = line_with(r, lines, end);
    let spaces: Vec<usize> = (0..lines[place].len()).filter(|&at| lines[place][at] == b' ').collect();
    (place, r.pick(&spaces))
}

fn tab(r: &mut Random, lines: &mut Lines) {
    let (place, at) = space(r, lines);
    lines[place][at] = 9;
}

fn two_spaces(r: &mut Random, lines: &mut Lines) {
    let (place, at) = space(r, lines);
    lines[place].insert(at, b' ');
}

fn trailing_space(r: &mut Random, lines: &mut Lines) {
    let place = r.below(lines.len());
    let at = if r.percent(70) { lines[place].len() } else { 0 };
    lines[place].insert(at, b' ');
}

fn carriage_return(r: &mut Random, lines: &mut Lines) {
    let one = r.below(lines.len());
    let all = r.percent(30);
    for (place, line) in lines.iter_mut().enumerate() {
        if all || place == one {
            line.push(13);
        }
    }
}

/// In a path stands a byte that is next to the letters and digits, or beyond all.
fn beyond_letters(r: &mut Random, lines: &mut Lines) {
    let place = line_with(r, lines, b",");
    let (mut path, modes) = parts(&lines[place]);
    let at = r.below(path.len());
    path[at] = r.pick(b"-:@[`{_\0\x1f\x7f\x80\xc3\xff+~");
    lines[place] = entry(&path, &modes);
}

/// The lines of some profile: where they begin and end.
fn some_profile(r: &mut Random, lines: &Lines) -> (usize, usize) {
    let begin = line_with(r, lines, b"{");
    let end = (begin..lines.len()).find(|&place| lines[place] == b"}").expect("every profile ends");
    (begin, end + 1)
}

/// The profile again, with its lines or without.
fn again(r: &mut Random, lines: &[Vec<u8>]) -> Lines {
    if r.percent(50) {
        lines.to_vec()
    } else {
        vec![lines[0].clone(), b"}".to_vec()]
    }
}

fn repeated_next(r: &mut Random, lines: &mut Lines) {
    let (begin, end) = some_profile(r, lines);
    let second = again(r, &lines[begin..end]);
    lines.splice(end..end, second);
}

fn repeated_far(r: &mut Random, lines: &mut Lines) {
    let (begin, end) = some_profile(r, lines);
    let second = again(r, &lines[begin..end]);
    lines.extend(profile(b"/between.these", vec![]));
    lines.extend(second);
    if r.percent(50) {
        lines.extend(profile(b"/behind.these", vec![]));
    }
}

/// 33 paths or more, and a profile among the last of them comes twice.
fn repeated_beyond(r: &mut Random) -> Lines {
    let count = r.between(PATHS + 2, PATHS + 20);
    let paths = paths(r, count);
    let mut lines: Lines = paths.iter().flat_map(|path| profile(path, vec![])).collect();
    if r.percent(80) {
        let again = r.between(PATHS, count - 1);
        lines.extend(profile(&paths[again], vec![]));
    }
    lines
}

/// 16 goes before 17.
fn over_and_damaged(r: &mut Random) -> Vec<u8> {
    let count = r.between(PATHS + 1, PATHS + 9);
    let paths = paths(r, count);
    let lines: Lines = paths.iter().flat_map(|path| profile(path, vec![entry(path, &modes(r))])).collect();
    in_some_way(r, lines)
}

fn mixtures_and_damaged(r: &mut Random) -> Vec<u8> {
    let lines = about_mixtures(r, &["w", "ix", "ixa"]);
    in_some_way(r, lines)
}

fn in_some_way(r: &mut Random, mut lines: Lines) -> Vec<u8> {
    match r.below(4) {
        0 => left_open(r, &mut lines),
        1 => half_mode(r, &mut lines),
        2 => repeated_next(r, &mut lines),
        _ => {
            let mut text = joined(&lines);
            text.pop();
            return text;
        }
    }
    joined(&lines)
}
