//! The policy of profiles in natural Rust: lines, `split`, a `HashMap` for the paths and one for the rules.

use std::collections::{HashMap, HashSet};

use yaslaurel::layout::image::{LONGEST_NORMAL, NO_ATOM, UNRESTRICTED};
use yaslaurel::layout::profiles::{PATHS, PATH_LIMIT, TEXT_LIMIT};
use yaslaurel::Refusal;

use crate::plain::{Ideas, Made, Natural};
use crate::work;

/// What one program has on the paths, as sets of them.
#[derive(Clone, Copy, Default)]
struct Rights {
    path: usize,
    reads: u64,
    writes: u64,
    executes: u64,
    inherits: u64,
}

#[derive(Default)]
struct Reading<'a> {
    places: HashMap<&'a str, usize>,
    profiled: HashSet<&'a str>,
    programs: Vec<Rights>,
    unconfined: u64,
    discrete: u64,
}

impl<'a> Reading<'a> {
    /// The path's place, if the word is one.
    fn path(&mut self, word: &'a str) -> Option<usize> {
        let inside = |byte: u8| byte.is_ascii_alphanumeric() || byte == b'.' || byte == b'/';
        if !word.starts_with('/') || !(2..=PATH_LIMIT).contains(&word.len()) || !word.bytes().all(inside) {
            return None;
        }
        let next = self.places.len();
        Some(*self.places.entry(word).or_insert(next))
    }

    fn entry(&mut self, line: &'a str) -> Option<()> {
        let (path, modes) = line.strip_suffix(',')?.split_once(' ')?;
        // Beyond the limit only the grammar and the repeats matter.
        let place = self.path(path)?;
        let set = 1u64.checked_shl(place as u32).unwrap_or(0);
        let program = self.programs.last_mut()?;
        let mut letters = modes.chars();
        let mut count = 0;
        while let Some(letter) = letters.next() {
            count += 1;
            match letter {
                'r' | 'm' => program.reads |= set,
                'w' | 'a' => program.writes |= set,
                'l' => {}
                'i' | 'p' | 'P' | 'u' | 'U' if letters.next() == Some('x') => {
                    program.executes |= set;
                    match letter {
                        'i' => program.inherits |= set,
                        'p' | 'P' => self.discrete |= set,
                        _ => self.unconfined |= set,
                    }
                }
                _ => return None,
            }
        }
        (count > 0).then_some(())
    }

    fn read(text: &'a [u8]) -> Option<Reading<'a>> {
        let text = std::str::from_utf8(text).ok()?;
        let mut reading = Reading::default();
        let Some(text) = text.strip_suffix('\n') else { return text.is_empty().then_some(reading) };
        let mut open = false;
        for line in text.split('\n') {
            if !open {
                let path = line.strip_prefix("profile ")?.strip_suffix(" {")?;
                let place = reading.path(path)?;
                if !reading.profiled.insert(path) {
                    return None;
                }
                reading.programs.push(Rights { path: place, ..Rights::default() });
                open = true;
            } else if line == "}" {
                open = false;
            } else {
                reading.entry(line)?;
            }
        }
        (!open).then_some(reading)
    }
}

/// Rules numbered by first use.
#[derive(Default)]
struct Rules {
    numbers: HashMap<Made, u16>,
    list: Vec<Made>,
}

impl Rules {
    /// The number of a rule; none if it has too many mixtures.
    fn number(&mut self, candidates: &mut [u64]) -> Option<u16> {
        let made = Natural::normal(candidates);
        if made.count > made.mixtures.len() {
            return None;
        }
        let next = self.list.len() as u16;
        let number = *self.numbers.entry(made).or_insert(next);
        if number == next {
            self.list.push(made);
        }
        Some(number)
    }
}

pub fn derive(text: &[u8], out: &mut [u8]) -> u32 {
    if out.len() < LONGEST_NORMAL {
        return Refusal::LentLength.number();
    }
    if text.len() > TEXT_LIMIT {
        return Refusal::ProfileText.number();
    }
    let Some(reading) = Reading::read(text) else { return Refusal::ProfileText.number() };
    if reading.places.len() > PATHS {
        return Refusal::ProfileLimit.number();
    }
    let mixtures: Vec<u64> = reading.programs.iter().map(|p| (p.executes | 1 << p.path) << 32 | p.reads).collect();
    let mut rules = Rules::default();
    let mut containers = Vec::new();
    for place in 0..reading.places.len() {
        let own = 1u64 << place;
        let programs = || reading.programs.iter().zip(&mixtures);
        let mut permit: Vec<u64> = programs().filter(|(p, _)| p.writes & own != 0).map(|(_, m)| m | own).collect();
        if permit.is_empty() {
            permit.push(own);
        }
        let mut inherited: Vec<u64> = programs().filter(|(p, _)| p.inherits & own != 0).map(|(_, m)| *m).collect();
        let Some(permit) = rules.number(&mut permit) else { return Refusal::ProfileLimit.number() };
        let run = if let Some((_, mixture)) = programs().find(|(p, _)| p.path == place) {
            rules.number(&mut [*mixture])
        } else if reading.unconfined & own != 0 {
            Some(UNRESTRICTED)
        } else if !inherited.is_empty() {
            rules.number(&mut inherited)
        } else if reading.discrete & own != 0 {
            rules.number(&mut [])
        } else {
            Some(UNRESTRICTED)
        };
        let Some(run) = run else { return Refusal::ProfileLimit.number() };
        containers.push((1, place as u8, permit, run));
    }
    containers.push((3, NO_ATOM, UNRESTRICTED, UNRESTRICTED));
    let rules: Vec<Vec<u64>> = rules.list.iter().map(|made| made.mixtures[..made.count].to_vec()).collect();
    let image = work::image(&containers, &[UNRESTRICTED], &rules);
    out[..image.len()].copy_from_slice(&image);
    image.len() as u32
}
