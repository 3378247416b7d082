//! Proposals, games, flows and accesses that sound, against the judge.

use std::collections::BTreeMap;

use analysis::{desk_move, failed_condition, missing_flows, sounding, suggest, NamedMatrix, Position, Suggestion};
use judge::game::{Answer, Game};
use judge::matrix;
use judge::numbers::SESSION;
use judge::session::{outcome, start, step, Outcome};
use judge::withdrawals::{consistent, judge, rights, Rights, Rows};
use yaslaurel::Move;

use crate::random::Random;

/// How many rights may be withdrawable where all ways to withdraw are tried.
const TRIED: usize = 12;

/// A random matrix of these counts, with a share of its rights.
fn random_matrix(random: &mut Random, subjects: usize, objects: usize, percent: usize) -> NamedMatrix {
    let mut row = || (0..objects).fold(0, |row, object| row | u32::from(random.percent(percent)) << object);
    let (reads, writes): (Vec<u32>, Vec<u32>) = (0..subjects).map(|_| (row(), row())).unzip();
    let heading = (0..objects).map(|object| format!("o{object}"));
    let mut rows = vec![(1, heading.collect::<Vec<_>>())];
    rows.extend((0..subjects).map(|subject| {
        let cells = (0..objects).map(|_| "-".to_string());
        (subject + 2, [format!("s{subject}")].into_iter().chain(cells).collect())
    }));
    NamedMatrix::from_cells(rows).expect("few").with_rows(&reads, &writes)
}

/// A part of a matrix.
fn part(random: &mut Random, matrix: &NamedMatrix, percent: usize) -> NamedMatrix {
    let mut part = matrix.clone();
    for right in matrix.rights() {
        part.set(right, random.percent(percent));
    }
    part
}

/// The matrix as the judge takes it.
fn rows(matrix: &NamedMatrix) -> Rows {
    let rows = matrix.rows();
    Rows { reads: rows.reads.to_vec(), writes: rows.writes.to_vec(), objects: rows.objects }
}

/// The fewest rights by whose withdrawal a matrix becomes consistent, by trying all; nothing if there is no way.
fn fewest(old: &Rights, required: &Rights, objects: usize) -> Option<usize> {
    let free: Vec<_> = old.difference(required).copied().collect();
    let all = 0..1_u32 << free.len();
    let good = all.filter(|set| {
        let gone = |k: &usize| set >> k & 1 == 1;
        let left: Rights =
            old.iter().copied().filter(|right| !(0..free.len()).filter(gone).any(|k| free[k] == *right)).collect();
        consistent(&left, objects)
    });
    good.map(|set| set.count_ones() as usize).min()
}

/// Whether a suggestion is right, and a word for its kind.
fn suggestion(old: &NamedMatrix, required: &NamedMatrix) -> (bool, &'static str) {
    let found = suggest(old, required, 3).expect("a matrix that is well formed");
    let (old_rights, kept) = (rights(&rows(old)), rights(&rows(required)));
    let free = old_rights.difference(&kept).count();
    let tried = (free <= TRIED && kept.is_subset(&old_rights)).then(|| fewest(&old_rights, &kept, old.objects().len()));
    match found {
        Suggestion::Found(search, proposals) => {
            let accepted = |proposed: &NamedMatrix| judge(&rows(old), &rows(required), &rows(proposed)) == 0;
            let withdrawn = |proposed: &NamedMatrix| old.rights().count() - proposed.rights().count();
            let exact = search == analysis::Search::Exact;
            let right = proposals.iter().all(accepted) && !proposals.is_empty();
            let different = proposals.windows(2).all(|two| two[0] != two[1]);
            let small = !exact || tried.map_or(true, |fewest| proposals.iter().all(|p| Some(withdrawn(p)) == fewest));
            (right && different && small, if exact { "exact" } else { "greedy" })
        }
        Suggestion::Lacking(_) => (!kept.is_subset(&old_rights), "lacking"),
        Suggestion::None => (tried.map_or(true, |fewest| fewest.is_none()), "none"),
        // Small matrices are never too much work.
        Suggestion::NotFound => (tried.is_none(), "not found"),
    }
}

/// The conditions that fail, against the judge's number.
fn judged(old: &NamedMatrix, required: &NamedMatrix, proposed: &NamedMatrix) -> bool {
    let failed = failed_condition(old, required, proposed).expect("a matrix that is well formed");
    failed.map_or(0, |failed| failed.number()) == judge(&rows(old), &rows(required), &rows(proposed))
}

/// Prints the counts, and whether nothing was wrong and no kind is missing.
fn told(what: &str, wrong: usize, kinds: &BTreeMap<&str, usize>, wanted: &[&str]) -> bool {
    println!("{} {what}, {wrong} wrong; {kinds:?}", kinds.values().sum::<usize>());
    let missing: Vec<_> = wanted.iter().filter(|kind| !kinds.contains_key(**kind)).collect();
    if !missing.is_empty() {
        println!("none was so: {missing:?}");
    }
    wrong == 0 && missing.is_empty()
}

/// Random proposals.
pub fn proposals(seed: u64, count: usize) -> bool {
    let mut random = Random::new(seed);
    let (mut wrong, mut kinds) = (0, BTreeMap::new());
    for place in 0..count {
        // One in a hundred is large, too large for the exact search.
        let large = place % 100 == 99;
        let (subjects, objects) =
            if large { (8, random.between(24, 32)) } else { (random.between(1, 3), random.between(1, 4)) };
        let share = if large { 45 } else { random.between(20, 60) };
        let old = random_matrix(&mut random, subjects, objects, share);
        let share = if large { 0 } else { random.pick(&[0, 0, 30, 90]) };
        let mut required = part(&mut random, &old, share);
        if random.percent(3) {
            required = random_matrix(&mut random, subjects, objects, 50);
        }
        let proposed = part(&mut random, &old, 70);
        let (right, kind) = suggestion(&old, &required);
        *kinds.entry(kind).or_insert(0) += 1;
        if !right || !judged(&old, &required, &proposed) {
            wrong += 1;
            println!("wrong: {kind}: {old:?} {required:?} {proposed:?}");
        }
    }
    told("proposals", wrong, &kinds, &["exact", "greedy", "lacking", "none"])
}

/// Random games: who wins at the start, and by which move.
pub fn games(seed: u64, count: usize) -> bool {
    let mut random = Random::new(seed);
    let (mut wrong, mut kinds) = (0, BTreeMap::new());
    for _ in 0..count {
        let (subjects, objects) = (random.between(1, 3), random.between(2, 3));
        let matrix = random_matrix(&mut random, subjects, objects, 60);
        let source = random.below(objects);
        let target = (source + 1 + random.below(objects - 1)) % objects;
        let (source, target) = (source as u32, target as u32);
        let (rounds, withdrawals) = (random.between(1, 4) as u32, random.below(3) as u32);
        let game = Game { rows: rows(&matrix), source, target, rounds, withdrawals };
        let (desk, wins) = desk_move(&Position::start(&matrix, source, target, rounds, withdrawals));
        let answer = match (wins, desk) {
            (false, _) => Answer::default(),
            (true, Move::Read { subject, object }) => Answer { number: 1, code: 1, subject, object },
            (true, Move::Append { subject, object }) => Answer { number: 1, code: 3, subject, object },
            (true, Move::Pass) => Answer { number: 1, ..Answer::default() },
        };
        *kinds.entry(if wins { "desk" } else { "guard" }).or_insert(0) += 1;
        if game.answer() != answer {
            wrong += 1;
            println!("wrong: {game:?}: {answer:?}, and the judge says {:?}", game.answer());
        }
    }
    told("games", wrong, &kinds, &["desk", "guard"])
}

/// Whether accesses are allowed by a matrix, and the judge answers the last alone by an alert.
fn sound(matrix: &NamedMatrix, steps: &[(yaslaurel::Operation, yaslaurel::Answer)]) -> bool {
    let rows = rows(matrix);
    let mut image = vec![0; judge::numbers::LONGEST_NORMAL];
    let length = matrix::policy(&rows.reads, &rows.writes, rows.objects, &mut image) as usize;
    let mut session = vec![0; SESSION];
    assert_eq!(start(&image[..length], &mut session), 0, "the judge accepts the derived policy");
    let allowed = |record: &[u8]| {
        let row = if record[0] == 1 { &rows.reads } else { &rows.writes };
        record[0] <= 3 && row[usize::from(record[2]) - rows.objects as usize] >> record[4] & 1 == 1
    };
    let records: Vec<_> = steps.iter().map(|(operation, _)| operation.record()).collect();
    let answers: Vec<Outcome> = records.iter().map(|record| outcome(step(&mut session, record).number)).collect();
    let last = answers.len() - 1;
    records.iter().all(|record| allowed(record))
        && answers
            .iter()
            .enumerate()
            .all(|(place, answer)| *answer == if place == last { Outcome::Alert } else { Outcome::Quiet })
}

/// Random matrices: their flows, and accesses that sound.
pub fn flows(seed: u64, count: usize) -> bool {
    let mut random = Random::new(seed);
    let (mut wrong, mut kinds) = (0, BTreeMap::new());
    for _ in 0..count {
        let (subjects, objects) = (random.between(1, 8), random.between(1, 32));
        let share = random.between(3, 25);
        let matrix = random_matrix(&mut random, subjects, objects, share);
        let own = rows(&matrix);
        let found = missing_flows(&matrix).expect("a matrix that is well formed");
        let verdict = matrix::verdict(&own.reads, &own.writes, own.objects);
        let walked = found.iter().all(|flow| {
            let rows = matrix.rows();
            let has = |row: u32, object: usize| row >> object & 1 == 1;
            let joined = flow.hops.windows(2).all(|two| two[0].to == two[1].from);
            let ends = flow.hops.first().map(|hop| hop.from) == Some(flow.source)
                && flow.hops.last().map(|hop| hop.to) == Some(flow.target);
            joined
                && ends
                && flow
                    .hops
                    .iter()
                    .all(|hop| has(rows.reads[hop.subject], hop.from) && has(rows.writes[hop.subject], hop.to))
        });
        let sounding = sounding(&matrix).expect("a matrix that is well formed");
        let silent = matrix::silent(&own.reads, &own.writes, own.objects) == 1;
        let good = found.len() as u32 == verdict.count && walked && silent == sounding.is_none();
        let good = good && sounding.as_ref().map_or(true, |steps| sound(&matrix, steps));
        let kind = match (found.is_empty(), silent) {
            (true, true) => "silent",
            (true, false) => "consistent",
            _ => "inconsistent",
        };
        *kinds.entry(kind).or_insert(0) += 1;
        if !good {
            wrong += 1;
            println!("wrong: {kind}: {matrix:?}");
        }
    }
    told("matrices", wrong, &kinds, &["silent", "consistent", "inconsistent"])
}
