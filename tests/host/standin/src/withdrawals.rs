//! Proposals to withdraw rights, written a second time, with the faults inside.

use judge::withdrawals::{consistent, judge, rights, Access, Right, Rights, Rows};

use crate::faults::{planted, Fault};

/// Whether one of these, put back alone, leaves the proposal consistent.
fn some_returns(withdrawn: &[Right], proposed: &Rights, objects: usize) -> bool {
    withdrawn.iter().any(|&right| {
        let mut with = proposed.clone();
        with.insert(right);
        consistent(&with, objects)
    })
}

/// The rights that are put back one by one.
fn withdrawn(old_rows: &Rows, old: &Rights, proposed: &Rights) -> Vec<Right> {
    let objects = old_rows.objects as usize;
    let each = |access| (0..old_rows.reads.len()).flat_map(move |s| (0..objects).map(move |k| (access, s, k)));
    match Fault::planted() {
        Some(Fault::LackedRightPutBack) => {
            each(Access::Read).chain(each(Access::Write)).filter(|right| !proposed.contains(right)).collect()
        }
        Some(Fault::ReadRightsPutBack) => {
            old.difference(proposed).copied().filter(|right| right.0 == Access::Read).collect()
        }
        _ => old.difference(proposed).copied().collect(),
    }
}

/// Whether no right that was withdrawn can be put back.
fn minimal(withdrawn: &[Right], proposed: &Rights, objects: usize) -> bool {
    match Fault::planted() {
        Some(Fault::PutBackTogether) => {
            withdrawn.is_empty() || !consistent(&proposed.iter().chain(withdrawn).copied().collect(), objects)
        }
        Some(Fault::NothingWithdrawnAnswered4) if withdrawn.is_empty() => false,
        _ => !some_returns(withdrawn, proposed, objects),
    }
}

/// Whether all of some rights, as far as they are compared, are among others.
fn within(some: &Rights, all: &Rights) -> bool {
    let compared = |right: &&Right| !planted(Fault::ReadRightsCompared) || right.0 == Access::Read;
    some.iter().filter(compared).all(|right| all.contains(right))
}

pub fn answer(old_rows: &Rows, required_rows: &Rows, proposed_rows: &Rows) -> u32 {
    if judge(old_rows, required_rows, proposed_rows) == 8 {
        let alone = |rows: &Rows| judge(rows, rows, rows) != 8;
        let all_well_formed = [old_rows, required_rows, proposed_rows].into_iter().all(alone);
        return if planted(Fault::CountsDifferAnswered1) && all_well_formed { 1 } else { 8 };
    }
    let (old, required, proposed) = (rights(old_rows), rights(required_rows), rights(proposed_rows));
    if planted(Fault::RequiredLackedRefused) && !required.is_subset(&old) {
        return 8;
    }
    let objects = old_rows.objects as usize;
    let judged = if planted(Fault::OldMatrixConsistent) { &old } else { &proposed };
    let mut conditions = vec![
        (1, within(&proposed, &old)),
        (2, within(&required, &proposed)),
        (3, consistent(judged, objects)),
        (4, minimal(&withdrawn(old_rows, &old, &proposed), &proposed, objects)),
    ];
    match Fault::planted() {
        Some(Fault::MinimalBeforeConsistent) => conditions.swap(2, 3),
        Some(Fault::LastConditionGiven) => conditions.reverse(),
        _ => {}
    }
    conditions.into_iter().find(|(_, holds)| !holds).map_or(0, |(number, _)| number)
}
