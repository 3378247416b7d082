//! Change request No. 7, "Which rights to withdraw".

use std::collections::BTreeSet;

use crate::matrix;

/// "Given a matrix, the rights that must stay as a second one, and a proposed matrix": one of them, as it arrives.
#[derive(Clone, Debug, PartialEq, Eq)]
pub struct Rows {
    pub reads: Vec<u32>,
    pub writes: Vec<u32>,
    pub objects: u32,
}

#[derive(Clone, Copy, Debug, PartialEq, Eq, PartialOrd, Ord)]
pub enum Access {
    Read,
    Write,
}

/// A right: access, subject and object.
pub type Right = (Access, usize, usize);

pub type Rights = BTreeSet<Right>;

/// The rights of a matrix: "bit k for object k".
pub fn rights(rows: &Rows) -> Rights {
    let each = |access: Access, rows: &[u32]| -> Vec<Right> {
        let one = |(s, row): (usize, &u32)| {
            let row = *row;
            (0..32).filter(move |k| row >> k & 1 == 1).map(move |k| (access, s, k))
        };
        rows.iter().enumerate().flat_map(one).collect()
    };
    [each(Access::Read, &rows.reads), each(Access::Write, &rows.writes)].concat().into_iter().collect()
}

/// "A flow from a to b is granted if a = b or one subject reads a and writes b": row a has bit b.
fn granted(rights: &Rights, objects: usize) -> Vec<u64> {
    let mut rows: Vec<u64> = (0..objects).map(|a| 1 << a).collect();
    for &(access, s, a) in rights {
        if access == Access::Read {
            for b in 0..objects {
                if rights.contains(&(Access::Write, s, b)) {
                    rows[a] |= 1 << b;
                }
            }
        }
    }
    rows
}

/// What is reached from a in two steps, for each a.
fn squared(rows: &[u64]) -> Vec<u64> {
    let step = |row: &u64| (0..rows.len()).filter(|b| row >> b & 1 == 1).fold(0, |reached, b| reached | rows[b]);
    rows.iter().map(step).collect()
}

/// "is consistent": no composed flow is missing from the granted ones. "Composed flows are the transitive closure", here
/// by repeated squaring: a flow to itself is always granted, so that a square holds what it is made of.
pub fn consistent(rights: &Rights, objects: usize) -> bool {
    let granted = granted(rights, objects);
    let mut composed = granted.clone();
    loop {
        let further = squared(&composed);
        if further == composed {
            return composed == granted;
        }
        composed = further;
    }
}

/// 0 if the judge accepts, else "the first condition that fails, 1 to 4", or 8.
pub fn judge(old: &Rows, required: &Rows, proposed: &Rows) -> u32 {
    // "A malformed matrix, or differing counts, is 8."
    let well_formed = |m: &Rows| matrix::well_formed(&m.reads, &m.writes, m.objects);
    let counts = |m: &Rows| (m.reads.len(), m.objects);
    if ![old, required, proposed].into_iter().all(well_formed) {
        return 8;
    }
    if counts(required) != counts(old) || counts(proposed) != counts(old) {
        return 8;
    }
    let objects = old.objects as usize;
    let (old, required, proposed) = (rights(old), rights(required), rights(proposed));
    // "the proposal has no right that the old matrix lacks"
    if !proposed.is_subset(&old) {
        return 1;
    }
    // "keeps all that must stay"
    if !required.is_subset(&proposed) {
        return 2;
    }
    // "is consistent"
    if !consistent(&proposed, objects) {
        return 3;
    }
    // "and becomes inconsistent if any single withdrawn right that the old matrix had is put back alone"
    let returns = |right: &Right| {
        let mut with = proposed.clone();
        with.insert(*right);
        consistent(&with, objects)
    };
    if old.difference(&proposed).any(returns) {
        return 4;
    }
    0
}

#[cfg(test)]
mod tests {
    use super::*;

    fn rows(reads: &[u32], writes: &[u32], objects: u32) -> Rows {
        Rows { reads: reads.to_vec(), writes: writes.to_vec(), objects }
    }

    /// Document 004's Table 1, and what it withdraws of it.
    #[test]
    fn document_004() {
        let table = rows(&[3, 3, 28, 28, 32], &[28, 28, 96, 96, 0], 7);
        let nothing = rows(&[0; 5], &[0; 5], 7);
        let proposal = |reads: &[u32], writes: &[u32]| judge(&table, &nothing, &rows(reads, writes, 7));
        // Nothing withdrawn; it has flows that no right grants.
        assert_eq!(proposal(&table.reads, &table.writes), 3);
        // "the optimal solution is to simply revoke 6 permissions": those of s3 and s4 to read.
        assert_eq!(proposal(&[3, 3, 0, 0, 32], &table.writes), 0);
        // "the optimal solution is to revoke 5 permissions": those of s1 and s2 to read, and that of s5.
        assert_eq!(proposal(&[0, 0, 28, 28, 0], &table.writes), 4);
        // "the optimal solution is to revoke 4 permissions": those of s3 and s4 to write.
        assert_eq!(proposal(&table.reads, &[28, 28, 0, 0, 0]), 0);
        // "the total number of permissions revoked is 9".
        assert_eq!(proposal(&[0, 0, 28, 28, 0], &[28, 28, 0, 0, 0]), 4);
    }

    /// Consistent before, and a smaller one is accepted: neither single right may return, though both together may.
    #[test]
    fn not_monotone() {
        let old = rows(&[3, 5], &[7, 7], 3);
        let nothing = rows(&[0, 0], &[0, 0], 3);
        assert_eq!(judge(&old, &nothing, &old), 0);
        assert_eq!(judge(&old, &nothing, &rows(&[3, 5], &[7, 4], 3)), 0);
    }
}
