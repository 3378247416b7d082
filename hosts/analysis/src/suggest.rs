//! Proposals to withdraw rights, found by search. The judge that is proved has the last word on each.

use std::cmp::Reverse;

use yaslaurel::{judge_withdrawal, Judgement, Refusal};

use crate::judge::{consistent, returning};
use crate::{NamedMatrix, Right, OBJECT_LIMIT, SUBJECT_LIMIT};

/// How many conflicts the exact search may look at: some seconds.
const WORK_LIMIT: usize = 30_000_000;

/// Which search found the proposals.
#[derive(Clone, Copy, Debug, PartialEq, Eq)]
pub enum Search {
    /// All withdrawals of fewer rights were tried: no proposal withdraws fewer.
    Exact,
    /// The right that takes part in most forbidden flows went first; a smaller proposal may exist.
    Greedy,
}

/// What a search comes to.
#[derive(Clone, Debug, PartialEq, Eq)]
pub enum Suggestion {
    /// Proposals that the judge accepts, all with the same number of rights withdrawn if the search is exact.
    Found(Search, Vec<NamedMatrix>),
    /// There is none: this right must stay, and the old matrix lacks it.
    Lacking(Right),
    /// There is none: every way ends in flows whose rights must all stay.
    None,
    /// Neither search has found one.
    NotFound,
}

/// A flow by two subjects that is not granted: of these rights at least one has to go. Withdrawing another right never grants the flow.
type Conflict = [Right; 4];

/// The conflicts of a matrix: one for each two subjects, object between them and object where it begins.
fn conflicts(matrix: &NamedMatrix) -> Vec<Conflict> {
    let rows = matrix.rows();
    let (subjects, objects) = (rows.reads.len(), rows.objects as usize);
    let granted = |a: usize| {
        let writes = (0..subjects).filter(|&s| rows.reads[s] >> a & 1 == 1).map(|s| rows.writes[s]);
        writes.fold(1 << a, |reached, row| reached | row)
    };
    let granted: Vec<u32> = (0..objects).map(granted).collect();
    let mut found = Vec::new();
    for between in 0..objects {
        for first in (0..subjects).filter(|&s| rows.writes[s] >> between & 1 == 1) {
            for second in (0..subjects).filter(|&s| rows.reads[s] >> between & 1 == 1) {
                for source in (0..objects).filter(|&a| rows.reads[first] >> a & 1 == 1) {
                    let missing = rows.writes[second] & !granted[source];
                    if missing != 0 {
                        found.push(conflict([first, second], source, between, missing.trailing_zeros() as usize));
                    }
                }
            }
        }
    }
    found
}

/// One subject reads the source and writes the object between, the other reads that and writes the target.
fn conflict([first, second]: [usize; 2], source: usize, between: usize, target: usize) -> Conflict {
    [
        Right { write: false, subject: first, object: source },
        Right { write: true, subject: first, object: between },
        Right { write: false, subject: second, object: between },
        Right { write: true, subject: second, object: target },
    ]
}

/// The exact search: at each conflict one of its rights goes, which the branches before it keep. Rights are withdrawn one more at a time.
struct Exact<'a> {
    /// What must stay, and what an earlier branch has withdrawn.
    kept: NamedMatrix,
    matrix: NamedMatrix,
    found: Vec<NamedMatrix>,
    most: usize,
    work: &'a mut usize,
    /// Whether a branch ended since it had withdrawn as many as it might.
    cut: bool,
}

impl Exact<'_> {
    /// The rights of a conflict that may go.
    fn removable(&self, conflict: &Conflict) -> Vec<Right> {
        conflict.iter().copied().filter(|right| !self.kept.has(*right)).collect()
    }

    /// Searches with so many withdrawals left. The status is false if there is no work left.
    fn search(&mut self, left: usize) -> bool {
        let conflicts = conflicts(&self.matrix);
        let cost = 1 + conflicts.len();
        if *self.work < cost {
            return false;
        }
        *self.work -= cost;
        if conflicts.is_empty() {
            self.found.push(self.matrix.clone());
            return true;
        }
        let choices: Vec<Vec<Right>> = conflicts.iter().map(|conflict| self.removable(conflict)).collect();
        let fewest = choices.iter().min_by_key(|rights| rights.len()).expect("there is a conflict");
        if fewest.is_empty() {
            return true;
        }
        if apart(&choices) > left {
            self.cut = true;
            return true;
        }
        self.branch(&fewest.clone(), left)
    }

    /// Withdraws one right after the other, and keeps it for the branches behind.
    fn branch(&mut self, rights: &[Right], left: usize) -> bool {
        let before = self.kept.clone();
        let mut on = true;
        for &right in rights {
            if !on || self.found.len() >= self.most {
                break;
            }
            self.matrix.set(right, false);
            on = self.search(left - 1);
            self.matrix.set(right, true);
            self.kept.set(right, true);
        }
        self.kept = before;
        on
    }
}

/// The place of a right in a table of all rights.
fn place(right: Right) -> usize {
    (usize::from(right.write) * SUBJECT_LIMIT + right.subject) * OBJECT_LIMIT + right.object
}

/// How many rights there can be.
const RIGHTS: usize = 2 * SUBJECT_LIMIT * OBJECT_LIMIT;

/// How many conflicts can be found that share no right: at least as many rights have to go.
fn apart(choices: &[Vec<Right>]) -> usize {
    let mut used = [false; RIGHTS];
    let mut count = 0;
    for rights in choices {
        if rights.iter().all(|right| !used[place(*right)]) {
            rights.iter().for_each(|right| used[place(*right)] = true);
            count += 1;
        }
    }
    count
}

/// The smallest proposals, at most so many; nothing if there is too much work.
fn exact(old: &NamedMatrix, required: &NamedMatrix, most: usize) -> Option<Vec<NamedMatrix>> {
    let mut work = WORK_LIMIT;
    let rights = old.rights().count();
    for left in 0..=rights {
        let (kept, matrix) = (required.clone(), old.clone());
        let mut search = Exact { kept, matrix, found: Vec::new(), most, work: &mut work, cut: false };
        let done = search.search(left);
        let (found, cut) = (search.found, search.cut);
        // What is found is the smallest, since fewer were tried before.
        if !found.is_empty() {
            return Some(found);
        }
        if !done {
            return None;
        }
        if !cut {
            break;
        }
    }
    Some(Vec::new())
}

/// The right that takes part in most conflicts, of those that need not stay; the first of several.
fn busiest(conflicts: &[Conflict], required: &NamedMatrix) -> Option<Right> {
    let mut counts = [0_usize; RIGHTS];
    conflicts.iter().flatten().for_each(|right| counts[place(*right)] += 1);
    let free = conflicts.iter().flatten().copied().filter(|right| !required.has(*right));
    free.max_by_key(|right| (counts[place(*right)], Reverse(*right)))
}

/// The greedy search: the right in most conflicts goes, until there is none. Where that ends in flows whose rights must all stay, every right goes that
/// need not stay, if the rest is consistent. What can be put back alone is put back.
fn greedy(old: &NamedMatrix, required: &NamedMatrix) -> Result<Option<NamedMatrix>, Refusal> {
    let mut matrix = old.clone();
    loop {
        let conflicts = conflicts(&matrix);
        if conflicts.is_empty() {
            break;
        }
        match busiest(&conflicts, required) {
            Some(right) => matrix.set(right, false),
            None if consistent(required)? => matrix = required.clone(),
            None => return Ok(None),
        }
    }
    while let Some(right) = returning(old, &matrix)? {
        matrix.set(right, true);
    }
    Ok(Some(matrix))
}

/// Proposals to withdraw rights of a matrix so that no composed flow is left that is not granted, at most so many: exact where the search for the
/// fewest withdrawals ends in time, else greedy. Each was accepted by the proved [`judge_withdrawal`]. The second matrix has the
/// rights that must stay, under the same names in the same order.
///
/// ```
/// use analysis::{suggest, NamedMatrix, Search, Suggestion};
/// let old = NamedMatrix::read_text("a b c\nnetting r w -\ndesk - r w\n").unwrap();
/// let stay = NamedMatrix::read_text("a b c\nnetting r w -\ndesk - - w\n").unwrap();
/// let found = suggest(&old, &stay, 3)?;
/// assert_eq!(found, Suggestion::Found(Search::Exact, vec![stay]));
/// # Ok::<(), yaslaurel::Refusal>(())
/// ```
///
/// # Errors
///
/// [`Refusal::Matrix`].
pub fn suggest(old: &NamedMatrix, required: &NamedMatrix, most: usize) -> Result<Suggestion, Refusal> {
    if let Some(right) = required.rights().find(|right| !old.has(*right)) {
        return Ok(Suggestion::Lacking(right));
    }
    let (search, mut found) = match exact(old, required, most) {
        Some(found) if found.is_empty() => return Ok(Suggestion::None),
        Some(found) => (Search::Exact, found),
        None => (Search::Greedy, greedy(old, required)?.into_iter().collect()),
    };
    let withdrawn = |proposed: &NamedMatrix| old.rights().filter(|right| !proposed.has(*right)).collect::<Vec<_>>();
    found.sort_by_key(withdrawn);
    let mut accepted = Vec::new();
    for proposed in found {
        if judge_withdrawal(old.rows(), required.rows(), proposed.rows())? == Judgement::Accepted {
            accepted.push(proposed);
        }
    }
    Ok(if accepted.is_empty() { Suggestion::NotFound } else { Suggestion::Found(search, accepted) })
}
