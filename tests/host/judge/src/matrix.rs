//! "Matrix".

use crate::image::{Container, Kind, Policy};
use crate::normal::{encode, put};
use crate::numbers::{LONGEST_NORMAL, UNRESTRICTED};
use crate::rules::covers;

/// A matrix that passes refusal 8.
struct Matrix<'a> {
    reads: &'a [u32],
    writes: &'a [u32],
    objects: usize,
}

/// "8 matrix (row counts differ, counts, bit beyond the objects)": "Read and write rows arrive as 32-bit numbers,
/// 1 to 8 subjects, 1 to 32 objects, bit k for object k."
fn read<'a>(reads: &'a [u32], writes: &'a [u32], objects: u32) -> Result<Matrix<'a>, u32> {
    if reads.len() != writes.len() || !(1..=8).contains(&reads.len()) || !(1..=32).contains(&objects) {
        return Err(8);
    }
    let beyond = |row: &u32| u64::from(*row) >> objects != 0;
    if reads.iter().any(beyond) || writes.iter().any(beyond) {
        return Err(8);
    }
    Ok(Matrix { reads, writes, objects: objects as usize })
}

/// Whether rows pass refusal 8.
pub fn well_formed(reads: &[u32], writes: &[u32], objects: u32) -> bool {
    read(reads, writes, objects).is_ok()
}

fn has(row: u32, object: usize) -> bool {
    row >> object & 1 == 1
}

impl Matrix<'_> {
    /// "A flow from a to b is granted if a = b or one subject reads a and writes b."
    fn granted(&self, a: usize, b: usize) -> bool {
        a == b || (0..self.reads.len()).any(|s| has(self.reads[s], a) && has(self.writes[s], b))
    }

    /// "Composed flows are the transitive closure." By Floyd and Warshall.
    #[allow(clippy::needless_range_loop)]
    fn composed(&self) -> Vec<Vec<bool>> {
        let n = self.objects;
        let mut flow: Vec<Vec<bool>> = (0..n).map(|a| (0..n).map(|b| self.granted(a, b)).collect()).collect();
        for via in 0..n {
            for a in 0..n {
                if flow[a][via] {
                    for b in 0..n {
                        if flow[via][b] {
                            flow[a][b] = true;
                        }
                    }
                }
            }
        }
        flow
    }

    /// "silent, yes exactly when no session from the derived policy, of reads, writes and appends that the matrix allows
    /// (write right for both of the latter), raises an alert." Reads and appends take nothing away, so the fullest session
    /// makes all of them until no tag grows; what any session brings together is together there. A subject is
    /// unrestricted, so that an alert is at an object that somebody writes.
    fn silent(&self) -> bool {
        let mut objects: Vec<u64> = (0..self.objects).map(|b| 1 << b).collect();
        let mut subjects = vec![0u64; self.reads.len()];
        loop {
            let before = (objects.clone(), subjects.clone());
            for (s, held) in subjects.iter_mut().enumerate() {
                let read = (0..self.objects).filter(|&a| has(self.reads[s], a));
                *held = read.fold(*held, |held, a| held | objects[a]);
                for (b, tag) in objects.iter_mut().enumerate() {
                    if has(self.writes[s], b) {
                        *tag |= *held;
                    }
                }
            }
            if before == (objects.clone(), subjects.clone()) {
                break;
            }
        }
        let rules = self.policy().rules;
        let written = |b: usize| self.writes.iter().any(|&row| has(row, b));
        (0..self.objects).all(|b| !written(b) || covers(&rules[b], objects[b]))
    }

    /// "The derived policy, a normal image: objects as files with their own atoms, then subjects as processes, one
    /// unrestricted user; object b's permit rule has for each writer the objects it reads and b, or just b without
    /// writers; run rules unrestricted."
    fn policy(&self) -> Policy {
        let mut policy = Policy { containers: vec![], users: vec![UNRESTRICTED], rules: vec![], owners: vec![] };
        for b in 0..self.objects {
            let mut rule: Vec<u64> = (0..self.reads.len())
                .filter(|&s| has(self.writes[s], b))
                .map(|s| u64::from(self.reads[s]) | 1 << b)
                .collect();
            if rule.is_empty() {
                rule.push(1 << b);
            }
            policy.rules.push(rule);
            let permit = b as u16;
            policy.containers.push(Container { kind: Kind::File, atom: Some(b as u8), permit, run: UNRESTRICTED });
        }
        for _ in self.reads {
            let process = Container { kind: Kind::Process, atom: None, permit: UNRESTRICTED, run: UNRESTRICTED };
            policy.containers.push(process);
        }
        policy
    }
}

/// What the verdict returns: 0 consistent, 1 not, 8 refused; then count, source and target.
#[derive(Clone, Copy, Debug, PartialEq, Eq)]
pub struct Verdict {
    pub number: u32,
    pub count: u32,
    pub source: u32,
    pub target: u32,
}

/// "The verdict is consistent, or the count of set bits for composed flows not granted and the pair with the smallest
/// source, then the smallest target."
pub fn verdict(reads: &[u32], writes: &[u32], objects: u32) -> Verdict {
    let matrix = match read(reads, writes, objects) {
        Ok(matrix) => matrix,
        Err(number) => return Verdict { number, count: 0, source: 0, target: 0 },
    };
    let composed = matrix.composed();
    let mut missing = Vec::new();
    for (source, row) in composed.iter().enumerate() {
        for (target, &flows) in row.iter().enumerate() {
            if flows && !matrix.granted(source, target) {
                missing.push((source as u32, target as u32));
            }
        }
    }
    match missing.first() {
        None => Verdict { number: 0, count: 0, source: 0, target: 0 },
        Some(&(source, target)) => Verdict { number: 1, count: missing.len() as u32, source, target },
    }
}

/// Whether there is a composed flow from a to b, on rows that pass refusal 8.
pub fn composed(reads: &[u32], writes: &[u32], objects: u32, a: u32, b: u32) -> bool {
    read(reads, writes, objects).is_ok_and(|matrix| matrix.composed()[a as usize][b as usize])
}

/// "Add beside it a yes or no, silent": 1 yes, 0 no, 8 refused.
pub fn silent(reads: &[u32], writes: &[u32], objects: u32) -> u32 {
    read(reads, writes, objects).map_or_else(|number| number, |matrix| u32::from(matrix.silent()))
}

/// The derived policy: the length of its image, or the number of the refusal, 9 before 8.
pub fn policy(reads: &[u32], writes: &[u32], objects: u32, out: &mut [u8]) -> u32 {
    // "Any output for a normal image must hold 19,506 bytes" (change request No. 10): 9
    if out.len() < LONGEST_NORMAL {
        return 9;
    }
    match read(reads, writes, objects) {
        Ok(matrix) => put(&encode(&matrix.policy()), out),
        Err(number) => number,
    }
}

#[cfg(test)]
mod tests {
    use super::*;
    use crate::numbers::{CONTAINERS, HEADER};

    /// "Consistent is too weak, since two permitted writers can mix."
    #[test]
    fn two_writers_mix() {
        let (reads, writes) = ([1, 4], [2, 2]);
        assert_eq!(verdict(&reads, &writes, 3).number, 0);
        assert_eq!(silent(&reads, &writes, 3), 0);
        assert_eq!(silent(&reads[..1], &writes[..1], 3), 1);
        assert_eq!(silent(&[5, 3, 2], &[1, 2, 10], 4), 0);
        assert_eq!(silent(&[3, 5, 6], &[8, 8, 8], 4), 0);
        assert_eq!(silent(&[7], &[0], 3), 1);
        assert_eq!(silent(&[], &[], 3), 8);
    }

    /// "Document 000's matrix: read rows 5, 3, 2, write rows 1, 2, 10, 4 objects: 3 flows, first 0 to 3. Permit rules
    /// 5; 3; 4; 10." "the matrix example grows to 118" bytes (change request No. 10), by two for each rule.
    #[test]
    fn document_000() {
        let (reads, writes) = ([5, 3, 2], [1, 2, 10]);
        assert_eq!(verdict(&reads, &writes, 4), Verdict { number: 1, count: 3, source: 0, target: 3 });
        let mut out = vec![0; LONGEST_NORMAL];
        assert_eq!(policy(&reads, &writes, 4, &mut out), 118);
        let pairs: Vec<u16> =
            out[CONTAINERS.offset_at..HEADER].chunks(2).map(|b| u16::from_le_bytes([b[0], b[1]])).collect();
        assert_eq!(pairs, [18, 42, 60, 2, 62, 24, 86, 32]);
        let read = crate::image::read(&out[..118]).unwrap();
        assert_eq!(read.rules, [vec![5], vec![3], vec![4], vec![10]]);
    }
}
