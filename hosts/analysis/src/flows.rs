//! The composed flows of a matrix that are not granted, each with the accesses that make it.

use std::collections::VecDeque;

use yaslaurel::{matrix_verdict, MatrixVerdict, Refusal};

use crate::NamedMatrix;

/// One subject reads an object and writes another.
#[derive(Clone, Copy, Debug, PartialEq, Eq)]
pub struct Hop {
    /// The number of the subject.
    pub subject: usize,
    /// The object that it reads.
    pub from: usize,
    /// The object that it writes.
    pub to: usize,
}

/// A composed flow that is not granted, by the fewest hops.
#[derive(Clone, Debug, PartialEq, Eq)]
pub struct Flow {
    /// The object where it begins.
    pub source: usize,
    /// The object where it ends.
    pub target: usize,
    /// The way.
    pub hops: Vec<Hop>,
}

/// The hops out of an object, by target, then by subject; one for each target.
fn hops(matrix: &NamedMatrix, from: usize) -> Vec<Hop> {
    let rows = matrix.rows();
    let carrier =
        |to: usize| (0..rows.reads.len()).find(|&s| rows.reads[s] >> from & 1 == 1 && rows.writes[s] >> to & 1 == 1);
    let targets = (0..rows.objects as usize).filter(|&to| to != from);
    targets.filter_map(|to| Some(Hop { subject: carrier(to)?, from, to })).collect()
}

/// The shortest ways from an object to each other one that can be reached.
pub(crate) fn ways(matrix: &NamedMatrix, source: usize) -> Vec<Option<Vec<Hop>>> {
    let mut ways: Vec<Option<Vec<Hop>>> = vec![None; matrix.objects().len()];
    ways[source] = Some(Vec::new());
    let mut queue = VecDeque::from([source]);
    while let Some(from) = queue.pop_front() {
        let way = ways[from].clone().expect("what is queued is reached");
        for hop in hops(matrix, from) {
            if ways[hop.to].is_none() {
                ways[hop.to] = Some([&way[..], &[hop]].concat());
                queue.push_back(hop.to);
            }
        }
    }
    ways
}

/// The composed flows that are not granted, by source, then by target. Their number and the first of them are those of the proved
/// [`matrix_verdict`]; the rest of the list and the ways are laid out here.
///
/// ```
/// use analysis::{missing_flows, NamedMatrix};
/// let matrix = NamedMatrix::read_text("a b c\nnetting r w -\ndesk - r w\n").unwrap();
/// let flows = missing_flows(&matrix)?;
/// assert_eq!((flows.len(), flows[0].source, flows[0].target, flows[0].hops.len()), (1, 0, 2, 2));
/// # Ok::<(), yaslaurel::Refusal>(())
/// ```
///
/// # Errors
///
/// [`Refusal::Matrix`].
///
/// # Panics
///
/// If the list is not what the proved function says of it.
pub fn missing_flows(matrix: &NamedMatrix) -> Result<Vec<Flow>, Refusal> {
    let rows = matrix.rows();
    let verdict = matrix_verdict(rows.reads, rows.writes, rows.objects)?;
    let mut flows = Vec::new();
    for source in 0..matrix.objects().len() {
        let ways = ways(matrix, source).into_iter().enumerate();
        // One hop is granted, and none is the object itself.
        let longer = ways.filter_map(|(target, way)| Some((target, way.filter(|way| way.len() > 1)?)));
        flows.extend(longer.map(|(target, hops)| Flow { source, target, hops }));
    }
    let laid_out = match flows.first() {
        None => MatrixVerdict::Consistent,
        Some(&Flow { source, target, .. }) => {
            MatrixVerdict::Inconsistent { flows: flows.len() as u32, source: source as u32, target: target as u32 }
        }
    };
    assert_eq!(laid_out, verdict, "the flows are those of the verdict");
    Ok(flows)
}
