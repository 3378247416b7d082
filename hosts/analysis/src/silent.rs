//! Accesses that sound, for a matrix that is not silent.

use yaslaurel::{matrix_policy, matrix_silent, trim, Answer, Operation, Refusal, Session, Verdict};

use crate::flows::ways;
use crate::NamedMatrix;

/// The reads and appends that bring each object with a flow into one object there: as the proof does that a matrix which is not silent has a
/// session with an alert (`crates/silence/proofs/GatherLaws.antt`). The proof has one more append by a writer of the object. It is not needed here: the last
/// append of these leaves there all that has a flow into it, and is answered for that.
fn gathering(matrix: &NamedMatrix, target: usize) -> Vec<Operation> {
    let objects = matrix.objects().len();
    let process = |subject: usize| (objects + subject) as u8;
    let mut operations = Vec::new();
    for source in 0..objects {
        for hop in ways(matrix, source)[target].iter().flatten() {
            operations.push(Operation::Read { process: process(hop.subject), object: hop.from as u8 });
            operations.push(Operation::Append { process: process(hop.subject), object: hop.to as u8 });
        }
    }
    operations
}

/// Runs operations on a new session of the derived policy, up to and with the first alert.
fn run(image: &[u8], operations: &[Operation]) -> Result<Option<Vec<(Operation, Answer)>>, Refusal> {
    let mut session = Session::start(image)?;
    let mut steps = Vec::new();
    for &operation in operations {
        let answer = session.perform(operation)?;
        steps.push((operation, answer));
        if answer.verdict == Verdict::Alert {
            return Ok(Some(steps));
        }
    }
    Ok(None)
}

/// Accesses that the matrix allows, of which the last raises an alert under the derived policy; nothing for a matrix that the proved
/// [`matrix_silent`] calls silent. They are built as the proof does, trimmed by the proved [`trim`], and run on the proved monitor. Objects
/// are containers from 0, subjects the processes behind them.
///
/// ```
/// use analysis::{sounding, NamedMatrix};
/// let matrix = NamedMatrix::read_text("a b c\nnorth r w -\nsouth - w r\n").unwrap();
/// assert_eq!(sounding(&matrix)?.expect("two writers mix").len(), 4);
/// assert_eq!(sounding(&NamedMatrix::read_text("a b c\nnorth r w -\n").unwrap())?, None);
/// # Ok::<(), yaslaurel::Refusal>(())
/// ```
///
/// # Errors
///
/// [`Refusal::Matrix`].
///
/// # Panics
///
/// If no accesses sound though the proved function says that some do.
pub fn sounding(matrix: &NamedMatrix) -> Result<Option<Vec<(Operation, Answer)>>, Refusal> {
    let rows = matrix.rows();
    if matrix_silent(rows.reads, rows.writes, rows.objects)? {
        return Ok(None);
    }
    let image = matrix_policy(rows.reads, rows.writes, rows.objects)?;
    let mut shortest: Option<Vec<(Operation, Answer)>> = None;
    for target in 0..matrix.objects().len() {
        let Some(steps) = run(&image, &gathering(matrix, target))? else { continue };
        let steps = trimmed(&image, steps)?;
        if shortest.as_ref().map_or(true, |other| steps.len() < other.len()) {
            shortest = Some(steps);
        }
    }
    Ok(Some(shortest.expect("a matrix that is not silent has accesses that sound")))
}

/// The steps of a session that lead to its last one, an alert, with their answers.
fn trimmed(image: &[u8], steps: Vec<(Operation, Answer)>) -> Result<Vec<(Operation, Answer)>, Refusal> {
    let trace: Vec<u8> = steps.iter().flat_map(|(operation, _)| operation.record()).collect();
    let Ok(kept) = trim(image, &trace) else { return Ok(steps) };
    let operations: Vec<Operation> = kept.into_iter().map(|place| steps[place].0).collect();
    Ok(run(image, &operations)?.unwrap_or(steps))
}
