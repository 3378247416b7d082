//! Sessions of accesses that a matrix allows, from the policy that the library derives of it: none alerts where the library
//! says that the matrix is silent, and else the fullest one does. The library alone is asked; the judge of silence goes by tags.

use yaslaurel::{matrix_policy, matrix_silent, Operation, Session, Verdict};

use crate::bench::Bench;
use crate::case::{boxed, Case, Difference, Part};
use crate::counters::{Counters, Need};
use crate::random::Random;

pub const PART: Part = Part {
    name: "allowed accesses of a matrix",
    cases: 20_000,
    make: |r| Box::new(make(r)),
    needs: &[Need::Words(SESSIONS, &["silent", "an alert by chance", "an alert in the fullest alone"])],
};

const SESSIONS: &str = "sessions of allowed accesses";

/// A matrix, and some of the accesses that it allows, by their places among all of them.
#[derive(Clone)]
struct Allowed {
    reads: Vec<u32>,
    writes: Vec<u32>,
    objects: u32,
    chosen: Vec<usize>,
}

impl Case for Allowed {
    fn run(&self, _: &mut Bench, c: &mut Counters) -> Difference {
        let Allowed { reads, writes, objects, chosen } = self;
        let silent = matrix_silent(reads, writes, *objects).expect("the matrix is well formed");
        let image = matrix_policy(reads, writes, *objects).expect("the matrix is well formed");
        let allowed = self.allowed();
        let some =
            if allowed.is_empty() { vec![] } else { chosen.iter().map(|at| allowed[at % allowed.len()]).collect() };
        // Reads and appends of all rights, over and over, lose nothing and reach everything.
        let lossless: Vec<Operation> =
            allowed.into_iter().filter(|access| !matches!(access, Operation::Write { .. })).collect();
        let rounds = reads.len() * *objects as usize + 1;
        let fullest = lossless.iter().copied().cycle().take(lossless.len() * rounds).collect::<Vec<_>>();
        let by_chance = match alerts(&image, &some) {
            Ok(alerts) => alerts,
            Err(difference) => return Some(difference),
        };
        let in_fullest = match alerts(&image, &fullest) {
            Ok(alerts) => alerts,
            Err(difference) => return Some(difference),
        };
        c.count(
            SESSIONS,
            match (silent, by_chance) {
                (true, _) => "silent",
                (false, true) => "an alert by chance",
                (false, false) => "an alert in the fullest alone",
            },
        );
        if silent && (by_chance || in_fullest) {
            return Some("an alert under a matrix that the library calls silent".to_string());
        }
        (!silent && !in_fullest).then(|| "no alert under a matrix that the library calls not silent".to_string())
    }

    fn simpler(&self) -> Vec<Box<dyn Case>> {
        let fewer = (0..self.chosen.len()).map(|at| {
            let mut less = self.clone();
            less.chosen.remove(at);
            less
        });
        boxed(fewer)
    }

    fn show(&self) -> String {
        let Allowed { reads, writes, objects, .. } = self;
        format!("read rows {reads:x?}, write rows {writes:x?}, {objects} objects\n")
    }
}

impl Allowed {
    /// Every access that the matrix allows: subject s is the process behind the objects.
    fn allowed(&self) -> Vec<Operation> {
        let mut all = Vec::new();
        for (s, (read, write)) in self.reads.iter().zip(&self.writes).enumerate() {
            let process = self.objects as u8 + s as u8;
            for object in 0..self.objects as u8 {
                if read >> object & 1 == 1 {
                    all.push(Operation::Read { process, object });
                }
                if write >> object & 1 == 1 {
                    all.push(Operation::Write { process, object });
                    all.push(Operation::Append { process, object });
                }
            }
        }
        all
    }
}

/// Whether some access alerts in a session of these; an error if one is refused.
fn alerts(image: &[u8], accesses: &[Operation]) -> Result<bool, String> {
    let mut session = Session::start(image).map_err(|refusal| format!("the derived policy is refused: {refusal}"))?;
    let mut alerts = false;
    for &access in accesses {
        let answer = session.perform(access).map_err(|refusal| format!("{access:?} is refused: {refusal}"))?;
        alerts |= answer.verdict == Verdict::Alert;
    }
    Ok(alerts)
}

fn make(r: &mut Random) -> Allowed {
    let objects = r.between(1, 6) as u32;
    let subjects = r.between(1, 4);
    let sparse = r.percent(60);
    let row = |r: &mut Random| {
        let word = if sparse { r.word() & r.word() } else { r.word() };
        word as u32 & ((1 << objects) - 1)
    };
    let reads = (0..subjects).map(|_| row(r)).collect();
    let writes = (0..subjects).map(|_| row(r)).collect();
    Allowed { reads, writes, objects, chosen: (0..r.below(40)).map(|_| r.below(1000)).collect() }
}
