//! analysis-tests KIND SEED COUNT [SESSIONS]: questions, proposals, games, matrices or pairs; answers of hosts/analysis against the judge, on random policies and matrices. The last line says how many were
//! wrong, and the exit status is 1 if there are any, or if some kind of answer was never given.

mod brute;
mod matrices;
mod pairs;
mod questions;
#[path = "../../differential/src/random.rs"]
#[allow(dead_code)]
mod random;

use std::env;
use std::process::ExitCode;

/// How many sessions brute force keeps for one policy.
const SESSIONS: usize = 20_000;

/// Runs the comparison that the arguments name.
fn main() -> ExitCode {
    let arguments: Vec<String> = env::args().skip(1).collect();
    let number = |place: usize| arguments.get(place).and_then(|text| text.parse::<u64>().ok());
    let (Some(kind), Some(seed), Some(count)) = (arguments.first(), number(1), number(2)) else {
        eprintln!("expected a kind, a seed and a count");
        return ExitCode::from(2);
    };
    let most = number(3).map_or(SESSIONS, |most| most as usize);
    let good = match &kind[..] {
        "questions" => questions::run(seed, count as usize, most),
        "proposals" => matrices::proposals(seed, count as usize),
        "games" => matrices::games(seed, count as usize),
        "matrices" => matrices::flows(seed, count as usize),
        "pairs" => pairs::run(seed, count as usize),
        _ => {
            eprintln!("there is no kind {kind}");
            return ExitCode::from(2);
        }
    };
    ExitCode::from(u8::from(!good))
}
