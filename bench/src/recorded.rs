//! Traces that `record` has made of real runs, in folders with a policy and a trace, beside the random mixes.

use std::fs;
use std::path::Path;

use yaslaurel::layout::record;

use crate::{head, line, records_race, started, RUNS, STEPS};

/// The session that a folder's policy starts, and its trace, if both are there.
pub fn trace(folder: &Path) -> Option<(Vec<u64>, Vec<u8>)> {
    let file = |name: &str| fs::read(folder.join(name)).ok();
    Some((started(&file("policy.bin")?), file("trace.bin")?))
}

/// Each folder's trace, once in each round: by steps, and as one batch.
pub fn recorded(folders: &[String]) {
    head("A trace of a real run, one record", "run");
    for folder in folders {
        let Some((session, trace)) = trace(Path::new(folder)) else {
            println!("| {folder}: not measured, there is no policy.bin and trace.bin | | | | |");
            continue;
        };
        let records = trace.len() / record::LENGTH;
        let name = Path::new(folder).file_name().map_or(folder.clone(), |name| name.to_string_lossy().into_owned());
        line(&format!("{name}, {records} records"), &records_race(&STEPS, &session, &trace));
        line(&format!("{name}, as a batch"), &records_race(&RUNS, &session, &trace));
    }
}
