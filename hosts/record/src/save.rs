//! Writes what was recorded into a folder.

use std::fs;
use std::io;
use std::path::Path;

use policy_text::write_folder;
use yaslaurel::Operation;

use crate::output;
use crate::recorder::Recorder;

/// What is written into a folder.
const FILES: [&str; 7] =
    ["policy.bin", "trace.bin", "names.txt", "containers.txt", "users.txt", "policy.sha256", "records.txt"];

impl Recorder {
    /// The last line.
    pub fn summary(&mut self) {
        let (records, containers) = (self.monitor.steps(), self.monitor.holders());
        self.report.summary(records, containers);
    }

    /// Writes policy, trace and names into a folder, which is made if it is not there; the run must have been kept.
    pub fn save(&self, folder: &Path) -> io::Result<()> {
        let Some(kept) = self.monitor.kept() else { return Ok(()) };
        let said = |path: &Path, error: io::Error| io::Error::new(error.kind(), format!("{}: {error}", path.display()));
        output::refuse_link(folder).map_err(|error| said(folder, error))?;
        fs::create_dir_all(folder).map_err(|error| said(folder, error))?;
        for name in FILES {
            output::refuse_link(&folder.join(name)).map_err(|error| said(&folder.join(name), error))?;
        }
        let trace: Vec<u8> = kept.operations.iter().flat_map(|(_, operation)| operation.record()).collect();
        write_folder(folder, &self.plan.policy, &trace, &kept.holders)?;
        let path = folder.join("records.txt");
        let text: String =
            kept.operations.iter().map(|(line, operation)| format!("{line}: {}\n", shown(*operation))).collect();
        fs::write(&path, text).map_err(|error| said(&path, error))
    }
}

fn shown(operation: Operation) -> String {
    match operation {
        Operation::Read { process, object } => format!("read {process} {object}"),
        Operation::Write { process, object } => format!("write {process} {object}"),
        Operation::Append { process, object } => format!("append {process} {object}"),
        Operation::Exec { process, file, user } => format!("exec {process} {file} as {user}"),
        Operation::Fork { process, child } => format!("fork {process} {child}"),
        Operation::NewFile { process, file, user } => format!("file {process} {file} as {user}"),
        Operation::NewVolatile { process, volatile } => format!("volatile {process} {volatile}"),
        Operation::End { process } => format!("end {process}"),
        Operation::Delete { process, object } => format!("delete {process} {object}"),
        _ => format!("{operation:?}"),
    }
}
