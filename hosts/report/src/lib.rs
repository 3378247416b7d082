//! One page of what came of a policy and its traces: alerts with their certificates and chains, what containers held, figures, and the policy.
//!
//! The page is one file of HTML that needs no network. It is outside of what is proved: the proved functions of the library (through the crate
//! `yaslaurel`) give each answer, each receiver and its tag, each rule that forbids and each chain; this crate names, counts and lays out.
//! `docs/REPORT.md` says which is which.

#![warn(missing_docs, clippy::missing_errors_doc, clippy::must_use_candidate)]

mod figures;
mod folder;
mod html;
mod policy;
mod replay;

use std::error::Error;
use std::fmt;
use std::path::Path;

use serde::Serialize;
use yaslaurel::{trace_records, Kind, Operation, Refusal};

use crate::figures::Figures;
use crate::folder::{Folder, Trace};
use crate::policy::PolicyData;
use crate::replay::{Budget, Replay, Replaying};

/// How many records are laid out in one page, of all traces together. Beyond it a trace has its figures alone.
pub const RECORDS_LIMIT: usize = 1_000_000;

/// Why there is no page.
#[derive(Clone, Debug, PartialEq, Eq)]
#[non_exhaustive]
pub enum PageError {
    /// The policy is refused.
    Policy(String),
    /// Something cannot be read, or is not as its format has it.
    Input(String),
}

impl fmt::Display for PageError {
    fn fmt(&self, f: &mut fmt::Formatter<'_>) -> fmt::Result {
        match self {
            PageError::Policy(message) | PageError::Input(message) => f.write_str(message),
        }
    }
}

impl Error for PageError {}

/// A page, and what came of the traces in it.
#[derive(Clone, Debug)]
#[non_exhaustive]
pub struct Page {
    /// The file of HTML.
    pub html: String,
    /// How many records the traces have.
    pub records: usize,
    /// How many of them are alerts.
    pub alerts: usize,
    /// How many were blocked.
    pub blocked: usize,
    /// How many were refused.
    pub refused: usize,
    /// How many of the alerts and blocked accesses are explained in the page.
    pub explained: usize,
    /// What the page could not take up, in words.
    pub gaps: Vec<String>,
    /// What is not known of the folder, in words.
    pub notes: Vec<String>,
}

/// What the page's script lays out.
#[derive(Serialize)]
struct Data {
    version: &'static str,
    policy: PolicyData,
    traces: Vec<TraceData>,
    /// Over all traces.
    total: Figures,
    /// What an operation is called in a listing, by its code; the first one for any other code.
    words: [&'static str; 10],
    /// What its process does, by its code.
    verbs: Vec<&'static str>,
    /// What a kind of container is called, by its number.
    kinds: Vec<String>,
    /// What each refusal means, with its number.
    refusals: Vec<(u32, &'static str)>,
    gaps: Vec<String>,
    notes: Vec<String>,
}

/// A trace in the page.
#[derive(Serialize)]
struct TraceData {
    name: String,
    sha256: String,
    figures: Option<Figures>,
    /// Nothing if only the figures are in the page.
    replay: Option<Replay>,
}

/// What operations are called in a listing, by their codes.
const WORDS: [&str; 10] = ["other", "read", "write", "append", "exec", "fork", "file", "volatile", "end", "delete"];

/// What the process of an operation does, by its code.
fn verbs() -> Vec<&'static str> {
    let (process, object, user) = (0, 0, 0);
    let operations = [
        Operation::Read { process, object },
        Operation::Write { process, object },
        Operation::Append { process, object },
        Operation::Exec { process, file: object, user },
        Operation::Fork { process, child: object },
        Operation::NewFile { process, file: object, user },
        Operation::NewVolatile { process, volatile: object },
        Operation::End { process },
        Operation::Delete { process, object },
    ];
    std::iter::once("").chain(operations.map(Operation::verb)).collect()
}

/// The page of a folder that has `policy.bin`, and `trace.bin` or the traces of a month, `00.bin` and so on, or both. Its names are used if it has
/// them.
///
/// # Errors
///
/// [`PageError::Policy`] for a policy that is refused, [`PageError::Input`] for what cannot be read.
pub fn page(folder: &Path) -> Result<Page, PageError> {
    let folder = Folder::read(folder)?;
    let mut told = Told { gaps: folder.gaps.clone(), ..Told::default() };
    let traces = folder.traces.iter().map(|trace| told.trace(&folder, trace)).collect::<Result<_, _>>()?;
    let Told { total, budget, gaps } = told;
    let (records, explained) = (total.records, budget.explained);
    let (alerts, blocked, refused) = (total.alerts, total.blocked, total.refused);
    let data = Data {
        version: env!("CARGO_PKG_VERSION"),
        policy: PolicyData::new(&folder),
        traces,
        total,
        words: WORDS,
        verbs: verbs(),
        kinds: (0..=4)
            .map(|number| Kind::from_number(number).map_or_else(String::new, |kind| kind.to_string()))
            .collect(),
        refusals: Refusal::all().map(|refusal| (refusal.number(), refusal.meaning())).collect(),
        gaps: gaps.clone(),
        notes: folder.notes.clone(),
    };
    Ok(Page { html: html::assemble(&data), records, alerts, blocked, refused, explained, gaps, notes: folder.notes })
}

/// What is told of the traces so far.
#[derive(Default)]
struct Told {
    total: Figures,
    budget: Budget,
    gaps: Vec<String>,
}

impl Told {
    /// One trace, replayed on the library; what is not in the page is noted.
    fn trace(&mut self, folder: &Folder, trace: &Trace) -> Result<TraceData, PageError> {
        let (name, sha256) = (trace.name.clone(), trace.sha256.clone());
        let Some(bytes) = &trace.bytes else {
            return Ok(TraceData { name, sha256, figures: None, replay: None });
        };
        let listed = self.total.records + trace_records(bytes.len()) <= RECORDS_LIMIT;
        let replaying = Replaying::start(folder, trace, bytes)?;
        let (replay, figures) = replaying.run(listed.then_some(&mut self.budget))?;
        self.total.add(&figures);
        if !listed {
            self.gaps.push(format!("{name}: only its figures are in the page, which lists {RECORDS_LIMIT} records"));
        }
        if replay.unexplained > 0 {
            self.gaps.push(format!(
                "{name}: {} alerts and blocked accesses are listed without an explanation, which would take too long or \
                 too much room; `policy explain FOLDER --step N` tells it",
                replay.unexplained
            ));
        }
        Ok(TraceData { name, sha256, figures: Some(figures), replay: listed.then_some(replay) })
    }
}
