//! What people read: alerts, refusals and gaps in words, a line of progress, the summary, and the exit status.

use std::collections::HashSet;
use std::io::{self, IsTerminal, Write};
use std::time::{Duration, Instant};

use crate::explain::Reason;

/// The exit statuses; alerts and refusals add up.
pub mod status {
    pub const QUIET: u8 = 0;
    pub const ALERTS: u8 = 1;
    pub const NOT_FOLLOWED: u8 = 2;
    pub const STORY: u8 = 4;
    pub const FAILED: u8 = 5;
}

/// How often the line of progress changes at most.
const PROGRESS: Duration = Duration::from_millis(200);

pub struct Report {
    out: Box<dyn Write>,
    json: bool,
    failure: Option<io::Error>,
    alerts: u64,
    blocked: u64,
    repeated: u64,
    refusals: u64,
    unknown: u64,
    gaps: u64,
    told: HashSet<String>,
    /// When progress was last shown; nothing if it is not wanted.
    shown: Option<Instant>,
}

impl Report {
    /// A report to an output, with progress on standard error if that is a terminal.
    pub fn new(out: Box<dyn Write>, progress: bool, json: bool) -> Report {
        let shown = (progress && io::stderr().is_terminal()).then(Instant::now);
        let told = HashSet::new();
        Report {
            out,
            json,
            failure: None,
            alerts: 0,
            blocked: 0,
            repeated: 0,
            refusals: 0,
            unknown: 0,
            gaps: 0,
            told,
            shown,
        }
    }

    /// Prints a line. The first failure is kept for the end.
    pub fn line(&mut self, text: &str) {
        match self.json {
            true => self.write(&as_json(text)),
            false => self.write(text),
        }
    }

    fn write(&mut self, line: &str) {
        if self.shown.is_some() {
            eprint!("\r\x1b[K");
        }
        let written = writeln!(self.out, "{line}").and_then(|()| self.out.flush());
        if let Err(error) = written {
            self.failure.get_or_insert(error);
        }
    }

    /// An alert: what happened, at which step, and the reason. What was told before is counted.
    pub fn alert(&mut self, step: u64, words: &str, reason: impl FnOnce() -> Option<Reason>) {
        self.alerts += 1;
        if !self.told.insert(words.to_string()) {
            self.repeated += 1;
            return;
        }
        self.explained("alert", step, words, reason());
    }

    /// An access that is not made, and the reason. It is told each time: each is another access.
    pub fn blocked(&mut self, step: u64, words: &str, reason: Option<Reason>) {
        self.blocked += 1;
        self.explained("blocked", step, words, reason);
    }

    /// What is forbidden, and under it the rule and the chains; or why these are not told.
    fn explained(&mut self, answer: &str, step: u64, words: &str, reason: Option<Reason>) {
        let (remark, lines) = match reason {
            Some(Reason::Remark(remark)) => (format!(" ({remark})"), Vec::new()),
            Some(Reason::Lines(lines)) => (String::new(), lines),
            None => Default::default(),
        };
        self.line(&format!("{answer}, step {step}: {words}{remark}"));
        for (place, line) in lines.iter().enumerate() {
            let kind = if place == 0 { "rule" } else { "chain" };
            match self.json {
                true => self.write(&object(kind, Some(("step", step)), line)),
                false => self.write(&format!("  {line}")),
            }
        }
    }

    pub fn refusal(&mut self, step: u64, number: u32, words: &str) {
        self.refusals += 1;
        self.line(&format!("refused with {number}, step {step}: {words}"));
    }

    /// An answer that this program does not know. The run has failed: nobody knows what the monitor did.
    pub fn unknown(&mut self, step: u64, answer: &str, words: &str) {
        self.unknown += 1;
        self.line(&format!("unknown answer {answer}, step {step}: {words}"));
    }

    /// Something of the log that is not followed. What was told before is counted.
    pub fn gap(&mut self, line: usize, words: &str) {
        self.gaps += 1;
        if self.told.insert(words.to_string()) {
            self.line(&format!("not followed, line {line}: {words}"));
        }
    }

    /// Something in the story that does not fit the files of the run.
    pub fn story(&mut self, words: &str) {
        self.gaps += 1;
        self.line(&format!("story: {words}"));
    }

    /// Shows how far the run is, on a terminal.
    pub fn progress(&mut self, records: u64, processes: usize) {
        if self.shown.is_some_and(|shown| shown.elapsed() >= PROGRESS) {
            self.shown = Some(Instant::now());
            eprint!("\r\x1b[K{records} records, {processes} processes, {} alerts", self.alerts);
        }
    }

    /// The last line.
    pub fn summary(&mut self, records: u64, containers: usize) {
        let repeated = match self.repeated {
            0 => String::new(),
            count => format!(" ({count} as told above)"),
        };
        let blocked = match self.blocked {
            0 => String::new(),
            count => format!(", {count} blocked"),
        };
        let (alerts, refusals, gaps) = (self.alerts, self.refusals, self.gaps);
        if self.json {
            let blocked = self.blocked;
            return self.write(&format!(
                "{{\"kind\":\"summary\",\"records\":{records},\"containers\":{containers},\"alerts\":{alerts},\"blocked\":{blocked},\"refused\":{refusals},\"not_followed\":{gaps}}}"
            ));
        }
        self.line(&format!(
            "{records} records, {containers} containers: {alerts} alerts{repeated}{blocked}, {refusals} refused, {gaps} not followed"
        ));
    }

    /// Whether something was refused or not followed.
    pub fn incomplete(&self) -> bool {
        self.refusals + self.gaps > 0
    }

    pub fn status(&self) -> u8 {
        if self.unknown > 0 {
            return status::FAILED;
        }
        let alerts = if self.alerts + self.blocked > 0 { status::ALERTS } else { status::QUIET };
        let incomplete = if self.incomplete() { status::NOT_FOLLOWED } else { status::QUIET };
        alerts + incomplete
    }

    /// The first output that could not be written.
    pub fn failure(&mut self) -> Option<io::Error> {
        self.failure.take()
    }
}

/// A line as an object of JSON: the word that it begins with, the number of a step or a line, and the text.
fn as_json(line: &str) -> String {
    const KINDS: [&str; 8] =
        ["alert", "blocked", "quiet", "refused", "unknown answer", "not followed", "story", "note"];
    let (head, text) = line.split_once(": ").unwrap_or(("", line));
    let kind = KINDS.iter().find(|kind| head.starts_with(**kind));
    let number = head.rsplit_once([' ']).and_then(|(_, number)| number.parse::<u64>().ok());
    let place = if head.contains("line ") { "line" } else { "step" };
    match kind {
        Some(kind) => object(kind, number.map(|number| (place, number)), text),
        None => object("line", None, line),
    }
}

fn object(kind: &str, number: Option<(&str, u64)>, text: &str) -> String {
    let number = number.map_or_else(String::new, |(place, number)| format!("\"{place}\":{number},"));
    format!("{{\"kind\":{},{number}\"text\":{}}}", quoted(kind), quoted(text))
}

/// A text as a string of JSON.
fn quoted(text: &str) -> String {
    let escaped = |letter: char| match letter {
        '"' | '\\' => format!("\\{letter}"),
        letter if letter.is_control() => format!("\\u{:04x}", u32::from(letter)),
        letter => letter.to_string(),
    };
    format!("\"{}\"", text.chars().map(escaped).collect::<String>())
}
