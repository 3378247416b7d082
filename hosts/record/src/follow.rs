//! Follows a log of strace, or an event list, from its first line to its last.

use std::fs;
use std::io::{self, Read};
use std::os::unix::ffi::OsStrExt;
use std::path::Path;

use policy_text::Story;
use yaslaurel::Refusal;

use crate::event_list;
use crate::ledger::Ledger;
use crate::lines::{Found, Lines};
use crate::order::Order;
use crate::plan::{How, Plan, PlanError};
use crate::recorder::{Recorder, Start};
use crate::report::Report;
use crate::Failure;

/// A log that is followed.
pub struct Follower {
    order: Order,
    pub recorder: Recorder,
    line: usize,
    strict: bool,
}

impl Follower {
    pub fn start(plan: Plan, report: Report, run: Start, strict: bool) -> Result<Follower, Refusal> {
        let recorder = Recorder::start(plan, report, run)?;
        Ok(Follower { order: Order::default(), recorder, line: 0, strict })
    }

    /// Takes up the next line. Whether to go on.
    pub fn line(&mut self, text: &[u8]) -> bool {
        self.line += 1;
        for event in self.order.line(self.line, &String::from_utf8_lossy(text)) {
            self.recorder.event(event);
        }
        self.recorder.progress();
        !(self.strict && self.recorder.report.incomplete())
    }

    /// A line is too long to be taken up. Whether to go on.
    pub fn too_long(&mut self, ended: bool) -> bool {
        self.line += 1;
        self.recorder.line = self.line;
        let rest = if ended { "" } else { ", without an end: the rest of the log is left out" };
        self.recorder.gap(&format!("a line of over 1 MiB{rest}"));
        ended && !self.strict
    }

    /// The log has ended.
    pub fn end(&mut self) {
        for event in self.order.end() {
            self.recorder.event(event);
        }
        self.recorder.end();
        self.recorder.tell_endless();
    }
}

/// How many lines are read ahead for the folder in which the first process starts.
pub const FOLDER_LINES: usize = 10_000;

/// Follows a log of strace to its end.
pub fn log(lines: &mut Lines, follower: &mut Follower) -> io::Result<()> {
    let mut going = true;
    let mut empty = true;
    while let Some(found) = lines.next()?.filter(|_| going) {
        empty = false;
        going = match found {
            Found::Line(line) => follower.line(&line),
            Found::TooLong { ended } => follower.too_long(ended),
        };
    }
    if empty {
        follower.recorder.gap("there is no line in the log");
    }
    Ok(())
}

/// Follows an event list to its end.
pub fn events(lines: &mut Lines, ledger: &mut Ledger, strict: bool) -> io::Result<()> {
    lines.next()?;
    while let Some(found) = lines.next()? {
        let event = match &found {
            Found::Line(line) => std::str::from_utf8(line).ok().and_then(event_list::read),
            Found::TooLong { .. } => None,
        };
        match event {
            Some(event) => drop(ledger.event(&event)),
            None => ledger.not_read(),
        }
        if strict && ledger.recorder.report.incomplete() {
            break;
        }
    }
    Ok(())
}

/// How long a story may be.
const STORY_LIMIT: u64 = 1 << 20;

fn story_text(path: &Path) -> io::Result<Vec<u8>> {
    let mut text = Vec::new();
    fs::File::open(path)?.take(STORY_LIMIT + 1).read_to_end(&mut text)?;
    match text.len() as u64 > STORY_LIMIT {
        true => Err(io::Error::new(io::ErrorKind::InvalidData, "over 1 MiB, which no story has")),
        false => Ok(text),
    }
}

/// The plan of a story whose relative names are in a folder.
pub fn plan(path: &Path, folder: Option<&Path>, how: How) -> Result<Plan, Failure> {
    let said = |what: &dyn std::fmt::Display| format!("{}:{what}", path.display());
    let text = story_text(path).map_err(|error| Failure::failed(said(&format!(" {error}"))))?;
    let story = Story::read(&text).map_err(|error| Failure::story(said(&error)))?;
    let folder = folder.map(|folder| folder.as_os_str().as_bytes());
    Plan::new(&story, folder, how).map_err(|error| match error {
        PlanError::Step { .. } => Failure::story(said(&error)),
        error => Failure::story(said(&format!(" {error}"))),
    })
}

#[cfg(test)]
mod tests {
    use super::*;
    use std::cell::RefCell;
    use std::io::Write;
    use std::path::PathBuf;
    use std::rc::Rc;

    /// What a report has said.
    #[derive(Clone, Default)]
    struct Said(Rc<RefCell<Vec<u8>>>);

    impl Write for Said {
        fn write(&mut self, bytes: &[u8]) -> io::Result<usize> {
            self.0.borrow_mut().write(bytes)
        }

        fn flush(&mut self) -> io::Result<()> {
            Ok(())
        }
    }

    /// The stored logs with their stories.
    fn stored() -> Vec<(PathBuf, Vec<u8>)> {
        let folder = Path::new(env!("CARGO_MANIFEST_DIR")).join("../../tests/host/record");
        let folders = fs::read_dir(folder).expect("the stored logs are there").map(|entry| entry.unwrap().path());
        let mut logs: Vec<_> =
            folders.filter_map(|folder| Some((folder.join("story"), fs::read(folder.join("log")).ok()?))).collect();
        logs.sort();
        assert!(logs.len() > 10);
        logs
    }

    /// Follows a log and gives the refusals that were told.
    fn refusals(story: &Path, log: &[u8]) -> Vec<String> {
        let said = Said::default();
        let plan = plan(story, Some(Path::new("/srv/x")), How { follow: true, guard: false })
            .map_err(|failure| failure.message)
            .unwrap();
        let report = Report::new(Box::new(said.clone()), false, false);
        let mut follower = Follower::start(plan, report, Start::default(), false).unwrap();
        log.split(|byte| *byte == b'\n').for_each(|line| assert!(follower.line(line)));
        follower.end();
        follower.recorder.summary();
        let text = String::from_utf8(said.0.borrow().clone()).unwrap();
        assert!(text.ends_with(" not followed\n"));
        text.lines().filter(|line| line.starts_with("refused ")).map(String::from).collect()
    }

    #[test]
    fn a_log_cut_anywhere_gives_no_further_refusal() {
        for (story, log) in stored().iter().filter(|(_, log)| log.len() < 4_000) {
            let whole = refusals(story, log);
            for length in 0..log.len() {
                let told = refusals(story, &log[..length]);
                assert!(whole.starts_with(&told), "{story:?} cut at {length}: {told:?}");
            }
        }
    }

    /// Numbers that look random, the same in each run.
    struct Random(u64);

    impl Random {
        fn below(&mut self, limit: usize) -> usize {
            self.0 ^= self.0 << 13;
            self.0 ^= self.0 >> 7;
            self.0 ^= self.0 << 17;
            (self.0 % limit as u64) as usize
        }
    }

    const LETTERS: &[u8] = b"0123456789<>(){}[]\",= \\|+-xO";

    /// Leaves lines out, repeats and mixes them, and changes single bytes.
    fn damaged(log: &[u8], random: &mut Random) -> Vec<u8> {
        let mut lines: Vec<Vec<u8>> = log.split(|byte| *byte == b'\n').map(<[u8]>::to_vec).collect();
        for _ in 0..1 + random.below(6) {
            let (one, other) = (random.below(lines.len()), random.below(lines.len()));
            match random.below(5) {
                0 if lines.len() > 1 => drop(lines.remove(one)),
                1 => lines.insert(one, lines[other].clone()),
                2 => lines.swap(one, other),
                3 => lines.insert(one, (0..random.below(60)).map(|_| random.below(256) as u8).collect()),
                _ if lines[one].is_empty() => {}
                _ => {
                    let at = random.below(lines[one].len());
                    lines[one][at] = LETTERS[random.below(LETTERS.len())];
                }
            }
        }
        lines.join(&b'\n')
    }

    /// Follows an event list and gives the refusals that were told.
    fn refusals_of_events(text: &[u8], guard: bool) -> Vec<String> {
        let said = Said::default();
        let folder = Path::new(env!("CARGO_MANIFEST_DIR")).join("../../tests/host/record/event-list");
        let plan = plan(&folder.join("story"), Some(Path::new("/srv/x")), How { guard, follow: false })
            .map_err(|failure| failure.message)
            .unwrap();
        let report = Report::new(Box::new(said.clone()), false, false);
        let mut ledger = Ledger::start(plan, report, Start { guard, ..Start::default() }).unwrap();
        let mut lines = Lines::new(io::Cursor::new(text.to_vec()));
        events(&mut lines, &mut ledger, false).unwrap();
        ledger.end();
        ledger.recorder.summary();
        let text = String::from_utf8(said.0.borrow().clone()).unwrap();
        assert!(text.ends_with(" not followed\n"));
        text.lines().filter(|line| line.starts_with("refused ")).map(String::from).collect()
    }

    #[test]
    fn damaged_event_lists_give_no_other_refusal() {
        let folder = Path::new(env!("CARGO_MANIFEST_DIR")).join("../../tests/host/record/event-list");
        let list = fs::read(folder.join("events")).unwrap();
        assert!(refusals_of_events(&list, false).is_empty() && refusals_of_events(&list, true).is_empty());
        let mut random = Random(0x9e37_79b9_7f4a_7c15);
        for round in 0..3_000 {
            let told = refusals_of_events(&damaged(&list, &mut random), round % 2 == 0);
            assert!(told.iter().all(|line| line.starts_with("refused with 12,")), "{round}: {told:?}");
        }
    }

    #[test]
    fn event_lists_are_written_as_they_are_read() {
        let folder = Path::new(env!("CARGO_MANIFEST_DIR")).join("../../tests/host/record/event-list");
        let list = fs::read_to_string(folder.join("events")).unwrap();
        for line in list.lines().skip(1) {
            let mut written = Vec::new();
            event_list::write(&mut written, &event_list::read(line).expect(line)).unwrap();
            assert_eq!(String::from_utf8(written).unwrap().trim_end_matches('\n'), line);
        }
    }

    /// A program in memory is a volatile, which is not executed (12); nothing else that a recorder reports is refused.
    #[test]
    fn a_damaged_log_gives_no_other_refusal() {
        let mut random = Random(0x2545_f491_4f6c_dd1d);
        for (story, log) in stored().iter().filter(|(_, log)| log.len() < 4_000) {
            for round in 0..2_000 {
                let told = refusals(story, &damaged(log, &mut random));
                assert!(told.iter().all(|line| line.starts_with("refused with 12,")), "{story:?} {round}: {told:?}");
            }
        }
    }
}
