//! Names of the story: which container a file at such a name is, what a name that leads elsewhere comes to, and what of the story does
//! not fit the files.

use std::ffi::OsStr;
use std::fs;
use std::os::unix::ffi::OsStrExt;

use yaslaurel::{Operation, Verdict};

use crate::files::{FileId, Sort};
use crate::path;
use crate::plan::RuleUser;
use crate::process::ProcessId;
use crate::recorder::Recorder;

/// What a name of the story that leads to another file comes to.
pub enum Naming {
    Done,
    /// The file is the name's own container; what had it before is another one, if there was one.
    Is {
        container: FileId,
        before: Option<FileId>,
    },
    Blocked,
}

impl Recorder {
    /// The container of the image for a name of the story.
    pub fn story_file(&self, path: &[u8]) -> Option<FileId> {
        self.own.get(path).copied()
    }

    /// A name of the story leads to a file, or to none.
    pub fn named(&mut self, process: Option<ProcessId>, how: &str, path: &[u8], file: Option<FileId>) -> Naming {
        let (Some(own), Some(file)) = (self.story_file(path), file) else { return Naming::Done };
        let new = self.seen.insert(path.to_vec());
        if process.is_none() {
            self.run.at_start.insert(path.to_vec());
        }
        if self.files.root(file) == own {
            return Naming::Done;
        }
        if new && self.files.get(file).number.is_none() {
            return Naming::Is { container: own, before: None };
        }
        let Some(story) = self.plan.files.iter().find(|file| file.written == path).cloned() else {
            return Naming::Done;
        };
        if story.source {
            self.changed.insert(story.name.clone());
        }
        let by = process.map_or_else(|| "the recorder".to_string(), |process| self.monitor.name(self.acting(process)));
        if self.is_guarded(own) {
            return self.replace_guarded(own, file, &format!("{how} by {by}"));
        }
        if story.rule.is_some() {
            self.relabel(file, &story.name);
            self.govern_by(file, &story.path, &format!("{how} by {by}"));
        }
        Naming::Done
    }

    /// Tells what of the story does not fit the files of the run: names that nothing was found at, sources that have changed, and,
    /// for people alone, sources that nobody has read.
    pub fn tell_story(&mut self) {
        for file in &self.plan.files {
            let name = &file.name;
            if self.run.allowed.contains(name) {
                continue;
            }
            let seen = self.seen.contains(&file.written);
            if file.source && !self.run.at_start.contains(&file.written) {
                self.report
                    .story(&format!("source {name} was not there at the start, so nothing was known to come from it"));
            } else if file.rule.is_some() && !seen {
                let words = format!("{name} was neither there nor made, so nothing was judged by its rule");
                match self.may_be_misspelt(&file.path) {
                    true => self.report.story(&words),
                    false => self.report.line(&format!("note: {words}")),
                }
            }
            if self.changed.contains(name) {
                self.report
                    .story(&format!("source {name} was written or replaced: what it had then is not known as its own"));
            }
        }
        let sources = self.plan.files.iter().filter(|file| file.source && !self.read.contains(&file.name));
        let unread: Vec<&str> = sources.map(|file| file.name.as_str()).collect();
        if !unread.is_empty() {
            self.report.line(&format!("never read: {}", unread.join(", ")));
        }
        if !self.run.state {
            self.report.line("files from before the run count as holding only their own source, without --state");
        }
    }

    /// Whether another name may have been meant by one that nothing was found at: its folder is not there either, or a file that the
    /// story does not name, in that folder or of the same name elsewhere, has got something of a source.
    pub fn may_be_misspelt(&self, path: &[u8]) -> bool {
        let (folder, name) = path::split(path);
        let Ok(folder) = fs::canonicalize(OsStr::from_bytes(folder)) else { return true };
        let holds = |id: FileId| {
            let file = self.files.get(id);
            let named = file.of_image || file.rule.is_some() || file.sort != Sort::File;
            let holds = file.number.is_some_and(|number| self.monitor.tag(number) != 0);
            let (above, other) = path::split(file.label.as_bytes());
            !named && holds && (above == folder.as_os_str().as_bytes() || other == name)
        };
        self.files.ids().any(holds)
    }

    /// A file holds something of a source since an earlier run: a process that holds nothing else brings it there.
    pub fn held_before(&mut self, file: FileId, source: &str) {
        let found = self.plan.files.iter().find(|file| file.source && file.name == source).map(|file| file.number);
        let (Some(from), Some(to), Some(helper)) = (found, self.number(file), self.take_number()) else {
            let label = self.files.get(file).label.clone();
            self.gap(&format!("{label} holds {source} from an earlier run, which is no source of this story"));
            return;
        };
        let process = self.plan.recorder;
        self.monitor.hold(helper, "an earlier run");
        self.perform(Operation::Fork { process, child: helper });
        self.perform(Operation::Read { process: helper, object: from });
        self.perform(Operation::Append { process: helper, object: to });
        self.perform(Operation::End { process: helper });
        self.monitor.leave(helper);
    }

    /// The sources that a file holds beside its own, by their names.
    pub fn sources_of(&self, file: FileId) -> Vec<String> {
        let Some(tag) = self.held_in(file) else { return Vec::new() };
        let found = self.files.get(file);
        let names = self.plan.policy.source_names().enumerate();
        let held = names.filter(|(place, _)| tag >> place & 1 != 0).map(|(_, name)| name.to_string());
        held.filter(|name| !(found.source && found.label == *name)).collect()
    }

    /// Another file comes to the name of a guarded one: what it holds is judged as a write by a process that holds nothing else. What
    /// had the name before keeps what it holds, as a plain file. Whatever cannot be judged is blocked.
    pub fn replace_guarded(&mut self, own: FileId, file: FileId, by: &str) -> Naming {
        let Some(guarded) = self.files.get(own).number else { return Naming::Blocked };
        let before = (self.monitor.tag(guarded) != 0).then(|| {
            let label = format!("what was {}", self.files.get(own).label);
            let before = self.files.nameless(Sort::File, label);
            self.files.get_mut(before).outside = true;
            before
        });
        let kept = before.and_then(|before| self.number(before));
        let from = self.files.get(file).number;
        let passed = |recorder: &mut Recorder, from, to| {
            let helper = recorder.take_number()?;
            recorder.pass(helper, by, from, to)
        };
        if let Some(kept) = kept {
            passed(self, Some(guarded), kept);
        }
        if passed(self, from, guarded) != Some(Verdict::Quiet) {
            if let Some(before) = before {
                self.delete_container(self.plan.recorder, before);
            }
            return Naming::Blocked;
        }
        self.delete_container(self.plan.recorder, file);
        Naming::Is { container: own, before }
    }

    /// A file has got a name of the story: the story's rule holds for it from here on. A file that has a container of its own
    /// gets another one, into which a process that holds nothing copies it.
    pub fn govern(&mut self, process: ProcessId, file: FileId, path: &[u8], how: &str) {
        let by = self.monitor.name(self.acting(process));
        self.govern_by(file, path, &format!("{how} by {by}"));
    }

    /// The same, with the words for who has given the name.
    pub fn govern_by(&mut self, file: FileId, path: &[u8], by: &str) {
        let Some(rule) = self.files.story_rule(path) else { return };
        let name = self.files.story_name(path).unwrap_or_default().to_string();
        let RuleUser(Some(user)) = rule else {
            self.gap(&format!("{name} is another file now, and no user is left that has the story's rule"));
            return;
        };
        let before = self.files.get_mut(file).rule.replace(rule);
        if before == Some(rule) {
            return;
        }
        if self.files.get(file).names.iter().any(|other| other != path && self.files.story_rule(other).is_some()) {
            self.gap(&format!("{name} has another name of the story too, of which the rule does not hold any more"));
        }
        if let Some(number) = self.files.get(file).number {
            self.settle(ProcessId::MAX, file);
            self.copy(file, number, user, by);
        }
    }

    /// Copies what a file holds into a container for another user.
    pub fn copy(&mut self, file: FileId, old: u8, user: u8, by: &str) {
        let process = self.plan.recorder;
        let numbers = self.take_number().and_then(|number| {
            self.give(file, number);
            Some((number, self.take_number()?))
        });
        let Some((new, helper)) = numbers else {
            let label = self.files.get(file).label.clone();
            self.no_number(&label);
            return;
        };
        self.perform(Operation::NewFile { process, file: new, user });
        self.pass(helper, by, Some(old), new);
        let file = self.files.root(file);
        self.held[usize::from(old)].retain(|other| *other != file);
        if self.held[usize::from(old)].is_empty() {
            self.delete(process, old);
        }
    }

    /// A process that holds nothing reads one container, if there is one, and writes another.
    pub fn pass(&mut self, helper: u8, by: &str, from: Option<u8>, to: u8) -> Option<Verdict> {
        let process = self.plan.recorder;
        self.monitor.hold(helper, by);
        self.perform(Operation::Fork { process, child: helper });
        if let Some(object) = from {
            self.perform(Operation::Read { process: helper, object });
        }
        let verdict = self.perform(Operation::Write { process: helper, object: to });
        self.perform(Operation::End { process: helper });
        self.monitor.leave(helper);
        verdict
    }
}
