//! The recorder: takes up what happens, keeps processes and files, and reports operations to the monitor.

use std::collections::{BTreeSet, HashMap, HashSet};

use policy_text::what;
use yaslaurel::{Answer, Operation, Refusal, Verdict};

use crate::calls;
use crate::files::{FileId, Files, Sort};
use crate::line::Outcome;
use crate::monitor::{Monitor, Row, NUMBERS};
use crate::order::{Call, Event};
use crate::plan::{self, Plan};
use crate::process::{ProcessId, Processes, Shares};
use crate::report::Report;
use crate::table::Meaning;

/// A write, or a transfer from one file to another, that has begun and not ended.
struct Pending {
    thread: u32,
    process: ProcessId,
    from: Option<FileId>,
    to: FileId,
    /// Whether it is reported already.
    done: bool,
}

pub struct Recorder {
    pub plan: Plan,
    pub files: Files,
    pub processes: Processes,
    pub monitor: Monitor,
    pub report: Report,
    /// The line of the log that is taken up.
    pub line: usize,
    pending: Vec<Pending>,
    /// Closes and renames that have begun and not ended, by thread.
    begun: HashMap<u32, Meaning>,
    /// The files that have each number: several where their rows are equal and numbers are few.
    pub held: Vec<Vec<FileId>>,
    pub uses: u64,
    pub run: Start,
    /// The container of the image for each name of the story.
    pub own: HashMap<Vec<u8>, FileId>,
    /// The names of the story that a file was seen at.
    pub seen: HashSet<Vec<u8>>,
    /// The sources that were written, or whose name leads to another file.
    pub changed: BTreeSet<String>,
    /// The sources that were read.
    pub read: BTreeSet<String>,
}

/// What is known at the start of a run.
#[derive(Default)]
pub struct Start {
    /// The user id of the first process.
    pub uid: Option<u32>,
    /// The folder of the first process.
    pub folder: Option<Vec<u8>>,
    /// Whether operations and holders are kept to be written at the end.
    pub keep: bool,
    /// Whether what is quiet is told too, with the mixture that let it through.
    pub why: bool,
    /// Whether alerts are explained.
    pub explain: bool,
    /// Whether what is blocked is not made.
    pub guard: bool,
    /// Whether what files held before the run is known.
    pub state: bool,
    /// Names of the story at which nothing need be.
    pub allowed: BTreeSet<String>,
    /// The names of the story at which something was when the run began.
    pub at_start: HashSet<Vec<u8>>,
}

impl Recorder {
    /// A recorder at the start of a run.
    pub fn start(plan: Plan, report: Report, run: Start) -> Result<Recorder, Refusal> {
        let monitor = Monitor::start(&plan.policy, run.keep, run.explain)?;
        let files = Files::new(&plan.files, plan::root_links());
        let mut held = vec![Vec::new(); NUMBERS];
        for id in files.ids() {
            if let Some(number) = files.get(id).number {
                held[usize::from(number)].push(id);
            }
        }
        let own = plan.files.iter().filter_map(|file| Some((file.written.clone(), files.find(&file.path)?))).collect();
        let (processes, pending, begun, seen, changed, read) = Default::default();
        Ok(Recorder {
            plan,
            files,
            processes,
            monitor,
            report,
            line: 0,
            pending,
            begun,
            held,
            uses: 0,
            run,
            own,
            seen,
            changed,
            read,
        })
    }

    /// Takes up what happens.
    pub fn event(&mut self, event: Event) {
        match event {
            Event::First { thread } => {
                let number = Some(self.plan.first);
                let id = self.processes.add(thread, number, self.run.folder.clone(), self.run.uid);
                self.name_process(id);
            }
            Event::Begun(call) => self.begun(&call),
            Event::Ended(call) => self.ended(&call),
            Event::Forked { line, parent, child, arguments } => {
                self.line = line;
                self.forked(parent, child, &arguments);
            }
            Event::Gone { line, thread } => {
                self.line = line;
                self.gone(thread);
            }
            Event::Replaced { leader } => self.cut_off(leader),
            Event::NoStart { line, thread } => {
                self.line = line;
                self.no_start(thread);
            }
            Event::NotRead { line } => {
                self.line = line;
                self.gap("not a line of `strace -f -y -o FILE`, or a call without its other half");
            }
        }
    }

    /// Shows how far the run is.
    pub fn progress(&mut self) {
        self.report.progress(self.monitor.steps(), self.processes.count());
    }

    /// The log has ended: writes that have begun count as made.
    pub fn end(&mut self) {
        while !self.pending.is_empty() {
            self.settle_one(0);
            self.pending.remove(0);
        }
    }

    /// Tells that processes have no end in a log: it may have been cut.
    pub fn tell_endless(&mut self) {
        let pids = self.processes.pids();
        if let Some(first) = pids.first() {
            let (count, first) = (pids.len(), *first);
            self.gap(&format!("{count} processes without an end in the log, the first of them {first}"));
        }
    }

    /// Tells something that is not followed.
    pub fn gap(&mut self, words: &str) {
        self.report.gap(self.line, words);
    }

    fn begun(&mut self, call: &Call) {
        self.line = call.line;
        let Some(process) = self.processes.of(call.thread) else { return };
        self.before(process);
        if let Some(meaning) = calls::begun(self, process, call) {
            self.begun.insert(call.thread, meaning);
        }
        self.after(process);
    }

    fn ended(&mut self, call: &Call) {
        self.line = call.line;
        let Some(process) = self.processes.of(call.thread) else { return };
        self.before(process);
        let pending = self.take_pending(call.thread);
        let closed = self.begun.remove(&call.thread) == Some(Meaning::Closes);
        match &call.outcome {
            Some(Outcome::Done { value, place }) => match pending {
                Some(pending) => self.transferred(pending, *value),
                None if closed => {}
                None => calls::ended(self, process, call, *value, place.as_ref()),
            },
            // The log does not say how it ended: a write may have been made.
            Some(Outcome::Unknown) => pending.into_iter().for_each(|pending| self.transferred(pending, 1)),
            Some(Outcome::Failed) | None => {}
        }
        if self.processes.of(call.thread) == Some(process) {
            self.after(process);
        }
    }

    /// Whether some name is just being moved, so that a path in the log may be the old or the new one.
    pub fn names_move(&self) -> bool {
        self.begun.values().any(|meaning| *meaning != Meaning::Closes)
    }

    fn take_pending(&mut self, thread: u32) -> Option<Pending> {
        let place = self.pending.iter().position(|pending| pending.thread == thread)?;
        Some(self.pending.remove(place))
    }

    fn transferred(&mut self, pending: Pending, bytes: i64) {
        if bytes > 0 && !pending.done {
            self.transfer(pending.process, pending.from, pending.to);
        }
    }

    /// A write or a transfer begins: it is reported at its end, or before something depends on it.
    pub fn begin(&mut self, thread: u32, process: ProcessId, from: Option<FileId>, to: FileId) {
        self.take_pending(thread);
        self.pending.push(Pending { thread, process, from, to, done: false });
    }

    /// Reports the writes that have begun and on which a read depends: those to the file that is read, and those of
    /// other threads of the process, which shall not have what is read now.
    pub fn settle(&mut self, process: ProcessId, file: FileId) {
        let file = self.files.root(file);
        for place in 0..self.pending.len() {
            let pending = &self.pending[place];
            if self.files.root(pending.to) == file || (pending.process == process && pending.from.is_none()) {
                self.settle_one(place);
            }
        }
    }

    fn settle_one(&mut self, place: usize) {
        let Pending { process, from, to, done, .. } = self.pending[place];
        if !done {
            self.pending[place].done = true;
            self.transfer(process, from, to);
            // More may follow of a transfer, so its end is reported too.
            self.pending[place].done = from.is_none();
        }
    }

    /// Data goes from a file to another through a process, or from the process's memory to a file.
    pub fn transfer(&mut self, process: ProcessId, from: Option<FileId>, to: FileId) {
        if let Some(from) = from {
            self.read(process, from);
        }
        self.write(process, to);
    }

    /// A read. Of what has no number, if none is free, nothing is read: it holds nothing.
    pub fn read(&mut self, process: ProcessId, file: FileId) -> Option<Verdict> {
        self.settle(process, file);
        if self.files.get(file).number.is_none() && self.processes.get(process).number.is_some() {
            // Without a number it holds nothing.
            if self.monitor.free().is_none() && self.spare().is_none() {
                return None;
            }
        }
        let (process, object) = self.both(process, file)?;
        let found = self.files.get(file);
        if found.source && !self.read.contains(&found.label) {
            self.read.insert(found.label.clone());
        }
        self.perform(Operation::Read { process, object })
    }

    /// A write: code 2 if it is the first behind a truncation, else code 3.
    pub fn write(&mut self, id: ProcessId, file: FileId) -> Option<Verdict> {
        self.own_number(id, file);
        let (process, object) = self.both(id, file)?;
        let truncated = self.files.get(file).truncated;
        let verdict = self.perform(match truncated {
            true => Operation::Write { process, object },
            false => Operation::Append { process, object },
        });
        if verdict != Some(Verdict::Blocked) {
            self.written(id, file);
            self.files.get_mut(file).truncated = false;
        }
        verdict
    }

    /// A write that leaves what the file holds, truncated or not.
    pub fn append(&mut self, id: ProcessId, file: FileId) -> Option<Verdict> {
        self.own_number(id, file);
        let (process, object) = self.both(id, file)?;
        let verdict = self.perform(Operation::Append { process, object });
        if verdict != Some(Verdict::Blocked) {
            self.written(id, file);
        }
        verdict
    }

    fn written(&mut self, id: ProcessId, file: FileId) {
        self.read_by_others(id, file);
        let found = self.files.get(file);
        if found.source {
            self.changed.insert(found.label.clone());
        }
    }

    /// Other processes that have the file mapped to read it need no call to see what was written.
    fn read_by_others(&mut self, writer: ProcessId, file: FileId) {
        let file = self.files.root(file);
        for process in self.processes.mapped_to_read(|mapped| self.files.root(mapped) == file) {
            if process != writer {
                self.read(process, file);
            }
        }
    }

    /// A program start.
    pub fn exec(&mut self, id: ProcessId, thread: u32, file: FileId) {
        self.settle(id, file);
        self.after(id);
        let uid = self.processes.get(id).uid;
        let user = self.plan.user(uid);
        if let Some((process, file)) = self.both(id, file) {
            self.perform(Operation::Exec { process, file, user });
        }
        self.processes.alone(thread, id);
        let (opened, closed) = self.processes.exec(id);
        self.opened(opened);
        self.closed(self.acting(id), closed);
        self.name_process(id);
    }

    fn both(&mut self, process: ProcessId, file: FileId) -> Option<(u8, u8)> {
        let Some(number) = self.processes.get(process).number else {
            let pid = self.processes.get(process).pid;
            self.gap(&format!("an operation of process {pid}, which has no number"));
            return None;
        };
        Some((number, self.number(file)?))
    }

    /// Reports an operation and tells what is not quiet. The verdict; nothing if it was refused.
    pub fn perform(&mut self, operation: Operation) -> Option<Verdict> {
        let answered = self.monitor.perform(self.line, operation);
        let step = self.monitor.steps();
        let (answer, access) = match answered {
            Ok(answered) => answered,
            Err(refusal) => {
                let words = what(operation, |number| self.monitor.name(number));
                self.report.refusal(step, refusal.number(), &words);
                return None;
            }
        };
        if answer.verdict == Verdict::Quiet && !self.run.why {
            return Some(Verdict::Quiet);
        }
        let words = access.words(&self.plan.policy, |number| self.monitor.name(number));
        match answer.verdict {
            Verdict::Quiet => {
                let why = self.why(answer).unwrap_or_default();
                self.report.line(&format!("quiet, step {step}: {words}{why}"));
            }
            Verdict::Alert => self.report.alert(step, &words, || self.monitor.reason(&self.plan.policy, access)),
            Verdict::Blocked if self.run.guard => {
                let reason = self.monitor.reason(&self.plan.policy, access);
                self.report.blocked(step, &words, reason);
            }
            unknown => self.report.unknown(step, &format!("{unknown:?}"), &words),
        }
        Some(answer.verdict)
    }

    /// Which mixture of the receiver's permit rule holds what it has, in words.
    fn why(&self, answer: Answer) -> Option<String> {
        let place = answer.position?;
        let mixture = match self.monitor.permitted(answer.receiver, place) {
            u64::MAX => "everything".to_string(),
            mixture => self.plan.policy.sources_in(mixture).to_string(),
        };
        Some(format!(", let through by mixture {place}: {mixture}"))
    }

    /// More descriptors or mappings stand for these files.
    pub fn opened(&mut self, files: impl IntoIterator<Item = FileId>) {
        for file in files {
            self.files.get_mut(file).open += 1;
        }
    }

    /// Descriptors or mappings for these files are gone, by a process.
    pub fn closed(&mut self, by: u8, files: impl IntoIterator<Item = FileId>) {
        for file in files {
            let open = &mut self.files.get_mut(file).open;
            *open = open.saturating_sub(1);
            self.delete_if_gone(by, file);
        }
    }

    /// Deletes a file that no name and no descriptor leads to.
    pub fn delete_if_gone(&mut self, by: u8, file: FileId) {
        if self.files.get(file).is_gone() {
            self.files.forget(file);
            self.delete_container(by, file);
        }
    }

    /// The number under which a process closes and deletes: the recorder's if it has none.
    pub fn acting(&self, process: ProcessId) -> u8 {
        self.processes.get(process).number.unwrap_or(self.plan.recorder)
    }

    /// What a process holds; nothing if it has no number.
    pub fn held_by(&self, process: ProcessId) -> Option<u64> {
        self.processes.get(process).number.map(|number| self.monitor.tag(number))
    }

    /// What a file holds; nothing if it has no number, since it holds nothing then.
    pub fn held_in(&self, file: FileId) -> Option<u64> {
        self.files.get(file).number.map(|number| self.monitor.tag(number))
    }

    pub fn row_of_process(&self, process: ProcessId) -> Option<Row> {
        self.processes.get(process).number.map(|number| self.monitor.row(number))
    }

    pub fn row_of_file(&self, file: FileId) -> Option<Row> {
        self.files.get(file).number.map(|number| self.monitor.row(number))
    }

    pub fn is_guarded(&self, file: FileId) -> bool {
        self.files.get(file).number.is_some_and(|number| self.monitor.is_guarded(number))
    }

    /// A file has no bytes any more; whether its next write ends what it held.
    pub fn truncated(&mut self, file: FileId, ends: bool) {
        let found = self.files.get_mut(file);
        found.truncated = ends && found.sort == Sort::File;
    }

    /// Another name for a file, for people.
    pub fn relabel(&mut self, file: FileId, label: &str) {
        let file = self.files.get_mut(file);
        file.label = label.into();
        if let Some(number) = file.number {
            self.monitor.rename(number, label);
        }
    }

    /// Lets two volatiles be one, with the second's container if it has one: what went through the first one before it had
    /// its address has gone elsewhere.
    pub fn merge(&mut self, process: ProcessId, first: FileId, second: FileId) {
        self.settle(ProcessId::MAX, first);
        if self.files.get(second).number.is_none() {
            let (from, to) = (self.files.root(first), self.files.root(second));
            if let Some(number) = self.files.get_mut(from).number.take() {
                self.files.get_mut(to).number = Some(number);
                let held = &mut self.held[usize::from(number)];
                held.iter_mut().filter(|id| **id == from).for_each(|id| *id = to);
            }
        }
        self.delete_container(self.acting(process), first);
        self.files.merge(first, second);
    }

    fn forked(&mut self, parent: u32, child: u32, arguments: &str) {
        let shares =
            Shares { process: arguments.contains("CLONE_THREAD"), descriptors: arguments.contains("CLONE_FILES") };
        self.start_child(parent, child, shares);
    }

    /// The first process of a live run.
    pub fn first(&mut self, task: u32, user: u32, folder: &[u8]) {
        let number = Some(self.plan.first);
        let id = self.processes.add(task, number, Some(folder.to_vec()), Some(user));
        self.name_process(id);
    }

    /// A task is born: one more of the same memory, or another process.
    pub fn born(&mut self, parent: u32, child: u32, one_memory: bool) {
        self.start_child(parent, child, Shares { process: one_memory, descriptors: false });
    }

    fn start_child(&mut self, parent: u32, child: u32, shares: Shares) {
        if self.processes.of(child).is_some() {
            self.gap(&format!("process {child} starts once more, and its end is not in the log"));
            self.gone(child);
        }
        let Some(id) = self.processes.of(parent) else { return };
        if shares.process {
            self.processes.thread(child, id);
            return;
        }
        let number = self.fork_number(id, child);
        let opened = self.processes.fork(id, child, number, shares);
        self.opened(opened);
        self.report_fork(id, child);
    }

    fn report_fork(&mut self, parent: ProcessId, child: u32) {
        let Some(forked) = self.processes.of(child) else { return };
        let numbers = (self.processes.get(parent).number, self.processes.get(forked).number);
        if let (Some(process), Some(number)) = numbers {
            self.monitor.hold(number, "");
            self.name_process(forked);
            self.perform(Operation::Fork { process, child: number });
        }
    }

    /// A task that has its memory together with others gets one of its own.
    pub fn split(&mut self, task: u32) {
        let Some(id) = self.processes.of(task) else { return };
        if self.processes.get(id).threads > 1 {
            let number = self.fork_number(id, task);
            self.processes.split(task, number);
            self.report_fork(id, task);
        }
    }

    /// The number of a child; nothing without a free number, or if the parent has none.
    fn fork_number(&mut self, parent: ProcessId, child: u32) -> Option<u8> {
        self.processes.get(parent).number?;
        let number = self.take_number();
        if number.is_none() {
            self.no_number(&format!("the start of process {child}"));
        }
        number
    }

    fn no_start(&mut self, thread: u32) {
        self.gap(&format!("process {thread}, whose start is not in the log, is taken for one that holds nothing"));
        let number = self.take_number();
        let id = self.processes.add(thread, number, None, self.run.uid);
        if let Some(number) = number {
            self.monitor.hold(number, "");
            self.name_process(id);
            self.perform(Operation::Fork { process: self.plan.recorder, child: number });
        }
    }

    /// The name of a process: the program that it runs, and the system's number.
    pub fn name_process(&mut self, id: ProcessId) {
        let process = self.processes.get(id);
        if let Some(number) = process.number {
            let program = if process.program.is_empty() { "process" } else { &process.program };
            self.monitor.rename(number, &format!("{program} ({})", process.pid));
        }
    }

    pub fn gone(&mut self, thread: u32) {
        self.cut_off(thread);
        let Some((id, last)) = self.processes.leave(thread) else { return };
        if last {
            self.before(id);
            self.after(id);
            self.ends(id);
        }
    }

    /// A process ends: what it alone had open is closed, then its number is free.
    fn ends(&mut self, id: ProcessId) {
        let (number, by) = (self.processes.get(id).number, self.acting(id));
        let closed = self.processes.remove(id);
        self.closed(by, closed);
        if let Some(process) = number {
            self.perform(Operation::End { process });
            self.monitor.leave(process);
        }
    }

    /// A thread is gone inside a call: what it was writing may have been written.
    fn cut_off(&mut self, thread: u32) {
        self.begun.remove(&thread);
        if let Some(pending) = self.take_pending(thread) {
            self.transferred(pending, 1);
        }
    }

    /// What a process with shared writable mappings may have read from them before an event.
    fn before(&mut self, process: ProcessId) {
        for file in self.shared(process) {
            self.read(process, file);
        }
    }

    /// What it may have written to them behind an event, or before it unmaps them.
    pub fn after(&mut self, process: ProcessId) {
        for file in self.shared(process) {
            self.write(process, file);
        }
    }

    fn shared(&self, process: ProcessId) -> Vec<FileId> {
        let mappings = self.processes.get(process).mappings.iter().filter(|mapping| mapping.writable);
        let mut files: Vec<FileId> = mappings.map(|mapping| self.files.root(mapping.file)).collect();
        files.sort_unstable();
        files.dedup();
        files
    }
}
