//! Takes up events: which container an object is, which flows are under way, and what follows from a container that has got more.

use std::collections::{BTreeSet, HashMap};

use yaslaurel::{Refusal, Verdict};

use crate::event::{Event, Flow, ObjectId, TaskId, Way};
use crate::files::{FileId, Sort};
use crate::names::Naming;
use crate::plan::Plan;
use crate::process::ProcessId;
use crate::recorder::{Recorder, Start};
use crate::report::Report;

/// A flow of a call that is not over.
#[derive(Clone, Copy)]
struct UnderWay {
    task: TaskId,
    flow: Flow,
}

/// A mapping of an object.
#[derive(Clone, Copy, PartialEq, Eq)]
struct Mapping {
    object: ObjectId,
    writable: bool,
}

/// A container that has got more than it had.
#[derive(Clone, Copy, PartialEq, Eq, PartialOrd, Ord)]
enum Grown {
    Process(ProcessId),
    File(FileId),
}

const UNKNOWN: &str = "an event of a task or an object that was not told before";

pub struct Ledger {
    pub recorder: Recorder,
    objects: Vec<FileId>,
    under_way: Vec<UnderWay>,
    mappings: HashMap<ProcessId, Vec<Mapping>>,
    /// The object at each name of the story.
    names: HashMap<Vec<u8>, Option<ObjectId>>,
    events: usize,
    /// The files that have got more and that nobody was asked about yet.
    grown: Vec<FileId>,
    /// The event by which something was last written to a file.
    written: HashMap<FileId, usize>,
}

impl Ledger {
    /// A ledger at the start of a run.
    pub fn start(plan: Plan, report: Report, run: Start) -> Result<Ledger, Refusal> {
        let recorder = Recorder::start(plan, report, run)?;
        let (objects, under_way, mappings, names, grown, written) = Default::default();
        // The first line of an event list is no event.
        Ok(Ledger { recorder, objects, under_way, mappings, names, events: 1, grown, written })
    }

    /// Takes up an event. Whether it is blocked: it must not be made then.
    pub fn event(&mut self, event: &Event) -> bool {
        self.events += 1;
        self.recorder.line = self.events;
        self.grown.clear();
        if event.object().is_some_and(|object| object >= self.objects.len()) {
            self.recorder.gap(UNKNOWN);
            return false;
        }
        match event {
            Event::First { .. } if self.recorder.processes.count() > 0 => self.recorder.gap("a second first task"),
            Event::First { task, user, folder } => self.recorder.first(*task, *user, folder),
            Event::Object { sort, label } => self.object(*sort, label),
            Event::Name { task, how, path, object } => return self.name(*task, how, path, *object),
            Event::Moved { task, flow } => return self.moved(*task, *flow, false),
            Event::Added { task, object } => {
                return self.moved(*task, Flow { way: Way::Out, object: *object }, true);
            }
            Event::Rewritten { task, object } => return self.rewritten(*task, *object),
            Event::Begun { task, flow } => {
                self.under_way.push(UnderWay { task: *task, flow: *flow });
                return self.moved(*task, *flow, false);
            }
            Event::Over { task } => self.under_way.retain(|flow| flow.task != *task),
            Event::Mapped { task, object, writable } => self.mapped(*task, *object, *writable),
            Event::Unmapped { task, object } => self.unmapped(*task, *object),
            Event::Emptied { object } => self.emptied(*object),
            Event::Born { parent, child, one_memory } => self.born(*parent, *child, *one_memory),
            Event::Executed { task, program, user, name } => self.executed(*task, *program, *user, name),
            Event::Renumbered { from, to } => self.renumbered(*from, *to),
            Event::Gone { task } => self.gone(*task),
            Event::Member { path, object } => self.member(path, *object),
            Event::Holds { object, source } => self.holds(*object, source),
            Event::Told { words } => self.recorder.gap(words),
            Event::Story { words } => self.recorder.report.story(words),
        }
        false
    }

    /// A line of an event list that is none.
    pub fn not_read(&mut self) {
        self.events += 1;
        self.recorder.line = self.events;
        self.recorder.gap("not a line of an event list");
    }

    /// How many events were taken up.
    pub fn events(&self) -> usize {
        self.events
    }

    /// The file of an object.
    fn file(&self, object: ObjectId) -> Option<FileId> {
        self.objects.get(object).copied()
    }

    /// Another object.
    fn object(&mut self, sort: Sort, label: &str) {
        let file = self.recorder.files.nameless(sort, label.to_string());
        self.recorder.files.get_mut(file).outside = true;
        self.objects.push(file);
    }

    /// Whether files have got more by what was taken up since the last answer.
    pub fn has_grown(&self) -> bool {
        !self.grown.is_empty()
    }

    /// Which of these objects have got more; they are told once.
    pub fn take_grown<T>(&mut self, asked: Vec<(T, ObjectId)>) -> Vec<(T, ObjectId)> {
        let grown = std::mem::take(&mut self.grown);
        let has =
            |object: ObjectId| self.file(object).is_some_and(|file| grown.contains(&self.recorder.files.root(file)));
        asked.into_iter().filter(|(_, object)| has(*object)).collect()
    }

    /// Whether something was written to an object behind an event.
    pub fn written_since(&self, object: ObjectId, event: usize) -> bool {
        let file = self.file(object).map(|file| self.recorder.files.root(file));
        file.and_then(|file| self.written.get(&file)).is_some_and(|last| *last > event)
    }

    /// Whether a read would leave a process as it is.
    pub fn reads_nothing_new(&self, task: TaskId, object: ObjectId) -> bool {
        let (Some(process), Some(file)) = (self.recorder.processes.of(task), self.file(object)) else { return false };
        let (process, file) = (self.recorder.processes.get(process).number, self.recorder.files.get(file).number);
        match (process, file) {
            (Some(process), Some(file)) => self.recorder.monitor.would_keep(process, file),
            // Without a number a file holds nothing.
            (process, None) => process.is_some(),
            _ => false,
        }
    }

    /// Whether a flow would change what its receiver has.
    pub fn would_change(&self, task: TaskId, flow: Flow) -> bool {
        let (Some(process), Some(file)) = (self.recorder.processes.of(task), self.file(flow.object)) else {
            return true;
        };
        let held = self.recorder.held_by(process);
        let (tag, truncated) = (self.recorder.held_in(file), self.recorder.files.get(file).truncated);
        match (held, tag, flow.way) {
            (Some(held), Some(tag), Way::In) => held | tag != held,
            (Some(held), Some(tag), Way::Out) => truncated || held | tag != tag,
            (_, None, Way::In) => false,
            (Some(held), None, Way::Out) => held != 0,
            (None, ..) => true,
        }
    }

    /// Whether the process of a task holds something of a source.
    pub fn holds_something(&self, task: TaskId) -> bool {
        self.recorder.processes.of(task).and_then(|process| self.recorder.held_by(process)) != Some(0)
    }

    /// Whether an object is a guarded file.
    pub fn guards(&self, object: ObjectId) -> bool {
        self.file(object).is_some_and(|file| self.recorder.is_guarded(file))
    }

    /// A write that begins with a truncation, which is not made if the write is blocked.
    fn rewritten(&mut self, task: TaskId, object: ObjectId) -> bool {
        self.emptied(object);
        let blocked = self.moved(task, Flow { way: Way::Out, object }, false);
        if let Some(file) = self.file(object).filter(|_| blocked) {
            self.recorder.truncated(file, false);
        }
        blocked
    }

    /// Carries data and then whatever follows from it.
    fn moved(&mut self, task: TaskId, flow: Flow, adds: bool) -> bool {
        let (Some(process), Some(file)) = (self.recorder.processes.of(task), self.file(flow.object)) else {
            self.recorder.gap(UNKNOWN);
            return false;
        };
        let mut grown = BTreeSet::new();
        let blocked = self.carry(process, flow.way, file, adds, &mut grown);
        self.spread(grown);
        blocked
    }

    /// Reports a flow, and notes what has grown by it. Whether it is blocked.
    fn carry(&mut self, process: ProcessId, way: Way, file: FileId, adds: bool, grown: &mut BTreeSet<Grown>) -> bool {
        let recorder = &mut self.recorder;
        let before = match way {
            Way::In => recorder.row_of_process(process),
            Way::Out => recorder.row_of_file(file),
        };
        let verdict = match way {
            Way::In => recorder.read(process, file),
            Way::Out if adds => recorder.append(process, file),
            Way::Out => recorder.write(process, file),
        };
        if way == Way::Out {
            self.written.insert(self.recorder.files.root(file), self.events);
        }
        let recorder = &self.recorder;
        let (after, receiver) = match way {
            Way::In => (recorder.row_of_process(process), Grown::Process(process)),
            Way::Out => (recorder.row_of_file(file), Grown::File(recorder.files.root(file))),
        };
        if before != after {
            grown.insert(receiver);
            if let Grown::File(file) = receiver {
                self.grown.push(file);
            }
        }
        // What cannot be judged is not made either.
        way == Way::Out && self.recorder.is_guarded(file) && verdict != Some(Verdict::Quiet)
    }

    /// What has grown goes on along the flows that are under way and the mappings.
    fn spread(&mut self, mut grown: BTreeSet<Grown>) {
        while let Some(next) = grown.pop_first() {
            for (process, way, file) in self.onward(next) {
                self.carry(process, way, file, false, &mut grown);
            }
        }
    }

    /// Where something goes on that has grown.
    fn onward(&self, grown: Grown) -> Vec<(ProcessId, Way, FileId)> {
        let recorder = &self.recorder;
        let root = |object: ObjectId| recorder.files.root(self.objects[object]);
        let of = |task| recorder.processes.of(task);
        match grown {
            Grown::Process(process) => {
                let calls =
                    self.under_way.iter().filter(|flow| flow.flow.way == Way::Out && of(flow.task) == Some(process));
                let mapped = self.mappings.get(&process).into_iter().flatten().filter(|mapping| mapping.writable);
                let objects = calls.map(|flow| flow.flow.object).chain(mapped.map(|mapping| mapping.object));
                objects.map(|object| (process, Way::Out, root(object))).collect()
            }
            Grown::File(file) => {
                let calls =
                    self.under_way.iter().filter(|flow| flow.flow.way == Way::In && root(flow.flow.object) == file);
                let mut found: Vec<_> = calls.filter_map(|flow| of(flow.task)).collect();
                let maps = |list: &[Mapping]| list.iter().any(|mapping| root(mapping.object) == file);
                found.extend(self.mappings.iter().filter(|(_, list)| maps(list)).map(|(process, _)| *process));
                found.sort_unstable();
                found.dedup();
                found.into_iter().map(|process| (process, Way::In, file)).collect()
            }
        }
    }

    /// An object is mapped into the memory of a task.
    fn mapped(&mut self, task: TaskId, object: ObjectId, writable: bool) {
        let Some(process) = self.recorder.processes.of(task) else { return };
        let (list, mapping) = (self.mappings.entry(process).or_default(), Mapping { object, writable });
        if list.contains(&mapping) {
            // What either side has got since then has gone along already.
            return;
        }
        list.push(mapping);
        self.moved(task, Flow { way: Way::In, object }, false);
        if writable {
            self.moved(task, Flow { way: Way::Out, object }, true);
        }
    }

    /// It no longer is.
    fn unmapped(&mut self, task: TaskId, object: ObjectId) {
        if let Some(list) = self.recorder.processes.of(task).and_then(|process| self.mappings.get_mut(&process)) {
            list.retain(|mapping| mapping.object != object);
        }
    }

    /// The objects that a task has mapped, shared and writable.
    pub fn mapped_by(&self, task: TaskId) -> Vec<ObjectId> {
        let list = self.recorder.processes.of(task).and_then(|process| self.mappings.get(&process));
        list.into_iter().flatten().filter(|mapping| mapping.writable).map(|mapping| mapping.object).collect()
    }

    /// Whether somebody has an object mapped, shared and writable.
    pub fn is_mapped_to_write(&self, object: ObjectId) -> bool {
        self.mappings.values().flatten().any(|mapping| mapping.writable && mapping.object == object)
    }

    /// The next write is the first of an empty file, unless others are just writing to it.
    fn emptied(&mut self, object: ObjectId) {
        let Some(file) = self.file(object) else { return };
        let out = self.under_way.iter().filter(|flow| flow.flow.way == Way::Out).map(|flow| flow.flow.object);
        let mapped = self.mappings.values().flatten().filter(|mapping| mapping.writable).map(|mapping| mapping.object);
        let busy = out.chain(mapped).any(|other| self.file(other) == Some(file));
        self.recorder.truncated(file, !busy);
    }

    /// A task has a child.
    fn born(&mut self, parent: TaskId, child: TaskId, one_memory: bool) {
        if self.recorder.processes.of(child).is_some() {
            self.recorder.gap(&format!("process {child} starts once more, and its end was not told"));
            self.gone(child);
        }
        let before = self.recorder.processes.of(parent);
        self.recorder.born(parent, child, one_memory);
        let (Some(before), Some(after)) = (before, self.recorder.processes.of(child)) else { return };
        if before != after {
            let list = self.mappings.get(&before).cloned().unwrap_or_default();
            self.mappings.insert(after, list);
        }
    }

    /// A task has executed a program.
    fn executed(&mut self, task: TaskId, program: ObjectId, user: u32, name: &str) {
        let Some(file) = self.file(program) else { return };
        self.under_way.retain(|flow| flow.task != task);
        self.recorder.split(task);
        if let Some(process) = self.recorder.processes.of(task) {
            self.mappings.remove(&process);
            let found = self.recorder.processes.get_mut(process);
            found.uid = Some(user);
            found.program = name.into();
            self.recorder.exec(process, task, file);
        }
    }

    /// A task goes on under another number.
    fn renumbered(&mut self, from: TaskId, to: TaskId) {
        if from == to || self.recorder.processes.of(from).is_none() {
            return self.recorder.gap(UNKNOWN);
        }
        // What had the number is gone, whether that was told or not.
        self.gone(to);
        self.recorder.processes.renumber(from, to);
        for flow in self.under_way.iter_mut().filter(|flow| flow.task == from) {
            flow.task = to;
        }
    }

    /// Whether a call of a task is under way.
    pub fn has_under_way(&self, task: TaskId) -> bool {
        self.under_way.iter().any(|flow| flow.task == task)
    }

    /// A task is gone.
    fn gone(&mut self, task: TaskId) {
        self.under_way.retain(|flow| flow.task != task);
        let process = self.recorder.processes.of(task);
        self.recorder.gone(task);
        if let Some(process) = process.filter(|process| !self.recorder.processes.is_there(*process)) {
            self.mappings.remove(&process);
        }
    }

    /// A name of the story leads to another object.
    fn name(&mut self, task: Option<TaskId>, how: &str, path: &[u8], object: Option<ObjectId>) -> bool {
        let file = object.and_then(|object| self.file(object));
        let process = task.and_then(|task| self.recorder.processes.of(task));
        let before = self.at_name(path);
        match (self.recorder.named(process, how, path, file), object) {
            (Naming::Blocked, _) => return true,
            (Naming::Is { container, before: kept }, Some(object)) => {
                if let (Some(before), Some(kept)) = (before, kept) {
                    self.objects[before] = kept;
                }
                self.objects[object] = container;
            }
            _ => {}
        }
        self.names.insert(path.to_vec(), object);
        false
    }

    /// An object that was below a folder of the story is the folder's container.
    fn member(&mut self, path: &[u8], object: ObjectId) {
        if let (Some(container), Some(place)) = (self.recorder.story_file(path), self.objects.get_mut(object)) {
            *place = container;
        }
    }

    /// An object holds a source from an earlier run.
    fn holds(&mut self, object: ObjectId, source: &str) {
        if let Some(file) = self.file(object) {
            self.recorder.held_before(file, source);
        }
    }

    /// What each object holds, by the names of sources.
    pub fn holdings(&self, object: ObjectId) -> Vec<String> {
        self.file(object).map_or_else(Vec::new, |file| self.recorder.sources_of(file))
    }

    /// The object at a name of the story.
    pub fn at_name(&self, path: &[u8]) -> Option<ObjectId> {
        self.names.get(path).copied().flatten()
    }

    /// All of the run has been told.
    pub fn end(&mut self) {
        self.under_way.clear();
        self.recorder.end();
    }
}
