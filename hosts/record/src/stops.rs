//! The loop of stops: tasks come and go, calls begin and end, all in the one order in which the kernel reports them.

use std::collections::{BTreeSet, HashMap, HashSet, VecDeque};
use std::ffi::OsString;
use std::io::{self, Write};

use crate::event::{Event, Flow, ObjectId, TaskId, Way};
use crate::event_list;
use crate::filter;
use crate::guard::{Recent, Truncation};
use crate::ledger::Ledger;
use crate::look::{self, Found, Key, Seen};
use crate::meaning::{self, After, Call, Then};
use crate::path;
use crate::plan::StoryFile;
use crate::sockets::Sockets;
use crate::state::{Holder, State};
use crate::sys::{self, Started, Stop, Tid, Until};

/// How a command ended.
#[derive(Clone, Copy, Debug, PartialEq, Eq)]
pub enum Ended {
    Exit(i32),
    Signal(i32),
}

pub struct Task {
    pub memory: usize,
    /// The call that it is in, if its end is waited for.
    pub call: Option<Call>,
    /// Whether it was told that it cannot be looked into.
    pub hidden: bool,
    /// Whether it is not stopped.
    pub running: bool,
    /// The child that it waits for inside its call.
    pub vfork: Option<Tid>,
    /// The descriptors that the last call uses or moves which was let go on; it may not have looked at them yet.
    pub recent: Option<Recent>,
    /// What its last call reads, if it brought nothing new when it began and its end is not waited for.
    pub reads: Option<ObjectId>,
    /// What its last call writes, if its end is not waited for.
    pub writes: Option<ObjectId>,
}

impl Task {
    /// A task of a memory, that runs.
    fn new(memory: usize) -> Task {
        Task { memory, call: None, hidden: false, running: true, vfork: None, recent: None, reads: None, writes: None }
    }
}

/// A memory: how many tasks have it, and whether others can change it.
#[derive(Clone, Copy, Debug, Default)]
pub struct Memory {
    pub tasks: usize,
    pub shared: bool,
}

/// A name of the story, and what was last seen there.
pub struct StoryName {
    pub path: Vec<u8>,
    pub key: Option<Key>,
    /// Whether it stands for all files below a folder.
    pub folder: bool,
    pub guarded: bool,
}

impl StoryName {
    /// A name of the story at which nothing was seen yet.
    fn new(file: &StoryFile) -> StoryName {
        StoryName { path: file.written.clone(), key: None, folder: file.folder, guarded: file.guarded }
    }
}

pub struct Tracer {
    pub ledger: Ledger,
    pub guard: bool,
    pub strict: bool,
    kept: Option<Box<dyn Write>>,
    failure: Option<io::Error>,
    pub tasks: HashMap<Tid, Task>,
    pub memories: HashMap<usize, Memory>,
    next_memory: usize,
    objects: HashMap<Key, ObjectId>,
    next_object: ObjectId,
    /// The paths of plain files.
    labels: HashMap<ObjectId, Vec<u8>>,
    pub sockets: Sockets,
    pub names: Vec<StoryName>,
    /// The files that were below folders of the story at the start, with the folder's path.
    members: HashMap<Key, Vec<u8>>,
    /// What files hold from earlier runs.
    pub state: State,
    /// How often names have changed.
    pub changes: u64,
    /// Children that have stopped before their parent's call said so.
    early: HashSet<Tid>,
    /// Stops that were taken up while a task was waited for.
    pub queue: VecDeque<(Tid, Stop)>,
    /// The task that just changes names, and those that wait to do so.
    pub naming: Option<Tid>,
    waiting: VecDeque<Tid>,
    /// Truncations of guarded files that wait for the first write.
    pub truncations: Vec<Truncation>,
    /// The task that goes on alone while its call is judged and made.
    pub frozen: Option<Tid>,
    executed: bool,
    /// How many symbolic links were made.
    pub links: u64,
    /// Numbers for memory that processes share with their children.
    pub anonymous: u64,
    /// The number of the call that begins.
    pub number: libc::c_long,
    /// Files whose pages were put into a pipe or sent.
    pub spliced: HashSet<ObjectId>,
    /// Values of the system.
    pub system: HashSet<ObjectId>,
    stopped: bool,
}

impl Tracer {
    /// A tracer at the start of a run.
    pub fn new(ledger: Ledger, guard: bool, strict: bool, kept: Option<Box<dyn Write>>) -> Tracer {
        let story = &ledger.recorder.plan.files;
        let names = story.iter().map(StoryName::new).collect();
        let (tasks, memories, objects, sockets, early, queue, waiting) = Default::default();
        Tracer {
            ledger,
            guard,
            strict,
            kept,
            failure: None,
            tasks,
            memories,
            next_memory: 0,
            objects,
            next_object: 0,
            labels: HashMap::new(),
            sockets,
            names,
            members: HashMap::new(),
            state: State::default(),
            changes: 0,
            early,
            queue,
            naming: None,
            waiting,
            truncations: Vec::new(),
            frozen: None,
            executed: false,
            links: 0,
            anonymous: 0,
            number: 0,
            spliced: HashSet::new(),
            system: HashSet::new(),
            stopped: false,
        }
    }

    /// Takes up an event and keeps it, if events are kept. Whether it is blocked.
    pub fn emit(&mut self, event: Event) -> bool {
        self.keep(&event);
        let blocked = self.ledger.event(&event);
        self.catch_up();
        blocked
    }

    /// Writes an event down, if events are kept.
    fn keep(&mut self, event: &Event) {
        if let Some(kept) = &mut self.kept {
            if let Err(error) = event_list::write(kept, event) {
                self.failure.get_or_insert(error);
            }
        }
    }

    /// Files have got more: reads of them that were let go on, and that may not be over, get it too.
    fn catch_up(&mut self) {
        while self.ledger.has_grown() {
            let reads = self.tasks.iter().filter_map(|(task, found)| Some((*task, found.reads?))).collect();
            let reads = self.ledger.take_grown(reads);
            for (task, object) in reads.into_iter().filter(|(task, _)| look::may_be_in(*task, &look::READS)) {
                let event = Event::Moved { task: task as TaskId, flow: Flow { way: Way::In, object } };
                self.keep(&event);
                self.ledger.event(&event);
            }
        }
    }

    /// Tells something that is not followed.
    pub fn tell(&mut self, words: impl Into<String>) {
        self.emit(Event::Told { words: words.into() });
    }

    /// Runs a command to its end, and watches all that it starts.
    pub fn run(&mut self, command: &[OsString], user: u32, folder: Vec<u8>) -> io::Result<Ended> {
        let filter = filter::build(self.guard);
        let mut started = sys::start(command, &filter, !self.guard)?;
        sys::note_interrupts();
        let first = started.task;
        self.memories.insert(0, Memory { tasks: 1, shared: false });
        self.tasks.insert(first, Task::new(0));
        self.emit(Event::First { task: first as TaskId, user, folder });
        self.check_names(None, "the start");
        self.find_members();
        let ended = self.watch(&mut started)?;
        if let Some(kept) = &mut self.kept {
            kept.flush()?;
        }
        self.failure.take().map_or(Ok(ended), Err)
    }

    /// Takes up stops until no task is left.
    fn watch(&mut self, started: &mut Started) -> io::Result<Ended> {
        let mut ended = None;
        while let Some((task, stop)) = self.next(ended.is_some())? {
            match stop {
                Stop::Exited { code } if task == started.task => ended = Some(Ended::Exit(code)),
                Stop::Killed { signal, .. } if task == started.task => ended = Some(Ended::Signal(signal)),
                _ => {}
            }
            self.stop(task, stop);
            if task == started.task && ended.is_some() {
                self.tell_rest();
            }
            self.end_if_strict();
            self.ledger.recorder.progress();
        }
        match started.failure() {
            Some(error) => Err(error),
            None => ended.ok_or_else(|| io::Error::other("the command has ended unseen")),
        }
    }

    /// The next stop. An interrupt behind the command's end, or a request to end, ends what is left.
    fn next(&mut self, ended: bool) -> io::Result<Option<(Tid, Stop)>> {
        if self.frozen.is_none() {
            if let Some(next) = self.queue.pop_front() {
                return Ok(Some(next));
            }
        }
        loop {
            match sys::wait(self.frozen) {
                Err(error) if error.kind() == io::ErrorKind::Interrupted => {
                    if sys::terminated() || sys::interrupted() && ended {
                        self.end_all();
                    }
                }
                found => return found,
            }
        }
    }

    /// Ends all tasks.
    fn end_all(&self) {
        self.tasks.keys().for_each(|task| sys::kill(*task));
    }

    /// With `--strict` the first thing that is not followed ends the run.
    fn end_if_strict(&mut self) {
        if self.strict && !self.stopped && self.ledger.recorder.report.incomplete() {
            self.stopped = true;
            self.end_all();
        }
    }

    /// The command has ended, and processes of it go on.
    fn tell_rest(&mut self) {
        let memories: HashSet<usize> = self.tasks.values().map(|task| task.memory).collect();
        if !memories.is_empty() {
            let processes = if memories.len() == 1 { "process is" } else { "processes are" };
            let words =
                format!("the command has ended, {} {processes} still watched: an interrupt ends them", memories.len());
            self.ledger.recorder.report.line(&words);
        }
    }

    /// Takes up a stop of a task.
    fn stop(&mut self, task: Tid, stop: Stop) {
        if let Stop::Exited { .. } | Stop::Killed { .. } = stop {
            if let Stop::Killed { core: true, .. } = stop {
                self.core_dump(task);
            }
            return self.gone(task);
        }
        let Some(known) = self.tasks.get_mut(&task) else {
            // A child before its parent's call has said so: it waits.
            self.early.insert(task);
            return;
        };
        known.running = false;
        (known.recent, known.reads, known.writes) = (None, None, None);
        match stop {
            Stop::Filter => self.call_begins(task),
            Stop::CallEnd => self.call_ends(task),
            Stop::Birth { vfork } => self.born(task, vfork),
            Stop::Exec => self.executed(task),
            Stop::Group => sys::listen(task),
            Stop::Signal { signal } => self.resume(task, signal),
            _ => self.resume(task, 0),
        }
    }

    /// Lets a task go on, with a signal or without.
    pub fn resume(&mut self, task: Tid, signal: i32) {
        if let Some(found) = self.tasks.get_mut(&task) {
            let until = if found.call.is_some() { Until::CallEnd } else { Until::NextCall };
            found.running = true;
            sys::resume(task, until, signal);
        }
    }

    /// A call begins that the filter has stopped.
    fn call_begins(&mut self, task: Tid) {
        let Ok(info) = sys::call_info(task) else { return self.resume(task, 0) };
        if !self.executed && !meaning::is_exec(&info) {
            return self.resume(task, 0);
        }
        let meaning = meaning::of(&info);
        self.number = info.number as libc::c_long;
        if meaning::changes_names(meaning, self.guard) {
            if self.naming.is_some_and(|other| other != task) {
                self.waiting.push_back(task);
                return;
            }
            self.naming = Some(task);
        }
        let then = match meaning {
            Some(meaning) => self.begins(task, meaning, &info.arguments),
            None => self.unknown(task, &info),
        };
        match then {
            Then::Free => {
                if self.guard && !self.is_alone(task) {
                    self.note_descriptors(task, meaning, &info.arguments);
                }
                self.call_left(task);
            }
            Then::Refuse(error) => {
                self.refuse(task, error);
                self.call_left(task);
            }
            Then::Wait(after) => {
                if let (Some(found), Some(meaning)) = (self.tasks.get_mut(&task), meaning) {
                    found.call = Some(Call { meaning, arguments: info.arguments, after });
                }
            }
        }
        self.resume(task, 0);
    }

    /// Lets a call fail without being made.
    fn refuse(&mut self, task: Tid, error: i32) {
        let changed = sys::registers(task).and_then(|mut registers| {
            registers.orig_rax = u64::MAX;
            registers.rax = (-i64::from(error)) as u64;
            sys::set_registers(task, &registers)
        });
        if changed.is_err() {
            // It was killed meanwhile.
            self.end_flows(task);
        }
    }

    /// A call whose end was waited for has ended.
    fn call_ends(&mut self, task: Tid) {
        let call = self.tasks.get_mut(&task).and_then(|found| found.call.take());
        if let Some(call) = call {
            let result = sys::registers(task).map_or(-i64::from(libc::ESRCH), |registers| registers.rax as i64);
            self.ends(task, call, result);
        }
        self.end_flows(task);
        self.call_left(task);
        self.resume(task, 0);
    }

    /// Others may go on that have waited for a call.
    fn call_left(&mut self, task: Tid) {
        self.thaw(task);
        self.names_done(task);
    }

    /// The flows of a task's call are over.
    pub fn end_flows(&mut self, task: Tid) {
        if self.ledger.has_under_way(task as TaskId) {
            self.emit(Event::Over { task: task as TaskId });
        }
    }

    /// Lets the next of those change names that wait for it.
    fn names_done(&mut self, task: Tid) {
        if self.naming == Some(task) {
            self.naming = None;
            while let Some(next) = self.waiting.pop_front() {
                if self.tasks.contains_key(&next) {
                    self.call_begins(next);
                    break;
                }
            }
        }
    }

    /// A task has a child.
    fn born(&mut self, parent: Tid, vfork: bool) {
        let (Ok(child), Some(memory)) = (sys::event_message(parent), self.tasks.get(&parent).map(|task| task.memory))
        else {
            return self.resume(parent, 0);
        };
        // The kernel says whether they share memory; where it does not, the call does.
        let one_memory = sys::share_memory(parent, child).unwrap_or_else(|_| vfork || meaning::clones_memory(parent));
        let memory = if one_memory { memory } else { self.fork_memory(memory) };
        self.memories.entry(memory).or_default().tasks += 1;
        let running = self.early.remove(&child);
        self.tasks.insert(child, Task::new(memory));
        if let Some(parent) = self.tasks.get_mut(&parent).filter(|_| vfork) {
            parent.vfork = Some(child);
        }
        if self.guard && !one_memory && sys::share_descriptors(parent, child).unwrap_or(true) {
            self.share(parent);
            self.share(child);
        }
        self.emit(Event::Born { parent: parent as TaskId, child: child as TaskId, one_memory });
        if running {
            sys::resume(child, Until::NextCall, 0);
        }
        self.resume(parent, 0);
    }

    /// Others can change what a task has while it is in a call.
    pub fn share(&mut self, task: Tid) {
        let memory = self.tasks.get(&task).map(|task| task.memory);
        if let Some(memory) = memory.and_then(|memory| self.memories.get_mut(&memory)) {
            memory.shared = true;
        }
    }

    /// A child that others wait for inside their call goes its own way.
    fn release(&mut self, child: Tid) {
        for task in self.tasks.values_mut().filter(|task| task.vfork == Some(child)) {
            task.vfork = None;
        }
    }

    /// A memory of its own for a child.
    fn fork_memory(&mut self, parent: usize) -> usize {
        self.next_memory += 1;
        let shared = self.memories.get(&parent).is_some_and(|memory| memory.shared);
        self.memories.insert(self.next_memory, Memory { tasks: 0, shared });
        self.next_memory
    }

    /// A task no longer has a memory.
    fn leave_memory(&mut self, memory: usize) {
        if let Some(found) = self.memories.get_mut(&memory) {
            found.tasks -= 1;
            if found.tasks == 0 {
                self.memories.remove(&memory);
            }
        }
    }

    /// A task has executed a program: it has a memory of its own.
    fn executed(&mut self, task: Tid) {
        self.executed = true;
        let before = sys::event_message(task).unwrap_or(task);
        if before != task {
            // A thread that is not the first one has the number of the first now.
            if let Some(found) = self.tasks.remove(&before) {
                self.gone(task);
                self.emit(Event::Renumbered { from: before as TaskId, to: task as TaskId });
                self.tasks.insert(task, found);
            }
        }
        self.release(task);
        let Some(found) = self.tasks.get_mut(&task) else { return };
        let (memory, call) = (found.memory, found.call.take());
        found.hidden = false;
        self.leave_memory(memory);
        self.next_memory += 1;
        let memory = self.next_memory;
        self.memories.insert(memory, Memory { tasks: 1, shared: false });
        if let Some(found) = self.tasks.get_mut(&task) {
            found.memory = memory;
        }
        match call.map(|call| call.after) {
            Some(After::Executes { program, name }) => self.execute(task, program, name),
            _ => self.tell(format!("process {task} executes a program that was not seen")),
        }
        self.call_left(task);
        self.truncate_unheld(task);
        self.resume(task, 0);
    }

    /// Tells which program a task has executed, and what the kernel has mapped for it.
    fn execute(&mut self, task: Tid, program: Option<ObjectId>, name: String) {
        let user = if self.ledger.recorder.plan.names_uids() { look::user(task).unwrap_or(u32::MAX) } else { 0 };
        let mapped: Vec<ObjectId> = match look::mapped(task) {
            Some(mapped) => mapped.into_iter().map(|(found, name)| self.object(&found, || name)).collect(),
            None => {
                self.tell(format!("process {task} runs {name}, which this program may not look into"));
                Vec::new()
            }
        };
        let Some(program) = program.or_else(|| mapped.first().copied()) else { return };
        self.emit(Event::Executed { task: task as TaskId, program, user, name });
        for object in mapped {
            self.emit(Event::Mapped { task: task as TaskId, object, writable: false });
        }
    }

    /// A task is gone.
    fn gone(&mut self, task: Tid) {
        self.early.remove(&task);
        let Some(found) = self.tasks.remove(&task) else { return };
        self.release(task);
        self.leave_memory(found.memory);
        self.truncate_unheld(task);
        self.emit(Event::Gone { task: task as TaskId });
        self.call_left(task);
    }

    /// Tells a core dump.
    fn core_dump(&mut self, task: Tid) {
        self.tell(format!("process {task} has left a core dump, which has what it held"));
    }

    /// The number of an object; at first sight it is a new one, with a name for people.
    pub fn object(&mut self, found: &Found, name: impl FnOnce() -> Vec<u8>) -> ObjectId {
        match self.objects.get(&found.key) {
            Some(object) => *object,
            None => self.new_object(found, &name()),
        }
    }

    /// A new object, whatever had its identity before.
    pub fn new_object(&mut self, found: &Found, name: &[u8]) -> ObjectId {
        let object = self.next_object;
        self.next_object += 1;
        self.objects.insert(found.key.clone(), object);
        if found.plain {
            self.labels.insert(object, name.to_vec());
        }
        if let Key::System(_) = found.key {
            self.system.insert(object);
        }
        // A file in memory is gone with its last descriptor.
        let sort = if name.starts_with(b"/memfd:") { crate::files::Sort::Passing } else { found.sort };
        self.emit(Event::Object { sort, label: path::shown(name) });
        if let Some(path) = self.members.get(&found.key).cloned() {
            self.emit(Event::Member { path, object });
        }
        let before = Holder::of(&found.key).and_then(|holder| self.state.files.get(&holder)).map(|file| file.1.clone());
        for source in before.into_iter().flatten() {
            self.emit(Event::Holds { object, source });
        }
        object
    }

    /// What files hold at the end of the run; those that it has not seen hold what they held before.
    pub fn holdings(&self) -> State {
        let mut state = self.state.clone();
        for (key, object) in &self.objects {
            let Some(holder) = Holder::of(key) else { continue };
            let sources: BTreeSet<String> = self.ledger.holdings(*object).into_iter().collect();
            match self.labels.get(object) {
                Some(path) if !sources.is_empty() => drop(state.files.insert(holder, (path.clone(), sources))),
                _ => drop(state.files.remove(&holder)),
            }
        }
        state
    }

    /// Whether an object is a plain file.
    pub fn is_plain(&self, object: ObjectId) -> bool {
        self.labels.contains_key(&object)
    }

    /// An object has another identity too.
    pub fn same_object(&mut self, key: Key, object: ObjectId) {
        self.objects.entry(key).or_insert(object);
    }

    /// The object of an identity, if it was seen.
    pub fn known(&self, key: &Key) -> Option<ObjectId> {
        self.objects.get(key).copied()
    }

    /// The identity of an object.
    pub fn key_of(&self, object: ObjectId) -> Option<Key> {
        self.objects.iter().find(|(_, other)| **other == object).map(|(key, _)| key.clone())
    }

    /// Data moves between a task and an object. Whether it is blocked.
    pub fn moved(&mut self, task: Tid, way: Way, object: ObjectId) -> bool {
        self.emit(Event::Moved { task: task as TaskId, flow: Flow { way, object } })
    }

    /// The same, from here on until the call is over.
    pub fn begun(&mut self, task: Tid, way: Way, object: ObjectId) -> bool {
        self.emit(Event::Begun { task: task as TaskId, flow: Flow { way, object } })
    }

    /// Data moves between a task and several objects.
    pub fn moved_all(&mut self, task: Tid, way: Way, objects: &[ObjectId]) {
        for object in objects {
            self.moved(task, way, *object);
        }
    }

    /// The same, until the call is over.
    pub fn begun_all(&mut self, task: Tid, way: Way, objects: &[ObjectId]) {
        for object in objects {
            self.begun(task, way, *object);
        }
    }

    /// Notes the files below the folders of the story.
    fn find_members(&mut self) {
        let folders: Vec<Vec<u8>> =
            self.names.iter().filter(|name| name.folder).map(|name| name.path.clone()).collect();
        for folder in folders {
            let (found, all) = look::below(&folder);
            if !all {
                self.tell(format!("{}: not all files below it could be looked at", path::shown(&folder)));
            }
            self.members.extend(found.into_iter().map(|key| (key, folder.clone())));
        }
    }

    /// Asks which file is at each name of the story now.
    pub fn check_names(&mut self, task: Option<Tid>, how: &str) {
        self.changes += 1;
        for place in 0..self.names.len() {
            let path = self.names[place].path.clone();
            let found = match look::at(task.unwrap_or(0), &path, true) {
                Seen::Object(found) if found.is_folder == self.names[place].folder => Some(found),
                Seen::Object(found) if found.is_folder && task.is_none() => {
                    let shown = path::shown(&path);
                    self.emit(Event::Story {
                        words: format!("{shown} is a folder; {shown}/ would stand for all files below it"),
                    });
                    None
                }
                _ => None,
            };
            let key = found.as_ref().map(|found| found.key.clone());
            if key != self.names[place].key {
                self.names[place].key = key;
                let object = found.map(|found| self.object(&found, || path.clone()));
                self.emit(Event::Name { task: task.map(|task| task as TaskId), how: how.into(), path, object });
            }
        }
    }

    /// Whether no other task and nobody else can change what a task's memory has while it is in a call.
    pub fn is_alone(&self, task: Tid) -> bool {
        let memory = self.tasks.get(&task).and_then(|task| self.memories.get(&task.memory));
        memory.is_some_and(|memory| memory.tasks == 1 && !memory.shared)
    }

    /// A call that is not in the table.
    fn unknown(&mut self, task: Tid, info: &sys::CallInfo) -> Then {
        let words = meaning::not_in_the_table(info);
        self.tell(words);
        if self.number == libc::SYS_ptrace && info.arguments[1] as Tid == meaning::own() {
            return self.refuse_own(task);
        }
        if self.guard {
            Then::Refuse(libc::ENOSYS)
        } else {
            Then::Free
        }
    }
}
