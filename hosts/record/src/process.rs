//! Processes with their threads, descriptors and shared mappings.

use std::collections::{BTreeMap, HashMap};
use std::ops::Range;

use crate::files::FileId;

/// The place of a process among all that were seen: a number of the system may come again.
pub type ProcessId = usize;

#[derive(Clone, Copy, Debug)]
pub struct Descriptor {
    /// What it stands for; nothing for what is no container.
    pub file: Option<FileId>,
    pub close_on_exec: bool,
}

/// A shared mapping of a file or of memory.
#[derive(Clone, Debug)]
pub struct Mapping {
    pub at: Range<u64>,
    pub file: FileId,
    pub writable: bool,
}

#[derive(Clone, Debug)]
pub struct Process {
    /// Its container; nothing if there was no free number.
    pub number: Option<u8>,
    /// The system's number.
    pub pid: u32,
    pub program: String,
    pub threads: usize,
    pub folder: Option<Vec<u8>>,
    pub uid: Option<u32>,
    pub mappings: Vec<Mapping>,
    table: usize,
}

#[derive(Clone, Debug, Default)]
struct Table {
    /// How many processes share it.
    sharers: usize,
    descriptors: BTreeMap<i32, Descriptor>,
}

/// What a clone shares.
#[derive(Clone, Copy, Debug)]
pub struct Shares {
    pub process: bool,
    pub descriptors: bool,
}

#[derive(Default)]
pub struct Processes {
    all: HashMap<ProcessId, Process>,
    threads: HashMap<u32, ProcessId>,
    tables: HashMap<usize, Table>,
    next: usize,
}

impl Processes {
    /// A process that none of the others has started.
    pub fn add(&mut self, thread: u32, number: Option<u8>, folder: Option<Vec<u8>>, uid: Option<u32>) -> ProcessId {
        let (id, table) = (self.next, self.next);
        self.next += 1;
        self.tables.insert(table, Table { sharers: 1, ..Table::default() });
        let (program, mappings) = (String::new(), Vec::new());
        self.all.insert(id, Process { number, pid: thread, program, threads: 1, folder, uid, mappings, table });
        self.threads.insert(thread, id);
        id
    }

    pub fn thread(&mut self, thread: u32, process: ProcessId) {
        self.threads.insert(thread, process);
        self.all.get_mut(&process).expect("the process is there").threads += 1;
    }

    /// The child of a process, with the files that are open once more.
    pub fn fork(&mut self, parent: ProcessId, thread: u32, number: Option<u8>, shares: Shares) -> Vec<FileId> {
        let id = self.next;
        self.next += 1;
        let parent = &self.all[&parent];
        let mut opened: Vec<FileId> = parent.mappings.iter().map(|mapping| mapping.file).collect();
        let mut child = Process { number, pid: thread, threads: 1, ..parent.clone() };
        if shares.descriptors {
            self.tables.get_mut(&child.table).expect("the table is there").sharers += 1;
        } else {
            let table = Table { sharers: 1, ..self.tables[&child.table].clone() };
            opened.extend(table.descriptors.values().filter_map(|descriptor| descriptor.file));
            self.tables.insert(id, table);
            child.table = id;
        }
        self.all.insert(id, child);
        self.threads.insert(thread, id);
        opened
    }

    /// A thread becomes a process of its own.
    pub fn split(&mut self, thread: u32, number: Option<u8>) {
        if let Some(id) = self.threads.get(&thread).copied() {
            self.get_mut(id).threads -= 1;
            self.fork(id, thread, number, Shares { process: false, descriptors: false });
        }
    }

    /// A thread goes on under another number.
    pub fn renumber(&mut self, from: u32, to: u32) {
        if let Some(id) = self.threads.remove(&from) {
            self.threads.insert(to, id);
        }
    }

    pub fn is_there(&self, id: ProcessId) -> bool {
        self.all.contains_key(&id)
    }

    pub fn of(&self, thread: u32) -> Option<ProcessId> {
        self.threads.get(&thread).copied()
    }

    pub fn get(&self, id: ProcessId) -> &Process {
        &self.all[&id]
    }

    pub fn get_mut(&mut self, id: ProcessId) -> &mut Process {
        self.all.get_mut(&id).expect("the process is there")
    }

    /// The processes that have a file mapped, shared, only to read it.
    pub fn mapped_to_read(&self, is_file: impl Fn(FileId) -> bool) -> Vec<ProcessId> {
        let reads =
            |process: &Process| process.mappings.iter().any(|mapping| !mapping.writable && is_file(mapping.file));
        let mut found: Vec<ProcessId> =
            self.all.iter().filter(|(_, process)| reads(process)).map(|(id, _)| *id).collect();
        found.sort_unstable();
        found
    }

    /// The system's numbers of the processes that are there.
    pub fn pids(&self) -> Vec<u32> {
        let mut pids: Vec<u32> = self.all.values().map(|process| process.pid).collect();
        pids.sort_unstable();
        pids
    }

    pub fn count(&self) -> usize {
        self.all.len()
    }

    /// A thread has left; whether it was the last one of its process.
    pub fn leave(&mut self, thread: u32) -> Option<(ProcessId, bool)> {
        let id = self.threads.remove(&thread)?;
        let process = self.get_mut(id);
        process.threads = process.threads.saturating_sub(1);
        Some((id, process.threads == 0))
    }

    /// All other threads of the process are gone.
    pub fn alone(&mut self, thread: u32, id: ProcessId) {
        if self.get(id).threads > 1 {
            self.threads.retain(|other, process| *process != id || *other == thread);
        }
        self.threads.insert(thread, id);
        self.get_mut(id).threads = 1;
    }

    /// Takes a process away, with the files that its descriptors and mappings held open.
    pub fn remove(&mut self, id: ProcessId) -> Vec<FileId> {
        let Some(process) = self.all.remove(&id) else { return Vec::new() };
        let mut closed: Vec<FileId> = process.mappings.iter().map(|mapping| mapping.file).collect();
        let table = self.tables.get_mut(&process.table).expect("the table is there");
        table.sharers -= 1;
        if table.sharers == 0 {
            closed.extend(table.descriptors.values().filter_map(|descriptor| descriptor.file));
            self.tables.remove(&process.table);
        }
        closed
    }

    fn table(&mut self, id: ProcessId) -> &mut Table {
        let table = self.all[&id].table;
        self.tables.get_mut(&table).expect("the table is there")
    }

    pub fn descriptor(&self, id: ProcessId, number: i32) -> Option<Descriptor> {
        self.tables[&self.all[&id].table].descriptors.get(&number).copied()
    }

    /// Puts a descriptor in its place, and gives the file that it held open before.
    pub fn open(&mut self, id: ProcessId, number: i32, descriptor: Descriptor) -> Option<FileId> {
        self.table(id).descriptors.insert(number, descriptor).and_then(|before| before.file)
    }

    pub fn close(&mut self, id: ProcessId, number: i32) -> Option<FileId> {
        self.table(id).descriptors.remove(&number).and_then(|before| before.file)
    }

    pub fn set_close_on_exec(&mut self, id: ProcessId, number: i32, close_on_exec: bool) {
        if let Some(descriptor) = self.table(id).descriptors.get_mut(&number) {
            descriptor.close_on_exec = close_on_exec;
        }
    }

    /// The descriptors in a range.
    pub fn numbers(&mut self, id: ProcessId, range: std::ops::RangeInclusive<i32>) -> Vec<i32> {
        let table = self.table(id);
        table.descriptors.keys().filter(|number| range.contains(number)).copied().collect()
    }

    /// What an exec closes: the table is the process's own from here on, without what is marked, and mappings are gone.
    pub fn exec(&mut self, id: ProcessId) -> (Vec<FileId>, Vec<FileId>) {
        let mut opened = Vec::new();
        if self.table(id).sharers > 1 {
            self.table(id).sharers -= 1;
            let copy = Table { sharers: 1, ..self.table(id).clone() };
            opened.extend(copy.descriptors.values().filter_map(|descriptor| descriptor.file));
            let place = self.next;
            self.next += 1;
            self.tables.insert(place, copy);
            self.get_mut(id).table = place;
        }
        let mut closed: Vec<FileId> = self.get_mut(id).mappings.drain(..).map(|mapping| mapping.file).collect();
        self.table(id).descriptors.retain(|_, descriptor| {
            if descriptor.close_on_exec {
                closed.extend(descriptor.file);
            }
            !descriptor.close_on_exec
        });
        (opened, closed)
    }
}
