//! The 256 numbers of containers: which file has which, and which can be given to others.

use std::collections::HashMap;

use yaslaurel::Operation;

use crate::files::{FileId, Sort};
use crate::monitor::{Row, NUMBERS};
use crate::plan::RuleUser;
use crate::process::ProcessId;
use crate::recorder::Recorder;

impl Recorder {
    /// The number of a file, which takes one if it has none.
    pub fn number(&mut self, id: FileId) -> Option<u8> {
        let id = self.files.root(id);
        self.uses += 1;
        self.files.get_mut(id).used = self.uses;
        if let Some(number) = self.files.get(id).number {
            return Some(number);
        }
        let Some(number) = self.take_number() else {
            let label = self.files.get(id).label.clone();
            self.no_number(&label);
            return None;
        };
        self.make(id, number);
        Some(number)
    }

    /// The container of a file, under a number that is free.
    pub fn make(&mut self, id: FileId, number: u8) {
        let process = self.plan.recorder;
        let operation = match self.files.get(id).sort {
            Sort::File => Operation::NewFile { process, file: number, user: self.user_for(id) },
            Sort::NamedPipe | Sort::Passing => Operation::NewVolatile { process, volatile: number },
        };
        self.give(id, number);
        self.perform(operation);
    }

    pub fn give(&mut self, id: FileId, number: u8) {
        let id = self.files.root(id);
        self.files.get_mut(id).number = Some(number);
        self.held[usize::from(number)] = vec![id];
        self.monitor.hold(number, &self.files.get(id).label.clone());
    }

    /// The user for whom a new file is made: the one with the story's rule, if its name is one of the story.
    pub fn user_for(&mut self, id: FileId) -> u8 {
        match self.files.get(id).rule {
            None => self.plan.unrestricted,
            Some(RuleUser(Some(user))) => user,
            Some(RuleUser(None)) => {
                let label = self.files.get(id).label.clone();
                self.gap(&format!("{label} is a new file of that name, and no user is left that has the story's rule"));
                self.plan.unrestricted
            }
        }
    }

    /// A free number, if need be that of a file that equals a new one (code 9), or one that is free since files share another.
    pub fn take_number(&mut self) -> Option<u8> {
        if let Some(number) = self.monitor.free() {
            return Some(number);
        }
        if let Some(number) = self.spare() {
            self.delete(self.plan.recorder, number);
            return Some(number);
        }
        self.share_numbers();
        self.monitor.free()
    }

    /// Whether the files of a number are outside the story.
    pub fn are_outside(&self, number: u8) -> bool {
        let held = &self.held[usize::from(number)];
        let outside = |id: &FileId| !self.files.get(*id).of_image && self.files.get(*id).rule.is_none();
        !held.is_empty() && held.iter().all(outside)
    }

    /// The number of files outside the story that hold nothing and can give it back: one that nobody has open if there is one, and
    /// of those the one that was not used for the longest time.
    pub fn spare(&self) -> Option<u8> {
        let unused = (0..=u8::MAX).filter(|number| self.are_outside(*number) && self.monitor.equals_new(*number));
        unused.min_by_key(|number| {
            let held = self.held[usize::from(*number)].iter().map(|id| self.files.get(*id));
            held.map(|file| (file.open > 0, file.used)).max()
        })
    }

    /// Lets files outside the story whose rows are equal share one number, and deletes the others.
    pub fn share_numbers(&mut self) {
        let mut first: HashMap<Row, u8> = HashMap::new();
        for number in 0..=u8::MAX {
            if !self.are_outside(number) {
                continue;
            }
            let shared = *first.entry(self.monitor.row(number)).or_insert(number);
            if shared != number {
                let moved = std::mem::take(&mut self.held[usize::from(number)]);
                self.delete(self.plan.recorder, number);
                for id in &moved {
                    self.files.get_mut(*id).number = Some(shared);
                }
                self.held[usize::from(shared)].extend(moved);
                let (label, others) = (self.shared_label(shared), self.held[usize::from(shared)].len() - 1);
                self.monitor.rename(shared, &format!("{label} and {others} others"));
            }
        }
    }

    pub fn shared_label(&self, number: u8) -> String {
        self.held[usize::from(number)].first().map_or_else(String::new, |id| self.files.get(*id).label.clone())
    }

    /// Before a write that changes what it holds, a file that shares its number gets one of its own.
    pub fn own_number(&mut self, id: ProcessId, file: FileId) {
        let file = self.files.root(file);
        let (Some(old), Some(process)) = (self.files.get(file).number, self.processes.get(id).number) else { return };
        if self.held[usize::from(old)].len() < 2 {
            return;
        }
        let truncated = self.files.get(file).truncated;
        if !truncated && self.monitor.would_keep(old, process) {
            return;
        }
        self.held[usize::from(old)].retain(|other| *other != file);
        self.files.get_mut(file).number = None;
        let sharer = self.held[usize::from(old)][0];
        let numbers = self.take_number().and_then(|number| {
            self.make(file, number);
            Some((number, self.take_number()?))
        });
        let from = self.files.get(sharer).number.filter(|_| !truncated);
        match numbers {
            Some((number, helper)) if !truncated => drop(self.pass(helper, "the recorder", from, number)),
            Some(_) => {}
            None => {
                let label = self.files.get(file).label.clone();
                self.no_number(&label);
            }
        }
    }

    pub fn delete(&mut self, process: u8, object: u8) {
        self.perform(Operation::Delete { process, object });
        for id in std::mem::take(&mut self.held[usize::from(object)]) {
            let number = &mut self.files.get_mut(id).number;
            *number = number.filter(|number| *number != object);
        }
        self.monitor.leave(object);
    }

    /// Deletes the container of a file, if it has one.
    pub fn delete_container(&mut self, by: u8, file: FileId) {
        let file = self.files.root(file);
        if let Some(object) = self.files.get_mut(file).number.take() {
            let held = &mut self.held[usize::from(object)];
            held.retain(|other| *other != file);
            if held.is_empty() {
                self.delete(by, object);
            }
        }
    }

    pub fn no_number(&mut self, what: &str) {
        self.gap(&format!("{what}: no number is free, {NUMBERS} containers are in use"));
    }
}
