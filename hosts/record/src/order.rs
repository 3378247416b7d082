//! Puts the lines of a log in order: joins `<unfinished ...>` with `resumed`, and holds lines back while a process speaks
//! whose start is not there yet, because its parent's clone returns further down.

use std::collections::{BTreeMap, HashMap, HashSet, VecDeque};

use crate::line::{self, Line, Outcome, Says};

/// A call of a thread; `outcome` is nothing at its beginning.
#[derive(Clone, Debug, PartialEq, Eq)]
pub struct Call {
    pub line: usize,
    pub thread: u32,
    pub name: String,
    pub arguments: String,
    pub outcome: Option<Outcome>,
}

/// What happens, in order.
#[derive(Clone, Debug, PartialEq, Eq)]
pub enum Event {
    /// The first process is there.
    First { thread: u32 },
    /// A call begins whose end comes in another line.
    Begun(Call),
    /// A call has ended; its beginning was told or is in the same line.
    Ended(Call),
    /// A clone, fork or vfork, at its end or before the child's first event, whichever is first; its arguments have the
    /// flags.
    Forked { line: usize, parent: u32, child: u32, arguments: String },
    /// A thread has exited or was killed.
    Gone { line: usize, thread: u32 },
    /// Another thread executes a program and goes on under the number of this one.
    Replaced { leader: u32 },
    /// The log has no start of this thread.
    NoStart { line: usize, thread: u32 },
    /// The line is not understood.
    NotRead { line: usize },
}

/// How many lines are held back at most until a clone returns.
const HELD_LIMIT: usize = 10_000;

const CLONES: [&str; 4] = ["clone", "clone3", "fork", "vfork"];

/// The start of a child whose parent's clone returns in a line that is held back.
struct Birth {
    parent: u32,
    /// The arguments, if the whole call is in that line.
    arguments: Option<String>,
}

#[derive(Default)]
pub struct Order {
    started: bool,
    known: HashSet<u32>,
    unfinished: HashMap<u32, Call>,
    held: VecDeque<(usize, Line)>,
    births: HashMap<u32, Birth>,
    /// Children that have been told before their parent's clone returned.
    told: HashSet<u32>,
    /// The clones under way that have no child yet, by their lines, and the line of each thread's.
    cloning: BTreeMap<usize, u32>,
    cloning_at: HashMap<u32, usize>,
}

impl Order {
    /// Takes up a line of the log and gives what can be said now.
    pub fn line(&mut self, number: usize, text: &str) -> Vec<Event> {
        let mut events = Vec::new();
        let Some(line) = line::read(text) else {
            if !text.trim().is_empty() {
                events.push(Event::NotRead { line: number });
            }
            return events;
        };
        if !self.started {
            self.started = true;
            self.known.insert(line.thread);
            events.push(Event::First { thread: line.thread });
        }
        if let Some((child, birth)) = birth(&line) {
            self.births.insert(child, birth);
        }
        self.held.push_back((number, line));
        self.release(false, &mut events);
        events
    }

    /// Gives what was held back, at the end of the log.
    pub fn end(&mut self) -> Vec<Event> {
        let mut events = Vec::new();
        self.release(true, &mut events);
        events
    }

    fn release(&mut self, ended: bool, events: &mut Vec<Event>) {
        while let Some((number, line)) = self.held.pop_front() {
            if !self.known.contains(&line.thread) {
                let Some(start) = self.start(number, line.thread, ended) else {
                    self.held.push_front((number, line));
                    return;
                };
                self.known.insert(line.thread);
                events.push(start);
            }
            self.take(number, line, events);
        }
    }

    /// The start of a thread that is not known yet; nothing if lines further down must say it.
    fn start(&mut self, number: usize, thread: u32, ended: bool) -> Option<Event> {
        let parent = match self.births.get(&thread) {
            Some(birth) => Some(birth.parent),
            None => {
                let oldest = self.cloning.values().next().copied();
                if oldest.is_some() && !ended && self.held.len() < HELD_LIMIT {
                    return None;
                }
                oldest
            }
        };
        let Some(parent) = parent else { return Some(Event::NoStart { line: number, thread }) };
        let whole = self.births.get(&thread).and_then(|birth| birth.arguments.clone());
        let begun = self.unfinished.get(&parent).map(|call| call.arguments.clone());
        self.told.insert(thread);
        self.has_child(parent);
        let arguments = whole.or(begun).unwrap_or_default();
        Some(Event::Forked { line: number, parent, child: thread, arguments })
    }

    /// A thread has no clone under way that waits for its child.
    fn has_child(&mut self, thread: u32) {
        if let Some(line) = self.cloning_at.remove(&thread) {
            self.cloning.remove(&line);
        }
    }

    fn take(&mut self, number: usize, line: Line, events: &mut Vec<Event>) {
        let thread = line.thread;
        match line.says {
            Says::Signal => {}
            Says::Whole { name, arguments, outcome } => {
                if self.unfinished.remove(&thread).is_some() {
                    events.push(Event::NotRead { line: number });
                }
                self.ended(Call { line: number, thread, name, arguments, outcome: Some(outcome) }, events);
            }
            Says::Begun { name, arguments } => {
                let call = Call { line: number, thread, name, arguments, outcome: None };
                self.has_child(thread);
                if CLONES.contains(&call.name.as_str()) {
                    self.cloning.insert(number, thread);
                    self.cloning_at.insert(thread, number);
                }
                if self.unfinished.insert(thread, call.clone()).is_some() {
                    events.push(Event::NotRead { line: number });
                }
                events.push(Event::Begun(call));
            }
            Says::Resumed { name, rest } => self.resumed(number, thread, &name, &rest, events),
            Says::Gone => {
                self.known.remove(&thread);
                self.unfinished.remove(&thread);
                self.has_child(thread);
                events.push(Event::Gone { line: number, thread });
            }
            Says::Superseded { by } => {
                self.known.remove(&by);
                self.has_child(by);
                if let Some(call) = self.unfinished.remove(&by) {
                    self.unfinished.insert(thread, Call { thread, ..call });
                }
                events.push(Event::Replaced { leader: thread });
            }
        }
    }

    fn resumed(&mut self, number: usize, thread: u32, name: &str, rest: &str, events: &mut Vec<Event>) {
        let begun = self.unfinished.remove(&thread).filter(|call| call.name == name);
        let whole = begun.and_then(|call| {
            let (arguments, outcome) = line::finish(&(call.arguments.clone() + rest))?;
            Some(Call { line: number, arguments, outcome: Some(outcome), ..call })
        });
        match whole {
            Some(call) => self.ended(call, events),
            None => events.push(Event::NotRead { line: number }),
        }
    }

    fn ended(&mut self, call: Call, events: &mut Vec<Event>) {
        self.has_child(call.thread);
        if let Some(child) = child(&call.name, call.outcome.as_ref()) {
            self.births.remove(&child);
            if !self.told.remove(&child) {
                self.known.insert(child);
                let arguments = call.arguments.clone();
                events.push(Event::Forked { line: call.line, parent: call.thread, child, arguments });
            }
        }
        events.push(Event::Ended(call));
    }
}

/// The child that a clone has made.
fn child(name: &str, outcome: Option<&Outcome>) -> Option<u32> {
    match outcome {
        Some(Outcome::Done { value, .. }) if CLONES.contains(&name) => u32::try_from(*value).ok(),
        _ => None,
    }
}

/// The child whose start a line has.
fn birth(line: &Line) -> Option<(u32, Birth)> {
    let (name, arguments, outcome) = match &line.says {
        Says::Whole { name, arguments, outcome } => (name, Some(arguments.clone()), outcome.clone()),
        Says::Resumed { name, rest } if CLONES.contains(&name.as_str()) => (name, None, line::finish(rest)?.1),
        _ => return None,
    };
    Some((child(name, Some(&outcome))?, Birth { parent: line.thread, arguments }))
}
