//! What happens in a run, one event behind the other, with objects and tasks by number: what a live run finds out, and what an event
//! list keeps.

use crate::files::Sort;

/// An object, by the order in which they were first seen.
pub type ObjectId = usize;

/// A task, as the system numbers it.
pub type TaskId = u32;

/// Which way data goes between the memory of a task and an object.
#[derive(Clone, Copy, Debug, PartialEq, Eq)]
pub enum Way {
    /// Into the memory.
    In,
    /// Out of it.
    Out,
}

#[derive(Clone, Copy, Debug, PartialEq, Eq)]
pub struct Flow {
    pub way: Way,
    pub object: ObjectId,
}

#[derive(Clone, Debug, PartialEq, Eq)]
pub enum Event {
    /// The first task is there, in a folder, with a user id.
    First {
        task: TaskId,
        user: u32,
        folder: Vec<u8>,
    },
    /// The next object.
    Object {
        sort: Sort,
        label: String,
    },
    /// A name of the story leads to an object, or to none, by such a call of a task.
    Name {
        task: Option<TaskId>,
        how: String,
        path: Vec<u8>,
        object: Option<ObjectId>,
    },
    /// Data has moved, or moves now.
    Moved {
        task: TaskId,
        flow: Flow,
    },
    /// What an object has beside its bytes has changed: nothing of the bytes is overwritten.
    Added {
        task: TaskId,
        object: ObjectId,
    },
    /// Data has moved into an object that is empty but for them.
    Rewritten {
        task: TaskId,
        object: ObjectId,
    },
    /// Data may move from here on until the call is over.
    Begun {
        task: TaskId,
        flow: Flow,
    },
    /// The call of a task is over.
    Over {
        task: TaskId,
    },
    /// An object is mapped into the memory, until the task executes a program or ends.
    Mapped {
        task: TaskId,
        object: ObjectId,
        writable: bool,
    },
    Unmapped {
        task: TaskId,
        object: ObjectId,
    },
    /// An object has no bytes any more.
    Emptied {
        object: ObjectId,
    },
    Born {
        parent: TaskId,
        child: TaskId,
        one_memory: bool,
    },
    Executed {
        task: TaskId,
        program: ObjectId,
        user: u32,
        name: String,
    },
    /// A thread goes on under the number of the first one of its process, which is gone.
    Renumbered {
        from: TaskId,
        to: TaskId,
    },
    Gone {
        task: TaskId,
    },
    /// An object was below a folder of the story at the start.
    Member {
        path: Vec<u8>,
        object: ObjectId,
    },
    /// An object holds something of a source from an earlier run.
    Holds {
        object: ObjectId,
        source: String,
    },
    /// Something that is not followed.
    Told {
        words: String,
    },
    /// Something about the story that does not fit the files.
    Story {
        words: String,
    },
}

impl Event {
    /// The object that an event is about, which must have been told before.
    pub fn object(&self) -> Option<ObjectId> {
        match self {
            Event::Moved { flow, .. } | Event::Begun { flow, .. } => Some(flow.object),
            Event::Added { object, .. }
            | Event::Rewritten { object, .. }
            | Event::Mapped { object, .. }
            | Event::Unmapped { object, .. }
            | Event::Emptied { object }
            | Event::Member { object, .. }
            | Event::Holds { object, .. } => Some(*object),
            Event::Executed { program, .. } => Some(*program),
            Event::Name { object, .. } => *object,
            _ => None,
        }
    }
}
