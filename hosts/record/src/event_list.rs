//! Event lists as text: one line for each event, its fields one space apart, a text last, in which control characters, backslashes and
//! bytes that are no ASCII stand as `\HH`.

use std::io::{self, Write};

use crate::event::{Event, Flow, Way};
use crate::files::Sort;

/// The first line of an event list.
pub const HEADER: &str = "events of record, form 1";

const FILE: &str = "file";
const NAMED_PIPE: &str = "named-pipe";
const PASSING: &str = "passing";
const NONE: &str = "-";

/// A text as an event list has it.
pub fn escaped(text: &[u8]) -> String {
    let plain = |byte: u8| (b' '..=b'~').contains(&byte) && byte != b'\\';
    text.iter().map(|byte| if plain(*byte) { char::from(*byte).to_string() } else { format!("\\{byte:02x}") }).collect()
}

/// The text that stands for another.
pub fn unescaped(text: &str) -> Option<Vec<u8>> {
    let mut rest = text.bytes();
    let mut plain = Vec::with_capacity(text.len());
    while let Some(byte) = rest.next() {
        let digit = |byte: Option<u8>| char::from(byte?).to_digit(16);
        plain.push(match byte {
            b'\\' => (digit(rest.next())? * 16 + digit(rest.next())?) as u8,
            byte => byte,
        });
    }
    Some(plain)
}

/// The word for a way.
fn way(flow: &Flow) -> &'static str {
    match flow.way {
        Way::In => "in",
        Way::Out => "out",
    }
}

/// A number, or `-` for none.
fn number_or_none(number: Option<impl ToString>) -> String {
    number.map_or_else(|| NONE.to_string(), |number| number.to_string())
}

/// Writes an event as a line.
pub fn write(out: &mut dyn Write, event: &Event) -> io::Result<()> {
    match event {
        Event::First { task, user, folder } => writeln!(out, "first {task} {user} {}", escaped(folder)),
        Event::Object { sort, label } => {
            let sort = match sort {
                Sort::File => FILE,
                Sort::NamedPipe => NAMED_PIPE,
                Sort::Passing => PASSING,
            };
            writeln!(out, "object {sort} {}", escaped(label.as_bytes()))
        }
        Event::Name { task, how, path, object } => {
            let how = how.replace(' ', "_");
            writeln!(out, "name {} {} {how} {}", number_or_none(*task), number_or_none(*object), escaped(path))
        }
        Event::Moved { task, flow } => writeln!(out, "moved {task} {} {}", way(flow), flow.object),
        Event::Added { task, object } => writeln!(out, "added {task} {object}"),
        Event::Rewritten { task, object } => writeln!(out, "rewritten {task} {object}"),
        Event::Begun { task, flow } => writeln!(out, "begun {task} {} {}", way(flow), flow.object),
        Event::Over { task } => writeln!(out, "over {task}"),
        Event::Mapped { task, object, writable } => writeln!(out, "mapped {task} {object} {}", u8::from(*writable)),
        Event::Unmapped { task, object } => writeln!(out, "unmapped {task} {object}"),
        Event::Emptied { object } => writeln!(out, "emptied {object}"),
        Event::Born { parent, child, one_memory } => writeln!(out, "born {parent} {child} {}", u8::from(*one_memory)),
        Event::Executed { task, program, user, name } => {
            writeln!(out, "executed {task} {program} {user} {}", escaped(name.as_bytes()))
        }
        Event::Renumbered { from, to } => writeln!(out, "renumbered {from} {to}"),
        Event::Gone { task } => writeln!(out, "gone {task}"),
        Event::Member { path, object } => writeln!(out, "member {object} {}", escaped(path)),
        Event::Holds { object, source } => writeln!(out, "holds {object} {}", escaped(source.as_bytes())),
        Event::Story { words } => writeln!(out, "story {}", escaped(words.as_bytes())),
        Event::Told { words } => writeln!(out, "told {}", escaped(words.as_bytes())),
    }
}

/// The fields of a line.
struct Fields<'a>(&'a str);

impl<'a> Fields<'a> {
    /// The next field.
    fn next(&mut self) -> Option<&'a str> {
        let (field, rest) = self.0.split_once(' ').unwrap_or((self.0, ""));
        self.0 = rest;
        (!field.is_empty()).then_some(field)
    }

    /// The next field as a number.
    fn number<T: std::str::FromStr>(&mut self) -> Option<T> {
        self.next()?.parse().ok()
    }

    /// A number, or `-` for none.
    fn number_or_none<T: std::str::FromStr>(&mut self) -> Option<Option<T>> {
        match self.next()? {
            NONE => Some(None),
            text => text.parse().ok().map(Some),
        }
    }

    /// The next field as a truth value.
    fn flag(&mut self) -> Option<bool> {
        match self.next()? {
            "0" => Some(false),
            "1" => Some(true),
            _ => None,
        }
    }

    /// The next two fields as a flow.
    fn flow(&mut self) -> Option<Flow> {
        let way = match self.next()? {
            "in" => Way::In,
            "out" => Way::Out,
            _ => return None,
        };
        Some(Flow { way, object: self.number()? })
    }

    /// The next field as a sort of objects.
    fn sort(&mut self) -> Option<Sort> {
        match self.next()? {
            FILE => Some(Sort::File),
            NAMED_PIPE => Some(Sort::NamedPipe),
            PASSING => Some(Sort::Passing),
            _ => None,
        }
    }

    /// The rest of the line.
    fn text(&mut self) -> Option<Vec<u8>> {
        unescaped(std::mem::take(&mut self.0))
    }

    /// All that is left, as words.
    fn words(&mut self) -> Option<String> {
        String::from_utf8(self.text()?).ok()
    }
}

/// The event of a line; nothing if it is none.
pub fn read(line: &str) -> Option<Event> {
    let mut fields = Fields(line);
    let event = match fields.next()? {
        "first" => Event::First { task: fields.number()?, user: fields.number()?, folder: fields.text()? },
        "object" => Event::Object { sort: fields.sort()?, label: fields.words()? },
        "name" => {
            let (task, object) = (fields.number_or_none()?, fields.number_or_none()?);
            Event::Name { task, object, how: fields.next()?.replace('_', " "), path: fields.text()? }
        }
        "moved" => Event::Moved { task: fields.number()?, flow: fields.flow()? },
        "added" => Event::Added { task: fields.number()?, object: fields.number()? },
        "rewritten" => Event::Rewritten { task: fields.number()?, object: fields.number()? },
        "begun" => Event::Begun { task: fields.number()?, flow: fields.flow()? },
        "over" => Event::Over { task: fields.number()? },
        "mapped" => Event::Mapped { task: fields.number()?, object: fields.number()?, writable: fields.flag()? },
        "unmapped" => Event::Unmapped { task: fields.number()?, object: fields.number()? },
        "emptied" => Event::Emptied { object: fields.number()? },
        "born" => Event::Born { parent: fields.number()?, child: fields.number()?, one_memory: fields.flag()? },
        "executed" => Event::Executed {
            task: fields.number()?,
            program: fields.number()?,
            user: fields.number()?,
            name: fields.words()?,
        },
        "renumbered" => Event::Renumbered { from: fields.number()?, to: fields.number()? },
        "gone" => Event::Gone { task: fields.number()? },
        "member" => Event::Member { object: fields.number()?, path: fields.text()? },
        "holds" => Event::Holds { object: fields.number()?, source: fields.words()? },
        "story" => Event::Story { words: fields.words()? },
        "told" => Event::Told { words: fields.words()? },
        _ => return None,
    };
    fields.0.is_empty().then_some(event)
}
