//! The lines of a log, read once: from a file, a pipe or standard input, with a bound on what is kept.

use std::collections::VecDeque;
use std::io::{self, BufRead};

use crate::event::Event;
use crate::event_list;
use crate::line::{self, Says};

/// How long a line may be, and how far the end of a longer one is looked for.
const LINE_LIMIT: usize = 1 << 20;
const SKIP_LIMIT: usize = 16 << 20;

/// What the reader has come to.
#[derive(Clone, Debug, PartialEq, Eq)]
pub enum Found {
    Line(Vec<u8>),
    /// A line that is too long; whether its end was found.
    TooLong {
        ended: bool,
    },
}

pub struct Lines {
    from: Box<dyn BufRead>,
    ahead: VecDeque<Found>,
    ended: bool,
}

impl Lines {
    pub fn new(from: impl BufRead + 'static) -> Lines {
        Lines { from: Box::new(from), ahead: VecDeque::new(), ended: false }
    }

    /// The next line; nothing at the end.
    pub fn next(&mut self) -> io::Result<Option<Found>> {
        match self.ahead.pop_front() {
            Some(found) => Ok(Some(found)),
            None => self.read(),
        }
    }

    /// Reads lines ahead until there are so many, or a folder is named in them.
    pub fn look_ahead(&mut self, count: usize) -> io::Result<()> {
        while self.ahead.len() < count && (count <= 2 || self.ahead.len() % 64 != 0 || self.first_folder().is_none()) {
            match self.read()? {
                Some(found) => self.ahead.push_back(found),
                None => break,
            }
        }
        Ok(())
    }

    fn read(&mut self) -> io::Result<Option<Found>> {
        if self.ended {
            return Ok(None);
        }
        let mut line = Vec::new();
        let (mut length, mut ended) = (0, false);
        while !ended && length < SKIP_LIMIT {
            let part = self.from.fill_buf()?;
            if part.is_empty() {
                self.ended = true;
                break;
            }
            let end = part.iter().position(|byte| *byte == b'\n');
            let taken = &part[..end.unwrap_or(part.len())];
            if line.len() + taken.len() <= LINE_LIMIT {
                line.extend_from_slice(taken);
            }
            length += taken.len();
            ended = end.is_some();
            let used = taken.len() + usize::from(ended);
            self.from.consume(used);
        }
        Ok(match length {
            0 if !ended => None,
            _ if length > line.len() => {
                self.ended |= !ended;
                Some(Found::TooLong { ended })
            }
            _ => Some(Found::Line(line)),
        })
    }

    pub fn first_is(&self, text: &str) -> bool {
        self.ahead.front() == Some(&Found::Line(text.as_bytes().to_vec()))
    }

    /// The event in a line that was read ahead.
    pub fn event(&self, place: usize) -> Option<Event> {
        match self.ahead.get(place)? {
            Found::Line(line) => event_list::read(std::str::from_utf8(line).ok()?),
            Found::TooLong { .. } => None,
        }
    }

    /// The folder in which the first process of a log starts: the first one that it names in the lines that were read ahead.
    pub fn first_folder(&self) -> Option<Vec<u8>> {
        let mut first = None;
        for found in &self.ahead {
            let Found::Line(text) = found else { continue };
            let Some(found) = line::read(&String::from_utf8_lossy(text)) else { continue };
            if *first.get_or_insert(found.thread) != found.thread {
                continue;
            }
            let (Says::Whole { arguments, .. } | Says::Begun { arguments, .. }) = found.says else { continue };
            let folders = line::arguments(&arguments).into_iter().filter(|argument| argument.starts_with("AT_FDCWD<"));
            let mut places = folders.filter_map(|argument| line::descriptor(argument)?.place);
            if let Some(place) = places.next() {
                return Some(place.path);
            }
        }
        None
    }
}
