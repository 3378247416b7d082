//! One line of a log of `strace -f -y -o FILE`. Any text may be handed in: what is no such line gives nothing.

/// A line: the thread, and what it says of it.
#[derive(Clone, Debug, PartialEq, Eq)]
pub struct Line {
    pub thread: u32,
    pub says: Says,
}

#[derive(Clone, Debug, PartialEq, Eq)]
pub enum Says {
    /// `name(arguments) = result`
    Whole { name: String, arguments: String, outcome: Outcome },
    /// `name(arguments <unfinished ...>`
    Begun { name: String, arguments: String },
    /// `<... name resumed>rest`, where the rest has the other arguments and the result.
    Resumed { name: String, rest: String },
    /// `--- SIGNAL ... ---`
    Signal,
    /// `+++ exited with N +++` or `+++ killed by SIGNAL +++`
    Gone,
    /// `+++ superseded by execve in pid N +++`: thread N goes on under this one's number.
    Superseded { by: u32 },
}

/// How a call ended.
#[derive(Clone, Debug, PartialEq, Eq)]
pub enum Outcome {
    /// It returned this number; a descriptor has the place that it stands for.
    Done { value: i64, place: Option<Place> },
    /// It returned an error: it counts as not made.
    Failed,
    /// `?`: the log does not say.
    Unknown,
}

/// What `-y` says of a descriptor: a path, or a text such as `pipe:[123]`.
#[derive(Clone, Debug, PartialEq, Eq)]
pub struct Place {
    pub path: Vec<u8>,
    pub deleted: bool,
}

/// A descriptor as an argument or a result; `AT_FDCWD` has no number.
#[derive(Clone, Debug, PartialEq, Eq)]
pub struct Descriptor {
    pub number: Option<i32>,
    pub place: Option<Place>,
}

/// What a line says.
pub fn read(text: &str) -> Option<Line> {
    let (number, rest) = text.trim_end().split_once(' ')?;
    let thread = number.parse().ok()?;
    let says = says(rest.trim_start())?;
    Some(Line { thread, says })
}

fn says(text: &str) -> Option<Says> {
    if text.starts_with("--- ") {
        return Some(Says::Signal);
    }
    if let Some(end) = text.strip_prefix("+++ ") {
        return gone(end);
    }
    if let Some(rest) = text.strip_prefix("<... ") {
        let (name, rest) = rest.split_once(" resumed>")?;
        return Some(Says::Resumed { name: name.to_string(), rest: rest.to_string() });
    }
    let (name, rest) = text.split_once('(')?;
    if name.is_empty() || !name.bytes().all(|byte| byte.is_ascii_alphanumeric() || byte == b'_') {
        return None;
    }
    let name = name.to_string();
    if let Some(arguments) = unfinished(rest) {
        return Some(Says::Begun { name, arguments: arguments.to_string() });
    }
    let (arguments, outcome) = finish(rest)?;
    Some(Says::Whole { name, arguments, outcome })
}

/// The arguments of a call that goes on in another line, of the same thread or of the one whose number it takes.
fn unfinished(text: &str) -> Option<&str> {
    let changed = || text.rsplit_once(" <pid changed to ").filter(|(_, rest)| rest.ends_with(" ...>"));
    text.strip_suffix(" <unfinished ...>").or_else(|| changed().map(|(arguments, _)| arguments))
}

fn gone(text: &str) -> Option<Says> {
    if text.starts_with("exited with ") || text.starts_with("killed by ") {
        return Some(Says::Gone);
    }
    let rest = text.strip_prefix("superseded by execve in pid ")?;
    Some(Says::Superseded { by: rest.split(' ').next()?.parse().ok()? })
}

/// The arguments and the outcome of `arguments) = result`.
pub fn finish(text: &str) -> Option<(String, Outcome)> {
    let end = Scan::new(text).find(|&(_, byte, depth)| byte == b')' && depth == 0)?.0;
    let result = text[end + 1..].trim_start().strip_prefix('=')?.trim_start();
    Some((text[..end].to_string(), outcome(result)?))
}

fn outcome(text: &str) -> Option<Outcome> {
    let length = text.find([' ', '<']).unwrap_or(text.len());
    let (number, rest) = text.split_at(length);
    // A call that a signal has interrupted before it did anything, and one that goes on by itself.
    let error = rest.trim_start();
    match number {
        "?" if error.starts_with("ERESTART") => return Some(Outcome::Failed),
        "?" => return Some(Outcome::Unknown),
        "-1" if error.starts_with("EINPROGRESS") => return Some(Outcome::Done { value: 0, place: None }),
        _ => {}
    }
    if let Some(digits) = number.strip_prefix("0x") {
        let value = u64::from_str_radix(digits, 16).ok()? as i64;
        return Some(Outcome::Done { value, place: None });
    }
    match number.parse::<i64>().ok()? {
        ..=-1 => Some(Outcome::Failed),
        value => Some(Outcome::Done { value, place: place(rest) }),
    }
}

/// Goes through a text byte by byte, outside of strings, comments and what `-y` says of descriptors, with the number of
/// brackets that are open in front of each byte.
struct Scan<'a> {
    text: &'a [u8],
    at: usize,
    depth: usize,
}

impl Scan<'_> {
    fn new(text: &str) -> Scan<'_> {
        Scan { text: text.as_bytes(), at: 0, depth: 0 }
    }

    fn byte(&self, at: usize) -> u8 {
        self.text.get(at).copied().unwrap_or(0)
    }

    /// Whether what `-y` says of a descriptor begins here: behind a number or `AT_FDCWD`, and no shift.
    fn place_begins(&self) -> bool {
        let before = if self.at == 0 { 0 } else { self.byte(self.at - 1) };
        self.byte(self.at) == b'<' && (before.is_ascii_digit() || before == b'D') && self.byte(self.at + 1) != b'<'
    }

    /// Goes behind the string, comment or place that begins here.
    fn skip(&mut self) {
        if self.byte(self.at) == b'"' {
            self.at = quoted_end(self.text, self.at + 1, b'"');
        } else if self.text[self.at..].starts_with(b"/*") {
            let rest = &self.text[self.at..];
            self.at += rest.windows(2).skip(2).position(|pair| pair == b"*/").map_or(rest.len(), |place| place + 4);
        } else if self.place_begins() {
            self.at = quoted_end(self.text, self.at + 1, b'>');
        }
    }
}

impl Iterator for Scan<'_> {
    type Item = (usize, u8, usize);

    fn next(&mut self) -> Option<Self::Item> {
        loop {
            let before = self.at;
            if before >= self.text.len() {
                return None;
            }
            self.skip();
            if self.at == before {
                break;
            }
        }
        let (at, byte) = (self.at, self.byte(self.at));
        self.at += 1;
        let depth = self.depth;
        match byte {
            b'(' | b'[' | b'{' => self.depth += 1,
            b')' | b']' | b'}' => self.depth = self.depth.saturating_sub(1),
            _ => {}
        }
        Some((at, byte, depth))
    }
}

/// Behind the next `end` that no backslash hides.
fn quoted_end(text: &[u8], mut at: usize, end: u8) -> usize {
    while at < text.len() && text[at] != end {
        at += if text[at] == b'\\' { 2 } else { 1 };
    }
    (at + 1).min(text.len())
}

/// The arguments, parted at the commas between them.
pub fn arguments(text: &str) -> Vec<&str> {
    let commas = Scan::new(text).filter(|&(_, byte, depth)| byte == b',' && depth == 0).map(|(at, _, _)| at);
    let mut parts = Vec::new();
    let mut begin = 0;
    for comma in commas {
        parts.push(text[begin..comma].trim());
        begin = comma + 1;
    }
    parts.push(text[begin..].trim());
    parts
}

/// A descriptor: a number or `AT_FDCWD`, with its place if `-y` was given.
pub fn descriptor(text: &str) -> Option<Descriptor> {
    let (number, rest) = match text.strip_prefix("AT_FDCWD") {
        Some(rest) => (None, rest),
        None => {
            let length = text.find('<').unwrap_or(text.len());
            (Some(text[..length].trim().parse().ok()?), &text[length..])
        }
    };
    Some(Descriptor { number, place: place(rest) })
}

/// The descriptors in a list, such as the two ends of a pipe.
pub fn descriptors(text: &str) -> Vec<Descriptor> {
    let inner = text.strip_prefix('[').and_then(|rest| rest.strip_suffix(']')).unwrap_or("");
    arguments(inner).into_iter().filter_map(descriptor).collect()
}

fn place(text: &str) -> Option<Place> {
    let inner = text.strip_prefix('<')?;
    let end = quoted_end(inner.as_bytes(), 0, b'>').checked_sub(1)?;
    if inner.as_bytes().get(end) != Some(&b'>') {
        return None;
    }
    // Behind a device's path `-yy` has its numbers.
    let path = inner[..end].split('<').next()?;
    Some(Place { path: unescape(path), deleted: inner[end + 1..].starts_with("(deleted)") })
}

/// A string argument without its quotes and escapes.
pub fn string(text: &str) -> Option<Vec<u8>> {
    let inner = text.strip_prefix('"')?;
    let end = quoted_end(inner.as_bytes(), 0, b'"').checked_sub(1)?;
    (inner.as_bytes().get(end) == Some(&b'"')).then(|| unescape(&inner[..end]))
}

fn unescape(text: &str) -> Vec<u8> {
    let bytes = text.as_bytes();
    let mut plain = Vec::with_capacity(bytes.len());
    let mut at = 0;
    while at < bytes.len() {
        let (byte, length) = if bytes[at] == b'\\' { escaped(&bytes[at + 1..]) } else { (bytes[at], 1) };
        plain.push(byte);
        at += length;
    }
    plain
}

/// The byte that an escape stands for, and the escape's length with its backslash.
fn escaped(rest: &[u8]) -> (u8, usize) {
    let octal = rest.iter().take(3).take_while(|byte| (b'0'..=b'7').contains(byte)).count();
    if octal > 0 {
        let value = rest[..octal].iter().fold(0u32, |value, byte| value * 8 + u32::from(byte - b'0'));
        return (value as u8, 1 + octal);
    }
    match rest.first() {
        Some(b'n') => (b'\n', 2),
        Some(b't') => (b'\t', 2),
        Some(b'r') => (b'\r', 2),
        Some(b'v') => (0x0b, 2),
        Some(b'f') => (0x0c, 2),
        Some(&byte) => (byte, 2),
        None => (b'\\', 1),
    }
}
