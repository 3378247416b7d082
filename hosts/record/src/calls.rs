//! Carries out what the table says of a call.

use crate::files::{FileId, Sort};
use crate::line::{self, Place};
use crate::order::Call;
use crate::path;
use crate::process::{Descriptor, Mapping, ProcessId};
use crate::recorder::Recorder;
use crate::table::{self, Meaning};

/// Devices that keep nothing and give nothing of anybody.
const NO_CONTAINER: [&[u8]; 5] = [b"/dev/null", b"/dev/zero", b"/dev/full", b"/dev/random", b"/dev/urandom"];

/// A call begins whose end comes later. Gives its meaning if it is a close or moves names.
pub fn begun(recorder: &mut Recorder, process: ProcessId, call: &Call) -> Option<Meaning> {
    let meaning = table::meaning(&call.name)?;
    let arguments = line::arguments(&call.arguments);
    let mut run = Run { recorder, process, arguments };
    match meaning {
        Meaning::Writes(place) => {
            let to = run.file(place)?;
            run.recorder.begin(call.thread, process, None, to);
        }
        Meaning::Sends | Meaning::SendsMessages => {
            let to = run.addressed()?;
            run.recorder.begin(call.thread, process, None, to);
        }
        Meaning::Moves { from, to } => {
            let (from, to) = (run.file(from)?, run.file(to)?);
            run.recorder.begin(call.thread, process, Some(from), to);
        }
        Meaning::Closes => {
            run.close(run.number(0));
            return Some(meaning);
        }
        Meaning::Renames(_) | Meaning::Links(_) | Meaning::Unlinks(_) => return Some(meaning),
        _ => {}
    }
    None
}

/// A call has ended and returned a number that is no error.
pub fn ended(recorder: &mut Recorder, process: ProcessId, call: &Call, value: i64, place: Option<&Place>) {
    let arguments = line::arguments(&call.arguments);
    let Some(meaning) = table::meaning(&call.name) else {
        recorder.gap(&format!("the call {} is not in the table", call.name));
        return;
    };
    let mut run = Run { recorder, process, arguments };
    match meaning {
        Meaning::Nothing | Meaning::Clones | Meaning::Changes(_) | Meaning::MakesLink(_) | Meaning::ReadsLink(_) => {}
        Meaning::Signals(_) | Meaning::Filters | Meaning::ReadsLog | Meaning::Semaphores => {}
        Meaning::Limits | Meaning::OpensHandle => {}
        Meaning::Reads(_) | Meaning::Writes(_) | Meaning::Sends | Meaning::SendsMessages | Meaning::Moves { .. } => {
            run.data(meaning, value);
        }
        Meaning::ReadsAttribute(_) | Meaning::WritesAttribute(_) => run.attribute(meaning),
        Meaning::ReadsOption | Meaning::WritesOption => {}
        Meaning::Splices => run.splice(value),
        Meaning::ReadsQueue
        | Meaning::WritesQueue
        | Meaning::Attaches
        | Meaning::ReadsMemory
        | Meaning::WritesMemory => {
            run.recorder.gap(&format!("the call {} is followed in a live run alone", call.name));
        }
        Meaning::Mounts => {
            run.recorder.gap(&format!("the call {} moves names, which is followed in a live run alone", call.name))
        }
        Meaning::Maps | Meaning::Unmaps | Meaning::Remaps | Meaning::Protects => run.memory(meaning, value as u64),
        Meaning::Executes(at) => run.execute(at, call.thread),
        Meaning::Renames(at) => run.rename(at),
        Meaning::Links(at) => run.link(at),
        Meaning::Unlinks(at) => run.unlink(at),
        Meaning::ChangesFolder => run.change_folder(),
        Meaning::SetsUser(at) => run.set_user(at),
        Meaning::Truncates | Meaning::TruncatesPath => run.truncate(meaning),
        _ => run.descriptors(meaning, value as i32, place),
    }
}

/// A call that is carried out.
struct Run<'a> {
    recorder: &'a mut Recorder,
    process: ProcessId,
    arguments: Vec<&'a str>,
}

impl<'a> Run<'a> {
    fn argument(&self, at: usize) -> &'a str {
        self.arguments.get(at).copied().unwrap_or("")
    }

    /// The descriptor's number at a place of the arguments.
    fn number(&self, at: usize) -> Option<i32> {
        line::descriptor(self.argument(at))?.number
    }

    fn says(&self, at: usize, word: &str) -> bool {
        self.argument(at).contains(word)
    }

    /// The file that the descriptor at a place stands for; nothing for what is no container.
    fn file(&mut self, at: usize) -> Option<FileId> {
        let found = line::descriptor(self.argument(at))?;
        let number = found.number.filter(|number| *number >= 0)?;
        let known = self.recorder.processes.descriptor(self.process, number);
        let Some(place) = found.place else {
            if known.is_none() {
                self.recorder.gap("a descriptor without its path, as a log without -y has it");
            }
            return known.and_then(|known| known.file);
        };
        let known = known.and_then(|known| known.file).filter(|file| self.agrees(*file, &place));
        if known.is_some() {
            return known;
        }
        let file = self.at(&place, true);
        self.open(number, file, false);
        file
    }

    /// Whether what the log says of a descriptor can be said of a file.
    fn agrees(&self, file: FileId, place: &Place) -> bool {
        let file = self.recorder.files.get(file);
        let nameless = file.names.is_empty() && file.sort == Sort::Passing;
        nameless || place.deleted || file.names.contains(&place.path) || self.recorder.names_move()
    }

    /// The file at a place; it may be open elsewhere if the log has not shown who opened it.
    fn at(&mut self, place: &Place, outside: bool) -> Option<FileId> {
        let path = &place.path[..];
        let files = &mut self.recorder.files;
        let new = files.find(path).is_none();
        let id = if path.starts_with(b"pipe:[") || path.starts_with(b"socket:[") {
            files.passing(path)
        } else if path == b"anon_inode:[eventfd]" || path.starts_with(b"/memfd:") {
            self.nameless(Sort::Passing, path, outside)
        } else if !path.starts_with(b"/") || NO_CONTAINER.contains(&path) {
            return None;
        } else if is_memory_of_process(path) {
            self.recorder.gap(&format!("{}: the memory of a process", path::shown(path)));
            return None;
        } else if place.deleted {
            self.nameless(Sort::File, path, outside)
        } else {
            return Some(files.named(path));
        };
        self.recorder.files.get_mut(id).outside |= outside && new;
        Some(id)
    }

    /// What has no name, or none any more. One that was opened elsewhere cannot be told from others.
    fn nameless(&mut self, sort: Sort, path: &[u8], outside: bool) -> FileId {
        let label = path::shown(path);
        if outside {
            self.recorder
                .gap(&format!("{label} is open, and the log has not shown who opened it: taken for a new one"));
        }
        self.recorder.files.nameless(sort, label)
    }

    /// A volatile under a name that is new: what had the name before has lost it.
    fn fresh(&mut self, place: Option<&Place>) -> Option<FileId> {
        let name = place?.path.clone();
        if let Some(old) = self.recorder.files.unlink(&name) {
            self.recorder.delete_if_gone(self.acting(), old);
        }
        Some(self.recorder.files.passing(&name))
    }

    fn acting(&self) -> u8 {
        self.recorder.acting(self.process)
    }

    /// A descriptor stands for a file from here on.
    fn open(&mut self, number: i32, file: Option<FileId>, close_on_exec: bool) {
        self.recorder.opened(file);
        let before = self.recorder.processes.open(self.process, number, Descriptor { file, close_on_exec });
        self.recorder.closed(self.acting(), before);
    }

    fn close(&mut self, number: Option<i32>) {
        let before = number.and_then(|number| self.recorder.processes.close(self.process, number));
        self.recorder.closed(self.acting(), before);
    }

    /// Reads, writes and transfers of so many bytes: none of 0.
    fn data(&mut self, meaning: Meaning, bytes: i64) {
        if bytes <= 0 {
            return;
        }
        match meaning {
            Meaning::Reads(at) => {
                if let Some(file) = self.file(at) {
                    self.recorder.read(self.process, file);
                }
            }
            Meaning::Moves { from, to } => {
                let from = self.file(from);
                self.write(from, to);
            }
            Meaning::Writes(at) => self.write(None, at),
            _ => {
                if let Some(file) = self.addressed() {
                    self.recorder.write(self.process, file);
                }
            }
        }
    }

    /// Pages go into a pipe or come out of it: the log does not say which.
    fn splice(&mut self, bytes: i64) {
        if let Some(file) = self.file(0).filter(|_| bytes > 0) {
            self.recorder.write(self.process, file);
            self.recorder.read(self.process, file);
        }
    }

    fn write(&mut self, from: Option<FileId>, to: usize) {
        match (self.file(to), from) {
            (Some(to), from) => self.recorder.transfer(self.process, from, to),
            // To what is no container, such as the null device: the process itself holds what it moved.
            (None, Some(from)) => drop(self.recorder.read(self.process, from)),
            (None, None) => {}
        }
    }

    /// The volatile of the address that a send names, if somebody has it, else that of the socket.
    fn addressed(&mut self) -> Option<FileId> {
        let name = address(self.argument(4));
        let known = name.and_then(|name| self.recorder.files.find(&name));
        known.or_else(|| self.file(0))
    }

    /// An attribute of the file at a path or of a descriptor.
    fn attribute(&mut self, meaning: Meaning) {
        let file = match self.argument(0).starts_with('"') {
            true => self.file_at_path(),
            false => self.file(0),
        };
        match (file, meaning) {
            (Some(file), Meaning::ReadsAttribute(_)) => drop(self.recorder.read(self.process, file)),
            (Some(file), _) => drop(self.recorder.append(self.process, file)),
            (None, _) => {}
        }
    }

    /// The file at the path that is the first argument.
    fn file_at_path(&mut self) -> Option<FileId> {
        let path = self.path(None, 0)?;
        let path = self.recorder.files.followed(&path);
        Some(self.recorder.files.named(&path))
    }

    /// The absolute path that an argument names, in the folder that another one names or in that of the process.
    fn path(&mut self, folder: Option<usize>, at: usize) -> Option<Vec<u8>> {
        let Some(name) = line::string(self.argument(at)) else {
            if self.argument(at) != "NULL" {
                self.recorder.gap("a path that the log has not written out");
            }
            return None;
        };
        let found = folder.and_then(|folder| line::descriptor(self.argument(folder)));
        let place = found.as_ref().and_then(|found| found.place.clone()).map(|place| place.path);
        let process = self.recorder.processes.get_mut(self.process);
        if place.is_some() && found.is_some_and(|found| found.number.is_none()) {
            process.folder.clone_from(&place);
        }
        let path = path::absolute(place.as_deref().or(process.folder.as_deref()), &name);
        if path.is_none() {
            self.recorder.gap("a relative name, and the log has not named the folder");
        }
        path
    }

    /// The path at a place, with its folder in front of it if the place is not the first.
    fn path_at(&mut self, at: usize) -> Option<Vec<u8>> {
        self.path(at.checked_sub(1), at)
    }

    fn memory(&mut self, meaning: Meaning, address: u64) {
        let length = |text: &str| number(text).unwrap_or(0);
        match meaning {
            Meaning::Maps => self.map(address, length(self.argument(1))),
            Meaning::Unmaps => {
                let begin = length(self.argument(0));
                self.unmap(begin, begin.saturating_add(length(self.argument(1))));
            }
            Meaning::Remaps => {
                let old = length(self.argument(0));
                let end = address.saturating_add(length(self.argument(2)));
                for mapping in &mut self.recorder.processes.get_mut(self.process).mappings {
                    if mapping.at.start == old {
                        mapping.at = address..end;
                    }
                }
            }
            _ => {
                let begin = length(self.argument(0));
                let end = begin.saturating_add(length(self.argument(1)));
                let writable = self.says(2, "PROT_WRITE");
                for mapping in &mut self.recorder.processes.get_mut(self.process).mappings {
                    mapping.writable |= writable && mapping.at.start < end && begin < mapping.at.end;
                }
            }
        }
    }

    /// A mapping of a file is a read, whatever its protection, which may change. A shared one is kept.
    fn map(&mut self, address: u64, length: u64) {
        let at = address..address.saturating_add(length);
        if self.says(3, "MAP_FIXED") {
            self.unmap(at.start, at.end);
        }
        let shared = self.says(3, "MAP_SHARED");
        let file = if !self.says(3, "MAP_ANONYMOUS") {
            let file = self.file(4);
            if let Some(file) = file {
                self.recorder.read(self.process, file);
            }
            file
        } else if shared {
            Some(self.recorder.files.nameless(Sort::Passing, "shared memory".into()))
        } else {
            None
        };
        if let (Some(file), true) = (file, shared) {
            self.recorder.opened([file]);
            let writable = self.says(2, "PROT_WRITE");
            self.recorder.processes.get_mut(self.process).mappings.push(Mapping { at, file, writable });
        }
    }

    /// Takes away the shared mappings that lie within a range.
    fn unmap(&mut self, begin: u64, end: u64) {
        let mappings = &self.recorder.processes.get(self.process).mappings;
        let (gone, kept): (Vec<_>, Vec<_>) =
            mappings.iter().cloned().partition(|mapping| begin <= mapping.at.start && mapping.at.end <= end);
        if gone.is_empty() {
            return;
        }
        self.recorder.after(self.process);
        self.recorder.processes.get_mut(self.process).mappings = kept;
        self.recorder.closed(self.acting(), gone.into_iter().map(|mapping| mapping.file));
    }

    fn execute(&mut self, at: usize, thread: u32) {
        let empty = line::string(self.argument(at)).is_some_and(|name| name.is_empty());
        let (file, name) = if at == 1 && empty {
            let Some(file) = self.file(0) else { return };
            (file, self.recorder.files.get(file).label.clone().into_bytes())
        } else {
            let Some(path) = self.path_at(at) else { return };
            let path = self.recorder.files.followed(&path);
            (self.recorder.files.named(&path), path)
        };
        self.recorder.processes.get_mut(self.process).program = path::shown(path::split(&name).1);
        self.recorder.exec(self.process, thread, file);
    }

    fn rename(&mut self, at: usize) {
        let both = (self.path_at(at), if at == 0 { self.path(None, 1) } else { self.path_at(at + 2) });
        let (Some(old), Some(new)) = both else { return };
        let (old, new) = (self.recorder.files.not_followed(&old), self.recorder.files.not_followed(&new));
        if self.says(4, "RENAME_EXCHANGE") {
            let other = self.recorder.files.unlink(&new);
            self.renamed(&old, &new);
            if let Some(other) = other {
                self.named(other, &old, "a rename");
            }
        } else {
            self.renamed(&old, &new);
        }
    }

    /// The file follows its name; what is below a folder follows the folder.
    fn renamed(&mut self, old: &[u8], new: &[u8]) {
        if let Some(file) = self.recorder.files.unlink(old) {
            self.named(file, new, "a rename");
            return;
        }
        let below = self.recorder.files.below(old);
        if below.is_empty() {
            // A file that was never used: nothing of it is known.
            if let Some(lost) = self.recorder.files.unlink(new) {
                self.recorder.delete_if_gone(self.acting(), lost);
            }
        }
        for path in below {
            let rest = path::below(&path, old).unwrap_or_default();
            let moved = [new, b"/", rest].concat();
            if let Some(file) = self.recorder.files.unlink(&path) {
                self.named(file, &moved, "a rename");
            }
        }
    }

    /// A name leads to a file from here on, by a rename or a link.
    fn named(&mut self, file: FileId, path: &[u8], how: &str) {
        let lost = self.recorder.files.link(file, path);
        let label = self.recorder.files.story_name(path).map_or_else(|| path::shown(path), String::from);
        self.recorder.relabel(file, &label);
        if let Some(lost) = lost {
            self.recorder.delete_if_gone(self.acting(), lost);
        }
        self.recorder.govern(self.process, file, path, how);
    }

    fn link(&mut self, at: usize) {
        let new = if at == 0 { self.path(None, 1) } else { self.path_at(at + 2) };
        let Some(new) = new else { return };
        let empty = line::string(self.argument(at)).is_some_and(|name| name.is_empty());
        let file = if at == 1 && empty { self.file(0) } else { self.path_at(at).map(|old| self.linked(&old)) };
        let new = self.recorder.files.not_followed(&new);
        if let Some(file) = file {
            self.named(file, &new, "a link");
        }
    }

    /// The file that a link is made to; `/proc/self/fd/3` is what descriptor 3 stands for.
    fn linked(&mut self, old: &[u8]) -> FileId {
        let number = path::below(old, b"/proc/self/fd").and_then(|name| std::str::from_utf8(name).ok()?.parse().ok());
        let open = number.and_then(|number| self.recorder.processes.descriptor(self.process, number)?.file);
        let path = self.recorder.files.not_followed(old);
        open.unwrap_or_else(|| self.recorder.files.named(&path))
    }

    fn unlink(&mut self, at: usize) {
        let Some(path) = self.path_at(at) else { return };
        let path = self.recorder.files.not_followed(&path);
        if let Some(file) = self.recorder.files.unlink(&path) {
            self.recorder.delete_if_gone(self.acting(), file);
        }
    }

    fn change_folder(&mut self) {
        let place = line::descriptor(self.argument(0)).and_then(|found| found.place).map(|place| place.path);
        let folder = match place {
            Some(path) => Some(path),
            None => self.path(None, 0).map(|path| self.recorder.files.followed(&path)),
        };
        self.recorder.processes.get_mut(self.process).folder = folder;
    }

    fn set_user(&mut self, at: usize) {
        if let Ok(uid) = self.argument(at).parse() {
            self.recorder.processes.get_mut(self.process).uid = Some(uid);
        }
    }

    fn truncate(&mut self, meaning: Meaning) {
        if number(self.argument(1)) != Some(0) {
            return;
        }
        let file = match meaning {
            Meaning::Truncates => self.file(0),
            _ => self.file_at_path(),
        };
        if let Some(file) = file {
            self.recorder.files.get_mut(file).truncated = true;
        }
    }

    fn descriptors(&mut self, meaning: Meaning, value: i32, place: Option<&Place>) {
        match meaning {
            Meaning::Opens(at) => self.open_path(at, value, place),
            Meaning::MakesMemory => {
                let label = place.map_or_else(|| "memory".into(), |place| path::shown(&place.path));
                let file = self.recorder.files.nameless(Sort::Passing, label);
                self.open(value, Some(file), self.says(1, "CLOEXEC"));
            }
            Meaning::MakesNode(at) => self.make_node(at),
            Meaning::MakesPipe => self.make_pair(0, self.says(1, "O_CLOEXEC")),
            Meaning::MakesSocketPair => self.make_pair(3, self.says(1, "SOCK_CLOEXEC")),
            Meaning::MakesSocket => {
                let file = self.fresh(place);
                self.open(value, file, self.says(1, "SOCK_CLOEXEC"));
            }
            Meaning::Accepts => {
                let listening = self.file(0);
                let file = self.fresh(place);
                self.open(value, file, self.says(3, "SOCK_CLOEXEC"));
                self.merge(file, listening);
            }
            Meaning::Addresses { .. } | Meaning::NamesAddress => {
                let file = self.file(0);
                let name = address(self.argument(1));
                let other = name.map(|name| self.recorder.files.passing(&name));
                self.merge(file, other);
            }
            Meaning::Duplicates => {
                let close_on_exec = self.says(2, "O_CLOEXEC");
                self.duplicate(value, close_on_exec);
            }
            Meaning::Controls => self.control(value),
            Meaning::ControlsDevice => self.control_device(),
            Meaning::Closes => self.close(self.number(0)),
            _ => self.close_range(),
        }
    }

    fn open_path(&mut self, at: usize, number: i32, place: Option<&Place>) {
        let path = self.path_at(at);
        let file = match (place, &path) {
            (Some(place), _) => self.at(place, false),
            (None, Some(path)) => Some(self.recorder.files.named(path)),
            (None, None) => None,
        };
        if let (Some(path), Some(place)) = (&path, place.filter(|place| !place.deleted && place.path.starts_with(b"/")))
        {
            self.recorder.files.learn(path, &place.path);
        }
        // A creat has a mode in the place of the flags.
        let flags = self.argument(at + 1);
        let there =
            place.filter(|place| !place.deleted).is_some_and(|place| self.recorder.files.comes_back(&place.path));
        if there && !flags.contains("O_CREAT") && flags.contains("O_") && !self.recorder.names_move() {
            self.recorder.gap("a file is there again under a name that was taken away, and the log has not shown how");
        }
        let truncates = flags.contains("O_TRUNC") || !flags.contains("O_");
        self.open(number, file, flags.contains("O_CLOEXEC"));
        if let (Some(file), true) = (file, truncates) {
            let file = self.recorder.files.get_mut(file);
            let device = file.names.iter().any(|name| name.starts_with(b"/dev/") && !name.starts_with(b"/dev/shm/"));
            file.truncated = file.sort == Sort::File && !device;
        }
    }

    fn make_node(&mut self, at: usize) {
        if self.says(at + 1, "S_IFIFO") {
            if let Some(path) = self.path_at(at) {
                let path = self.recorder.files.not_followed(&path);
                let file = self.recorder.files.named(&path);
                self.recorder.files.get_mut(file).sort = Sort::NamedPipe;
            }
        }
    }

    /// The two ends of a pipe or of a pair of sockets: one volatile.
    fn make_pair(&mut self, at: usize, close_on_exec: bool) {
        let [first, second] = &line::descriptors(self.argument(at))[..] else {
            self.recorder.gap("a pair of descriptors that the log has not written out");
            return;
        };
        let one = self.fresh(first.place.as_ref());
        let other = if first.place == second.place { one } else { self.fresh(second.place.as_ref()) };
        for (end, file) in [(first, one), (second, other)] {
            if let Some(number) = end.number {
                self.open(number, file, close_on_exec);
            }
        }
        self.merge(one, other);
    }

    /// Lets two volatiles be one from here on.
    fn merge(&mut self, first: Option<FileId>, second: Option<FileId>) {
        if let (Some(first), Some(second)) = (first, second) {
            if self.recorder.files.root(first) != self.recorder.files.root(second) {
                self.recorder.merge(self.process, first, second);
            }
        }
    }

    fn duplicate(&mut self, new: i32, close_on_exec: bool) {
        let file = self.file(0);
        if self.number(0) != Some(new) {
            self.open(new, file, close_on_exec);
        }
    }

    fn control(&mut self, value: i32) {
        match self.argument(1) {
            "F_DUPFD" => self.duplicate(value, false),
            "F_DUPFD_CLOEXEC" => self.duplicate(value, true),
            "F_SETFD" => self.mark(self.says(2, "FD_CLOEXEC")),
            _ => {}
        }
    }

    /// Sets or clears the mark by which an exec closes a descriptor.
    fn mark(&mut self, close_on_exec: bool) {
        self.file(0);
        if let Some(number) = self.number(0) {
            self.recorder.processes.set_close_on_exec(self.process, number, close_on_exec);
        }
    }

    fn control_device(&mut self) {
        let control = self.argument(1);
        match control {
            "FIOCLEX" => self.mark(true),
            "FIONCLEX" => self.mark(false),
            _ if control.contains("FICLONE") && !control.contains("RANGE") => {
                let from = self.file(2);
                self.write(from, 0);
            }
            _ => {
                let known = table::NO_DATA_CONTROLS.iter().any(|begin| control.starts_with(begin));
                if !known || control == "TIOCSTI" {
                    self.recorder.gap(&format!("the device control {control} is not in the table"));
                }
            }
        }
    }

    fn close_range(&mut self) {
        let first = self.argument(0).parse().unwrap_or(0);
        let last = self.argument(1).parse().unwrap_or(i32::MAX);
        for number in self.recorder.processes.numbers(self.process, first..=last) {
            if self.says(2, "CLOSE_RANGE_CLOEXEC") {
                self.recorder.processes.set_close_on_exec(self.process, number, true);
            } else {
                self.close(Some(number));
            }
        }
    }
}

/// A number as strace writes it.
fn number(text: &str) -> Option<u64> {
    match text.strip_prefix("0x") {
        Some(digits) => u64::from_str_radix(digits, 16).ok(),
        None if text == "NULL" => Some(0),
        None => text.parse().ok(),
    }
}

/// `/proc/123/mem`.
fn is_memory_of_process(path: &[u8]) -> bool {
    let middle = path::below(path, b"/proc").and_then(|rest| rest.strip_suffix(b"/mem"));
    middle.is_some_and(|middle| middle == b"self" || middle.iter().all(u8::is_ascii_digit))
}

/// The name of the volatile that stands for an address: one for each, and of the addresses of this machine one for each port.
fn address(text: &str) -> Option<Vec<u8>> {
    let inner = text.strip_prefix('{')?;
    let port = inner.split_once("port=htons(").and_then(|(_, rest)| rest.split_once(')')).map(|(port, _)| port);
    let local = ["\"127.", "\"0.0.0.0\"", "\"::1\"", "\"::\""].iter().any(|host| inner.contains(host));
    match port {
        Some("0") => None,
        Some(port) if local => Some(format!("socket at port {port}").into_bytes()),
        Some(_) => Some(format!("socket at {inner}").into_bytes()),
        None if inner.contains("sun_path=") => Some(format!("socket at {inner}").into_bytes()),
        None => None,
    }
}
