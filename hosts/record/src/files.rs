//! Files by identity: which names lead to which file, while names come, go and move.

use std::collections::{BTreeSet, HashMap, HashSet};

use crate::path;
use crate::plan::{RuleUser, StoryFile};

/// The place of a file among all that were seen.
pub type FileId = usize;

#[derive(Clone, Copy, Debug, PartialEq, Eq)]
pub enum Sort {
    /// It stays when nobody has it open.
    File,
    /// A named pipe: a volatile with a path, which stays.
    NamedPipe,
    /// A pipe, socket, memory file or shared memory: a volatile that is gone with its last descriptor and mapping.
    Passing,
}

#[derive(Clone, Debug)]
pub struct File {
    pub sort: Sort,
    pub label: String,
    pub names: BTreeSet<Vec<u8>>,
    /// How many descriptors and shared mappings there are.
    pub open: usize,
    /// Whether it was open before the log shows who opened it, so that others may have it open too.
    pub outside: bool,
    /// Whether a truncating open has no write behind it yet.
    pub truncated: bool,
    /// Its container, if it has one just now.
    pub number: Option<u8>,
    /// The story's permit rule, if it has a name of the story with one.
    pub rule: Option<RuleUser>,
    /// Whether its container is one of the image.
    pub of_image: bool,
    /// Whether it is a source of the story.
    pub source: bool,
    /// When it was last used.
    pub used: u64,
    merged: Option<FileId>,
}

impl File {
    fn new(sort: Sort, label: String, names: BTreeSet<Vec<u8>>) -> File {
        File {
            sort,
            label,
            names,
            open: 0,
            outside: false,
            truncated: false,
            number: None,
            rule: None,
            of_image: false,
            source: false,
            used: 0,
            merged: None,
        }
    }

    /// Whether nothing leads to it any more.
    pub fn is_gone(&self) -> bool {
        self.open == 0 && !self.outside && (self.sort == Sort::Passing || self.names.is_empty())
    }
}

/// All files, and the names that lead to them. What has no path has a text such as `pipe:[123]` for a name.
pub struct Files {
    all: Vec<File>,
    names: HashMap<Vec<u8>, FileId>,
    /// The story's name and rule at a path.
    story: HashMap<Vec<u8>, (String, Option<RuleUser>)>,
    /// Where a path leads that an open has shown to be another name of a file: through a link or a linked folder.
    links: HashMap<Vec<u8>, Vec<u8>>,
    folders: HashMap<Vec<u8>, Vec<u8>>,
    /// The links in the root folder, such as `/bin`, and where they lead.
    root_links: Vec<(Vec<u8>, Vec<u8>)>,
    /// Paths at which nothing is any more.
    gone: HashSet<Vec<u8>>,
}

impl Files {
    pub fn new(story: &[StoryFile], root_links: Vec<(Vec<u8>, Vec<u8>)>) -> Files {
        let rules = story.iter().map(|file| (file.path.clone(), (file.name.clone(), file.rule))).collect();
        let (names, links, folders, gone) = Default::default();
        let mut files = Files { all: Vec::new(), names, story: rules, links, folders, root_links, gone };
        for file in story {
            let id = files.named(&file.path);
            files.all[id].number = Some(file.number);
            files.all[id].of_image = true;
            files.all[id].source = file.source;
            files.learn(&file.written, &file.path);
        }
        files
    }

    /// The file that a merge has left.
    pub fn root(&self, mut id: FileId) -> FileId {
        while let Some(next) = self.all[id].merged {
            id = next;
        }
        id
    }

    pub fn get(&self, id: FileId) -> &File {
        &self.all[self.root(id)]
    }

    pub fn get_mut(&mut self, id: FileId) -> &mut File {
        let id = self.root(id);
        &mut self.all[id]
    }

    pub fn ids(&self) -> impl Iterator<Item = FileId> + '_ {
        (0..self.all.len()).filter(|id| self.all[*id].merged.is_none())
    }

    /// The file that a name leads to, if it was seen.
    pub fn find(&self, name: &[u8]) -> Option<FileId> {
        self.names.get(name).map(|id| self.root(*id))
    }

    /// The file at a path; at first sight it is a new one.
    pub fn named(&mut self, path: &[u8]) -> FileId {
        self.find(path).unwrap_or_else(|| {
            let (label, rule) = match self.story.get(path) {
                Some((name, rule)) => (name.clone(), *rule),
                None => (path::shown(path), None),
            };
            let mut file = File::new(Sort::File, label, [path.to_vec()].into());
            file.rule = rule;
            self.add(file)
        })
    }

    /// The passing volatile of a name; at first sight it is a new one.
    pub fn passing(&mut self, name: &[u8]) -> FileId {
        let new = || File::new(Sort::Passing, path::shown(name), [name.to_vec()].into());
        self.find(name).unwrap_or_else(|| self.add(new()))
    }

    /// A new volatile or file that no name leads to.
    pub fn nameless(&mut self, sort: Sort, label: String) -> FileId {
        self.add(File::new(sort, label, BTreeSet::new()))
    }

    fn add(&mut self, file: File) -> FileId {
        let id = self.all.len();
        self.names.extend(file.names.iter().map(|name| (name.clone(), id)));
        self.all.push(file);
        id
    }

    /// Lets a name lead to a file; the file that it led to loses it.
    pub fn link(&mut self, id: FileId, name: &[u8]) -> Option<FileId> {
        let lost = self.unlink(name);
        self.gone.remove(name);
        let id = self.root(id);
        self.names.insert(name.to_vec(), id);
        self.all[id].names.insert(name.to_vec());
        lost
    }

    /// Takes a name away, and gives the file that it led to.
    pub fn unlink(&mut self, name: &[u8]) -> Option<FileId> {
        self.links.remove(name);
        if name.starts_with(b"/") {
            self.gone.insert(name.to_vec());
        }
        let id = self.names.remove(name)?;
        let id = self.root(id);
        self.all[id].names.remove(name);
        Some(id)
    }

    /// Whether a path at which nothing was any more has come back; it is there again from here on.
    pub fn comes_back(&mut self, path: &[u8]) -> bool {
        self.gone.remove(path)
    }

    /// Takes all names of a passing volatile away.
    pub fn forget(&mut self, id: FileId) {
        let id = self.root(id);
        for name in std::mem::take(&mut self.all[id].names) {
            self.names.remove(&name);
        }
    }

    /// The paths below a folder that lead to files.
    pub fn below(&self, folder: &[u8]) -> Vec<Vec<u8>> {
        self.names.keys().filter(|name| path::below(name, folder).is_some()).cloned().collect()
    }

    /// Lets two volatiles be one: descriptors and names of the first lead to the second.
    pub fn merge(&mut self, first: FileId, second: FileId) {
        let (first, second) = (self.root(first), self.root(second));
        if first == second {
            return;
        }
        let names = std::mem::take(&mut self.all[first].names);
        let open = std::mem::take(&mut self.all[first].open);
        self.all[second].names.extend(names);
        self.all[second].open += open;
        self.all[first].merged = Some(second);
    }

    /// The story's name and rule at a path.
    pub fn story_rule(&self, path: &[u8]) -> Option<RuleUser> {
        self.story.get(path).and_then(|(_, rule)| *rule)
    }

    pub fn story_name(&self, path: &[u8]) -> Option<&str> {
        self.story.get(path).map(|(name, _)| name.as_str())
    }

    /// Notes that an open of a path has led to a file of another path.
    pub fn learn(&mut self, path: &[u8], real: &[u8]) {
        let path = self.past_root_link(path);
        if path == real {
            self.links.remove(&path);
            return;
        }
        self.links.insert(path.clone(), real.to_vec());
        let ((folder, name), (real_folder, real_name)) = (path::split(&path), path::split(real));
        if name == real_name {
            self.folders.insert(folder.to_vec(), real_folder.to_vec());
        }
    }

    /// A path with the link in the root folder followed.
    fn past_root_link(&self, path: &[u8]) -> Vec<u8> {
        let found = self.root_links.iter().find_map(|(link, real)| Some((real, path::below(path, link)?)));
        found.map_or_else(|| path.to_vec(), |(real, rest)| [&real[..], b"/", rest].concat())
    }

    /// Where a path leads, links followed as far as opens have shown them.
    pub fn followed(&self, path: &[u8]) -> Vec<u8> {
        match self.links.get(&self.past_root_link(path)) {
            Some(real) => real.clone(),
            None => self.not_followed(path),
        }
    }

    /// Where the folder of a path leads, with the name in it: the name itself may be a link.
    pub fn not_followed(&self, path: &[u8]) -> Vec<u8> {
        let path = self.past_root_link(path);
        let (folder, name) = path::split(&path);
        match self.folders.get(folder).and_then(|real| path::absolute(Some(real), name)) {
            Some(real) => real,
            None => path,
        }
    }
}
