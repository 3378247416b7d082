//! An access matrix with names.

use std::error::Error;
use std::fmt;

use yaslaurel::Matrix;

/// How many subjects a matrix may have.
pub const SUBJECT_LIMIT: usize = 8;

/// How many objects a matrix may have.
pub const OBJECT_LIMIT: usize = 32;

/// An access matrix whose subjects and objects have names.
///
/// ```
/// use analysis::NamedMatrix;
/// let matrix = NamedMatrix::read_text("# Two desks.\n      totals report\nnorth r      w\nsouth -      rw\n")?;
/// assert_eq!((matrix.subjects(), matrix.objects()), (&["north", "south"].map(String::from)[..], &["totals", "report"].map(String::from)[..]));
/// assert_eq!((matrix.rows().reads, matrix.rows().writes), (&[0b01, 0b10][..], &[0b10, 0b10][..]));
/// let error = NamedMatrix::read_text("totals\nnorth x\n").unwrap_err();
/// assert_eq!(error.to_string(), "2: found `x`, expected r, w, rw or -");
/// # Ok::<(), analysis::MatrixError>(())
/// ```
#[derive(Clone, Debug, PartialEq, Eq)]
pub struct NamedMatrix {
    subjects: Vec<String>,
    objects: Vec<String>,
    reads: Vec<u32>,
    writes: Vec<u32>,
}

/// What is wrong with a text of a matrix.
#[derive(Clone, Debug, PartialEq, Eq)]
#[non_exhaustive]
pub struct MatrixError {
    /// The line, from 1.
    pub line: usize,
    /// What was found there and what was expected.
    pub message: String,
}

impl MatrixError {
    /// What is wrong in a line.
    #[must_use]
    pub fn new(line: usize, message: String) -> MatrixError {
        MatrixError { line, message }
    }
}

/// `LINE: MESSAGE`.
impl fmt::Display for MatrixError {
    fn fmt(&self, f: &mut fmt::Formatter<'_>) -> fmt::Result {
        write!(f, "{}: {}", self.line, self.message)
    }
}

impl Error for MatrixError {}

/// A right of a matrix.
#[derive(Clone, Copy, Debug, PartialEq, Eq, Hash, PartialOrd, Ord)]
pub struct Right {
    /// Whether it is to write; else to read.
    pub write: bool,
    /// The number of the subject.
    pub subject: usize,
    /// The number of the object.
    pub object: usize,
}

/// The cells of a line of a text, without its comment.
fn cells(line: &str) -> Vec<String> {
    let mut words = line.split_whitespace().take_while(|word| !word.starts_with('#'));
    words.by_ref().map(String::from).collect()
}

/// The rights of a cell: to read, to write.
fn rights(cell: &str) -> Option<(bool, bool)> {
    match cell.trim() {
        "r" => Some((true, false)),
        "w" => Some((false, true)),
        "rw" => Some((true, true)),
        "" | "-" => Some((false, false)),
        _ => None,
    }
}

/// Names of which no two are equal, none is empty, and each can stand in a file of names.
fn names(line: usize, cells: &[String], what: &str) -> Result<Vec<String>, MatrixError> {
    let mut names: Vec<String> = Vec::new();
    for name in cells.iter().map(|cell| cell.trim()) {
        let wrong = |message: String| MatrixError { line, message };
        if name.is_empty() {
            return Err(wrong(format!("found no name, expected one for each {what}")));
        }
        if name.contains(|c: char| c == '"' || c.is_control()) {
            return Err(wrong(format!("found the name {name:?}, expected no double quote and no control character")));
        }
        if names.iter().any(|other| other == name) {
            return Err(wrong(format!("the {what} `{name}` is there already, expected it once")));
        }
        names.push(name.into());
    }
    Ok(names)
}

impl NamedMatrix {
    /// Reads a matrix from a text: a line with the names of the objects, then a line for each subject, its name and a cell for each object:
    /// `r`, `w`, `rw` or `-`. Cells stand apart by spaces. A `#` at the beginning of a word begins a comment.
    ///
    /// # Errors
    ///
    /// The first line that is not so.
    pub fn read_text(text: &str) -> Result<NamedMatrix, MatrixError> {
        let lines = text.lines().enumerate().map(|(place, line)| (place + 1, cells(line)));
        NamedMatrix::from_cells(lines.filter(|(_, cells)| !cells.is_empty()).collect())
    }

    /// Reads a matrix from cells, each row with the number of its line. The first row has the names of the objects; if it is as long as the second,
    /// its first cell counts for nothing. An empty cell is `-`.
    ///
    /// # Errors
    ///
    /// The first line that is not so.
    pub fn from_cells(rows: Vec<(usize, Vec<String>)>) -> Result<NamedMatrix, MatrixError> {
        let wrong = |line: usize, message: String| Err(MatrixError { line, message });
        let mut rows = rows.into_iter();
        let Some((heading, objects)) = rows.next() else {
            return wrong(1, "found nothing, expected a line with the names of the objects".into());
        };
        let rows: Vec<(usize, Vec<String>)> = rows.collect();
        let Some((_, first)) = rows.first() else {
            return wrong(heading, "found no line behind this one, expected one for each subject".into());
        };
        let corner = usize::from(objects.len() == first.len());
        let objects = names(heading, &objects[corner.min(objects.len())..], "object")?;
        if objects.is_empty() || objects.len() > OBJECT_LIMIT {
            return wrong(heading, format!("found {} objects, expected 1 to {OBJECT_LIMIT}", objects.len()));
        }
        if rows.len() > SUBJECT_LIMIT {
            return wrong(
                rows[SUBJECT_LIMIT].0,
                format!("found {} subjects, expected 1 to {SUBJECT_LIMIT}", rows.len()),
            );
        }
        let mut matrix = NamedMatrix { subjects: Vec::new(), objects, reads: Vec::new(), writes: Vec::new() };
        for (line, cells) in rows {
            matrix.take_row(line, &cells)?;
        }
        Ok(matrix)
    }

    /// Takes up the row of a subject.
    fn take_row(&mut self, line: usize, cells: &[String]) -> Result<(), MatrixError> {
        let wanted = self.objects.len() + 1;
        if cells.len() != wanted {
            let message = format!("found {} cells, expected {wanted}: a name and one for each object", cells.len());
            return Err(MatrixError { line, message });
        }
        let mut subjects = self.subjects.clone();
        subjects.push(cells[0].clone());
        self.subjects = names(line, &subjects, "subject")?;
        let (mut reads, mut writes) = (0, 0);
        for (object, cell) in cells[1..].iter().enumerate() {
            let (read, write) = rights(cell).ok_or_else(|| MatrixError {
                line,
                message: format!("found `{}`, expected r, w, rw or -", cell.trim()),
            })?;
            reads |= u32::from(read) << object;
            writes |= u32::from(write) << object;
        }
        self.reads.push(reads);
        self.writes.push(writes);
        Ok(())
    }

    /// The names of the subjects.
    #[must_use]
    pub fn subjects(&self) -> &[String] {
        &self.subjects
    }

    /// The names of the objects.
    #[must_use]
    pub fn objects(&self) -> &[String] {
        &self.objects
    }

    /// The number of the object of a name.
    #[must_use]
    pub fn object_named(&self, name: &str) -> Option<usize> {
        self.objects.iter().position(|other| other == name)
    }

    /// The number of the subject of a name.
    #[must_use]
    pub fn subject_named(&self, name: &str) -> Option<usize> {
        self.subjects.iter().position(|other| other == name)
    }

    /// The rows, as the library takes them.
    #[must_use]
    pub fn rows(&self) -> Matrix<'_> {
        Matrix { reads: &self.reads, writes: &self.writes, objects: self.objects.len() as u32 }
    }

    /// The same names with other rows.
    #[must_use]
    pub fn with_rows(&self, reads: &[u32], writes: &[u32]) -> NamedMatrix {
        NamedMatrix { reads: reads.to_vec(), writes: writes.to_vec(), ..self.clone() }
    }

    /// The matrix with its subjects and objects in the order of another one, which must have the same names.
    ///
    /// # Errors
    ///
    /// A name that only one of them has, in words.
    pub fn in_order_of(&self, other: &NamedMatrix) -> Result<NamedMatrix, String> {
        same_names("subject", &self.subjects, &other.subjects)?;
        same_names("object", &self.objects, &other.objects)?;
        let mut ordered = other.with_rows(&vec![0; other.reads.len()], &vec![0; other.reads.len()]);
        for right in self.rights() {
            let subject = other.subject_named(&self.subjects[right.subject]).expect("the names are the same");
            let object = other.object_named(&self.objects[right.object]).expect("the names are the same");
            ordered.set(Right { subject, object, ..right }, true);
        }
        Ok(ordered)
    }

    /// Whether it has a right.
    #[must_use]
    pub fn has(&self, right: Right) -> bool {
        self.row(right.write)[right.subject] >> right.object & 1 == 1
    }

    /// The cell of a subject and an object: `r`, `w`, `rw` or `-`.
    #[must_use]
    pub fn cell(&self, subject: usize, object: usize) -> &'static str {
        let has = |write: bool| self.has(Right { write, subject, object });
        match (has(false), has(true)) {
            (true, false) => "r",
            (false, true) => "w",
            (true, true) => "rw",
            (false, false) => "-",
        }
    }

    /// Gives or withdraws a right.
    pub fn set(&mut self, right: Right, given: bool) {
        let rows = if right.write { &mut self.writes } else { &mut self.reads };
        rows[right.subject] = rows[right.subject] & !(1 << right.object) | u32::from(given) << right.object;
    }

    /// The rows of one kind of right.
    fn row(&self, write: bool) -> &[u32] {
        if write {
            &self.writes
        } else {
            &self.reads
        }
    }

    /// All rights: to read before to write, by subject, then by object.
    pub fn rights(&self) -> impl Iterator<Item = Right> + '_ {
        let (subjects, objects) = (self.subjects.len(), self.objects.len());
        let all = [false, true].into_iter().flat_map(move |write| {
            (0..subjects).flat_map(move |subject| (0..objects).map(move |object| Right { write, subject, object }))
        });
        all.filter(|right| self.has(*right))
    }

    /// A right in words: who may read or write what.
    #[must_use]
    pub fn words(&self, right: Right) -> String {
        let verb = if right.write { "write" } else { "read" };
        format!("{} may {verb} {}", self.subjects[right.subject], self.objects[right.object])
    }
}

/// The names of two matrices are the same, in any order.
fn same_names(what: &str, names: &[String], others: &[String]) -> Result<(), String> {
    match (names.iter().find(|name| !others.contains(name)), others.iter().find(|name| !names.contains(name))) {
        (None, None) => Ok(()),
        (Some(name), _) => Err(format!("found the {what} `{name}`, which the old matrix has not")),
        (None, Some(name)) => Err(format!("the {what} `{name}` of the old matrix is missing")),
    }
}
