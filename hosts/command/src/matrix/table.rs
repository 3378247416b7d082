//! A matrix from a file: a text, or a table as a spreadsheet exports it.

use std::fs::File;
use std::io::{self, Read};
use std::path::Path;

use analysis::{MatrixError, NamedMatrix, OBJECT_LIMIT, SUBJECT_LIMIT};
use csv::{ReaderBuilder, StringRecord, WriterBuilder};

use crate::matrix::Stop;
use crate::status::Failure;

/// How long a file may be that is read.
const LENGTH_LIMIT: u64 = 1 << 20;

/// What stands between two cells of a table, by its first line that says something; nothing for a text.
fn separator(text: &str) -> Option<u8> {
    let first = text.lines().find(|line| !line.trim().is_empty() && !line.trim_start().starts_with('#'))?;
    [b',', b';', b'\t'].into_iter().find(|mark| first.as_bytes().contains(mark))
}

/// The cells of a row without the empty ones at its end.
fn trimmed(record: &StringRecord) -> Vec<String> {
    let mut cells: Vec<String> = record.iter().map(|cell| cell.trim().to_string()).collect();
    while cells.last().is_some_and(String::is_empty) {
        cells.pop();
    }
    cells
}

/// The matrix of a table. Spreadsheets end rows with empty cells or leave them out.
fn read_table(text: &str, separator: u8) -> Result<NamedMatrix, MatrixError> {
    let mut reader = ReaderBuilder::new();
    let reader = reader.delimiter(separator).has_headers(false).flexible(true).comment(Some(b'#'));
    let mut reader = reader.from_reader(text.as_bytes());
    let mut rows: Vec<(usize, Vec<String>)> = Vec::new();
    for record in reader.records() {
        let record = record.map_err(|error| MatrixError::new(1, error.to_string()))?;
        let line = record.position().map_or(1, |position| position.line() as usize);
        let mut cells = trimmed(&record);
        if cells.is_empty() {
            continue;
        }
        let width = rows.first().map_or(0, |(_, heading)| heading.len());
        cells.resize(width.max(cells.len()), String::new());
        rows.push((line, cells));
    }
    // What stands over the names of the subjects counts for nothing.
    if let Some((_, heading)) = rows.first_mut() {
        heading.remove(0);
    }
    NamedMatrix::from_cells(rows)
}

/// The matrix of a file's bytes.
fn read_bytes(bytes: &[u8]) -> Result<NamedMatrix, MatrixError> {
    let text = std::str::from_utf8(bytes).map_err(|error| {
        let line = bytes[..error.valid_up_to()].iter().filter(|byte| **byte == b'\n').count() + 1;
        MatrixError::new(line, "found bytes that are no UTF-8, expected text".into())
    })?;
    let text = text.strip_prefix('\u{feff}').unwrap_or(text);
    match separator(text) {
        Some(separator) => read_table(text, separator),
        None => NamedMatrix::read_text(text),
    }
}

/// Reads the matrix of a file, or of standard input for `-`.
pub fn read(path: &Path) -> Result<NamedMatrix, Stop> {
    let mut bytes = Vec::new();
    let read = if path.as_os_str() == "-" {
        io::stdin().take(LENGTH_LIMIT + 1).read_to_end(&mut bytes)
    } else {
        File::open(path).and_then(|file| file.take(LENGTH_LIMIT + 1).read_to_end(&mut bytes))
    };
    let length = read.map_err(|error| Stop::Failed(Failure::file(path, error)))?;
    if length as u64 > LENGTH_LIMIT {
        let most = format!("{SUBJECT_LIMIT} subjects and {OBJECT_LIMIT} objects");
        return Err(Stop::Refused(format!("{}: over {LENGTH_LIMIT} bytes, expected at most {most}", path.display())));
    }
    read_bytes(&bytes).map_err(|error| Stop::Refused(format!("{}:{error}", path.display())))
}

/// Writes a matrix as a table with commas.
pub fn write(path: &Path, matrix: &NamedMatrix) -> Result<(), Failure> {
    let failed = |error: &dyn std::fmt::Display| Failure::file(path, error);
    let mut writer = WriterBuilder::new().from_path(path).map_err(|error| failed(&error))?;
    let heading = ["subject"].into_iter().chain(matrix.objects().iter().map(String::as_str));
    writer.write_record(heading).map_err(|error| failed(&error))?;
    for (subject, name) in matrix.subjects().iter().enumerate() {
        let cells = (0..matrix.objects().len()).map(|object| matrix.cell(subject, object));
        writer.write_record([name.as_str()].into_iter().chain(cells)).map_err(|error| failed(&error))?;
    }
    writer.flush().map_err(|error| failed(&error))
}
