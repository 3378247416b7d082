//! The page of a folder.

use std::fs;
use std::path::{Path, PathBuf};

use clap::ArgMatches;
use report::{page, Page, PageError};

use crate::status::{tell, Failure, Outcome};

/// Writes the page that the arguments ask for.
pub fn write(matches: &ArgMatches) -> Result<(String, Outcome), Failure> {
    let path = |name: &str| matches.get_one::<PathBuf>(name).expect("clap has a value for it");
    make(path("folder"), path("output"))
}

/// Writes the page of what another subcommand has run, and tells where it is. What is not in it counts as not followed.
pub fn add(folder: &Path, file: &Path) -> Result<bool, Failure> {
    let (line, outcome) = make(folder, file)?;
    tell(line.trim_end());
    Ok(outcome.gaps)
}

/// Writes the page of a folder, tells what is not in it, and gives the line that says what is.
fn make(folder: &Path, file: &Path) -> Result<(String, Outcome), Failure> {
    let page = match page(folder) {
        Ok(page) => page,
        Err(PageError::Policy(message)) => {
            tell(&message);
            return Ok((String::new(), Outcome { policy_refused: true, ..Outcome::default() }));
        }
        Err(error) => return Err(Failure::new(error.to_string())),
    };
    fs::write(file, &page.html).map_err(|error| Failure::file(file, error))?;
    page.notes.iter().for_each(|note| tell(&format!("note: {note}")));
    page.gaps.iter().for_each(|gap| tell(&format!("not followed: {gap}")));
    let Page { records, alerts, blocked, refused, explained, .. } = page;
    let line = format!(
        "{}: {records} records: {alerts} alerts, {blocked} blocked, {refused} refused; {explained} explained\n",
        file.display()
    );
    let (alerts, gaps) = (alerts + blocked > 0, refused > 0 || !page.gaps.is_empty());
    Ok((line, Outcome { alerts, gaps, ..Outcome::default() }))
}
