//! Steps: operations by the names of their containers.

use yaslaurel::layout::image::CONTAINERS;
use yaslaurel::{Operation, Policy};

/// A step of a story.
#[derive(Clone, Debug, PartialEq, Eq)]
#[non_exhaustive]
pub struct Step {
    /// The line of the text, from 1.
    pub line: usize,
    /// The operation, by numbers.
    pub operation: Operation,
    /// The name of its process.
    pub process: String,
    /// The name of its object; that of the process for an end.
    pub object: String,
    /// The name of its user, for an exec and a new file.
    pub user: Option<String>,
}

/// A container, of the policy or made by a step.
#[derive(Clone, Debug, PartialEq, Eq)]
#[non_exhaustive]
pub struct Holder {
    /// Its number, which others may take once it has left.
    pub number: u8,
    /// Its name.
    pub name: String,
}

impl Holder {
    /// The container of a number and a name.
    pub fn new(number: u8, name: impl Into<String>) -> Holder {
        Holder { number, name: name.into() }
    }
}

/// Who holds which number while the steps of a text are read. A container that a step makes takes the smallest free number;
/// after an end or a delete the name is gone and the number free. Each step counts as accepted.
#[derive(Clone, Debug)]
pub struct Steps {
    /// By number; nothing for a free one.
    holding: Vec<Option<String>>,
    holders: Vec<Holder>,
}

impl Steps {
    /// The containers of a policy, before any step.
    pub fn new(policy: &Policy) -> Steps {
        let mut steps = Steps { holding: Vec::new(), holders: Vec::new() };
        for (name, _) in policy.containers() {
            steps.take(name).expect("a policy's containers have numbers and names of their own");
        }
        steps
    }

    /// All containers that have been there, in the order in which they came.
    pub fn holders(&self) -> &[Holder] {
        &self.holders
    }

    fn number(&self, name: &str) -> Result<u8, String> {
        let place = self.holding.iter().position(|holder| holder.as_deref() == Some(name));
        let number = place.map(|place| place as u8);
        number.ok_or_else(|| format!("there is no container `{name}` here, expected one that is there"))
    }

    fn take(&mut self, name: &str) -> Result<u8, String> {
        if self.number(name).is_ok() {
            return Err(format!("the container `{name}` is there already, expected a new name"));
        }
        let free = self.holding.iter().position(Option::is_none).unwrap_or(self.holding.len());
        if free == CONTAINERS.most {
            return Err(format!(
                "no number is free for `{name}`, expected at most {} containers at a time",
                CONTAINERS.most
            ));
        }
        if free == self.holding.len() {
            self.holding.push(None);
        }
        self.holding[free] = Some(name.into());
        self.holders.push(Holder::new(free as u8, name));
        Ok(free as u8)
    }

    fn leave(&mut self, name: &str) -> Result<u8, String> {
        let number = self.number(name)?;
        self.holding[usize::from(number)] = None;
        Ok(number)
    }

    /// The operation of a word, `read` to `delete`, with a process and an object by name, and the number of a user for an exec
    /// and a new file.
    ///
    /// # Errors
    ///
    /// What is wrong and what was expected, if a name is not there or is there already, or the user is missing or too much.
    pub fn operation(
        &mut self,
        word: &str,
        process: &str,
        object: &str,
        user: Option<u8>,
    ) -> Result<Operation, String> {
        let named = |user: Option<u8>| user.ok_or(format!("no user, expected `as` and a user behind {word}"));
        if user.is_some() && !["exec", "new-file"].contains(&word) {
            return Err(format!("a user behind {word}, expected one behind exec and new-file alone"));
        }
        let process = self.number(process)?;
        Ok(match word {
            "read" => Operation::Read { process, object: self.number(object)? },
            "write" => Operation::Write { process, object: self.number(object)? },
            "append" => Operation::Append { process, object: self.number(object)? },
            "exec" => Operation::Exec { process, file: self.number(object)?, user: named(user)? },
            "fork" => Operation::Fork { process, child: self.take(object)? },
            "new-file" => {
                let user = named(user)?;
                Operation::NewFile { process, file: self.take(object)?, user }
            }
            "new-volatile" => Operation::NewVolatile { process, volatile: self.take(object)? },
            "end" if self.number(object) != Ok(process) => return Err("an end of another, expected its process".into()),
            "end" => Operation::End { process: self.leave(object)? },
            "delete" => Operation::Delete { process, object: self.leave(object)? },
            _ => {
                let words = "read, write, append, exec, fork, new-file, new-volatile, end or delete";
                return Err(format!("`{word}` is no operation, expected {words}"));
            }
        })
    }
}
