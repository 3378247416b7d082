//! One line of a story.

use crate::token::{tokens, Token};

/// A source in a mixture: its name, and whether it is executed.
#[derive(Clone, Debug, PartialEq, Eq)]
pub struct Part {
    pub name: String,
    pub running: bool,
}

/// What a line says, by names. The same words as in `docs/FORMATS.md`.
#[derive(Clone, Debug, PartialEq, Eq)]
pub enum Statement {
    Source {
        name: String,
    },
    /// Without mixtures it is unrestricted: `everything`.
    Rule {
        name: String,
        mixtures: Option<Vec<Vec<Part>>>,
    },
    Owner {
        rule: String,
        user: String,
    },
    File {
        name: String,
        guarded: bool,
        source: Option<String>,
        permit: Option<String>,
        run: Option<String>,
    },
    Permit {
        file: String,
        owner: Option<String>,
        mixtures: Vec<Vec<Part>>,
    },
    Volatile {
        name: String,
    },
    Process {
        name: String,
    },
    User {
        name: String,
        rule: Option<String>,
        uid: Option<u32>,
    },
    Step {
        operation: String,
        process: String,
        object: String,
        user: Option<String>,
    },
}

/// The statement of a line; nothing for a line without one.
pub fn statement(line: &str) -> Result<Option<Statement>, String> {
    let tokens = tokens(line)?;
    let mut words = Words { tokens: &tokens };
    if tokens.is_empty() {
        return Ok(None);
    }
    let found = words.statement()?;
    words.end()?;
    Ok(Some(found))
}

/// The tokens of a line that are still to be read.
struct Words<'a> {
    tokens: &'a [Token<'a>],
}

impl Words<'_> {
    /// What is wrong here.
    fn wrong<T>(&self, expected: &str) -> Result<T, String> {
        let found = self.tokens.first().map_or("the end of the line".into(), Token::to_string);
        Err(format!("found {found}, expected {expected}"))
    }

    fn end(&self) -> Result<(), String> {
        if self.tokens.is_empty() {
            Ok(())
        } else {
            self.wrong("the end of the line (a name with a space or one of { } , = : | stands in double quotes)")
        }
    }

    fn name(&mut self, expected: &str) -> Result<String, String> {
        match self.tokens {
            [Token::Word(name) | Token::Quoted(name), rest @ ..] if !name.is_empty() => {
                self.tokens = rest;
                Ok(name.to_string())
            }
            _ => self.wrong(expected),
        }
    }

    /// Takes a token if it is the next one.
    fn takes(&mut self, token: Token<'_>) -> bool {
        let there = self.tokens.first() == Some(&token);
        if there {
            self.tokens = &self.tokens[1..];
        }
        there
    }

    fn mark(&mut self, mark: char) -> Result<(), String> {
        if self.takes(Token::Mark(mark)) {
            Ok(())
        } else {
            self.wrong(&format!("`{mark}`"))
        }
    }

    /// The name behind a keyword, if the keyword is next; no keyword may stand twice.
    /// A word that stands alone, once.
    fn flag(&mut self, keyword: &str, into: &mut bool) -> bool {
        let takes = !*into && self.takes(Token::Word(keyword));
        *into |= takes;
        takes
    }

    fn option(&mut self, keyword: &str, into: &mut Option<String>) -> Result<bool, String> {
        if into.is_some() || !self.takes(Token::Word(keyword)) {
            return Ok(false);
        }
        *into = Some(self.name(&format!("a name behind `{keyword}`"))?);
        Ok(true)
    }

    fn statement(&mut self) -> Result<Statement, String> {
        let wrong = self.wrong("source, rule, file, permit, volatile, process, user, owner or step");
        let [Token::Word(word), rest @ ..] = self.tokens else { return wrong };
        self.tokens = rest;
        Ok(match *word {
            "source" => Statement::Source { name: self.name("the name of a source")? },
            "rule" => {
                let name = self.name("the name of a rule")?;
                self.mark('=')?;
                let everything = self.takes(Token::Word("everything"));
                Statement::Rule { name, mixtures: if everything { None } else { Some(self.mixtures()?) } }
            }
            "owner" => {
                Statement::Owner { rule: self.name("the name of a rule")?, user: self.name("the name of a user")? }
            }
            "file" => self.file()?,
            "permit" => {
                let file = self.name("the name of a file")?;
                let mut owner = None;
                self.option("by", &mut owner)?;
                self.mark(':')?;
                Statement::Permit { file, owner, mixtures: self.permitted()? }
            }
            "volatile" => Statement::Volatile { name: self.name("the name of a volatile")? },
            "process" => Statement::Process { name: self.name("the name of a process")? },
            "user" => self.user()?,
            "step" => self.step()?,
            _ => return wrong,
        })
    }

    /// `[guarded] [source S] [permit R] [run R]`, in any order.
    fn file(&mut self) -> Result<Statement, String> {
        let name = self.name("the name of a file")?;
        let (mut guarded, mut source, mut permit, mut run) = (false, None, None, None);
        while self.flag("guarded", &mut guarded)
            || self.option("source", &mut source)?
            || self.option("permit", &mut permit)?
            || self.option("run", &mut run)?
        {}
        if !self.tokens.is_empty() {
            return self.wrong("`guarded`, or `source`, `permit` or `run` with a name behind it, each once");
        }
        Ok(Statement::File { name, guarded, source, permit, run })
    }

    /// `[rule R] [uid N]`, in any order.
    fn user(&mut self) -> Result<Statement, String> {
        let name = self.name("the name of a user")?;
        let (mut rule, mut number) = (None, None);
        while self.option("rule", &mut rule)? || self.option("uid", &mut number)? {}
        if !self.tokens.is_empty() {
            return self.wrong("`rule` or `uid`, each once, with a name or a number behind it");
        }
        let uid = match number {
            None => None,
            Some(text) => match text.parse() {
                Ok(uid) => Some(uid),
                Err(_) => return Err(format!("found the uid `{text}`, expected a number from 0 to {}", u32::MAX)),
            },
        };
        Ok(Statement::User { name, rule, uid })
    }

    fn step(&mut self) -> Result<Statement, String> {
        let operation = self.name("an operation")?;
        let process = self.name("the name of a process")?;
        if operation == "end" {
            return Ok(Statement::Step { object: process.clone(), operation, process, user: None });
        }
        let object = self.name("the name of an object")?;
        let mut user = None;
        self.option("as", &mut user)?;
        Ok(Statement::Step { operation, process, object, user })
    }

    /// `{a, run b} {..}`, any number of mixtures.
    fn mixtures(&mut self) -> Result<Vec<Vec<Part>>, String> {
        let mut mixtures = Vec::new();
        while !self.tokens.is_empty() {
            self.mark('{')?;
            let mut mixture = Vec::new();
            while !self.takes(Token::Mark('}')) {
                mixture.push(self.part()?);
                if !self.takes(Token::Mark(',')) && self.tokens.first() != Some(&Token::Mark('}')) {
                    return self.wrong("`,` or `}`");
                }
            }
            mixtures.push(mixture);
        }
        Ok(mixtures)
    }

    /// `a run b | ..`, at least one mixture of at least one source.
    fn permitted(&mut self) -> Result<Vec<Vec<Part>>, String> {
        let mut mixtures = Vec::new();
        loop {
            let mut mixture = vec![self.part()?];
            while !self.tokens.is_empty() && self.tokens[0] != Token::Mark('|') {
                mixture.push(self.part()?);
            }
            mixtures.push(mixture);
            if !self.takes(Token::Mark('|')) {
                return Ok(mixtures);
            }
        }
    }

    fn part(&mut self) -> Result<Part, String> {
        let running = self.takes(Token::Word("run"));
        let name = self.name(if running { "the name of a source behind `run`" } else { "the name of a source" })?;
        Ok(Part { name, running })
    }
}
