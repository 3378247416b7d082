//! The arguments of the program.

use std::ffi::OsString;
use std::path::PathBuf;

pub const HELP: &str = "\
record --story STORY -- COMMAND ..              runs the command and watches it
record --guard --story STORY -- COMMAND ..      the same, and refuses what would bring a guarded file a forbidden mixture
record --log LOG --story STORY --out FOLDER     an event list, or a log of `strace -f -y -o LOG`, becomes policy.bin, trace.bin and names
record help, record --version

  --out FOLDER          writes policy.bin, trace.bin, names.txt, containers.txt, users.txt and records.txt (also in a live run)
  --folder FOLDER       where the story's relative names are (the folder in which the first process starts)
  --uid N               the user id of the first process in a log of strace
  --keep FILE           keeps the event list of a live run
  --state FILE          carries what files hold from one live run to the next
  --allow-missing NAME  a name of the story at which nothing need be
  --strict              stops at the first thing that is not followed or refused, and ends the command
  --why                 tells also what is quiet, and which mixture of its rule let it through
  --quiet-why           tells alerts without the rule that forbids, and without how what it lacks came there
  --json                tells everything as lines of JSON
  --pass-status         ends with the command's own exit status if all was quiet

Alerts, refusals and what is not followed are told at once, in a live run on standard error; the last line is the summary.
Under an alert, and under what is blocked, stand the rule and what it lacks, then how that came there, as policy explain FOLDER tells it afterwards.

Exit status: 0 quiet; 1 alerts or blocked; 2 something was refused or not followed, or the story does not fit; 3 both; 4 the story or
its policy is refused; 5 a failure: wrong arguments, a file that cannot be read or written, a command that cannot be started.
";

/// What the program shall do.
#[derive(Debug, Default)]
pub struct Options {
    pub story: PathBuf,
    pub log: Option<PathBuf>,
    pub out: Option<PathBuf>,
    pub folder: Option<PathBuf>,
    pub uid: Option<u32>,
    pub keep: Option<PathBuf>,
    pub strict: bool,
    pub why: bool,
    pub quiet_why: bool,
    pub guard: bool,
    pub allow_missing: Vec<String>,
    pub state: Option<PathBuf>,
    pub json: bool,
    pub pass_status: bool,
    pub command: Vec<OsString>,
}

impl Options {
    /// Reads the arguments; an error says what is wrong with them.
    pub fn read(arguments: impl Iterator<Item = OsString>) -> Result<Options, String> {
        let mut options = Options::default();
        let (mut rest, mut story) = (arguments, None);
        while let Some(argument) = rest.next() {
            let word = argument.to_string_lossy().into_owned();
            if word == "--" {
                options.command = rest.collect();
                break;
            }
            if let Some(flag) = options.flag(&word) {
                *flag = true;
                continue;
            }
            let mut value = || rest.next().ok_or_else(|| format!("nothing is behind {word}"));
            match word.as_str() {
                "--story" => story = Some(value()?.into()),
                "--log" => options.log = Some(value()?.into()),
                "--out" => options.out = Some(value()?.into()),
                "--folder" => options.folder = Some(value()?.into()),
                "--keep" => options.keep = Some(value()?.into()),
                "--state" => options.state = Some(value()?.into()),
                "--allow-missing" => options.allow_missing.push(value()?.to_string_lossy().into_owned()),
                "--uid" => {
                    let text = value()?;
                    let uid = text.to_str().and_then(|text| text.parse().ok());
                    options.uid = Some(uid.ok_or("a user id is a number")?);
                }
                _ => return Err(format!("{word} is too much")),
            }
        }
        options.story = story.ok_or("--story is missing")?;
        options.fit()
    }

    /// The option of a word that has nothing behind it.
    fn flag(&mut self, word: &str) -> Option<&mut bool> {
        match word {
            "--strict" => Some(&mut self.strict),
            "--why" => Some(&mut self.why),
            "--quiet-why" => Some(&mut self.quiet_why),
            "--guard" => Some(&mut self.guard),
            "--json" => Some(&mut self.json),
            "--pass-status" => Some(&mut self.pass_status),
            _ => None,
        }
    }

    /// Whether the arguments go together.
    fn fit(self) -> Result<Options, String> {
        let live = !self.command.is_empty();
        let wrong = match &self.log {
            Some(_) if live => "--log and a command do not go together",
            Some(_) if self.out.is_none() => "--out is missing",
            Some(_) if self.keep.is_some() => "--keep is for a live run",
            Some(_) if self.state.is_some() => "--state is for a live run",
            Some(_) if self.pass_status => "--pass-status is for a live run",
            None if !live => "--log or a command is missing",
            None if self.uid.is_some() => "--uid is for a log",
            _ => return Ok(self),
        };
        Err(wrong.into())
    }
}
