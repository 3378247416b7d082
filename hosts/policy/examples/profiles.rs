//! A small host for profiles: `profiles TEXT STEPS` starts a session from a text of profiles, reports the steps and prints what
//! is not quiet, in words, with the reason of each alert.
//!
//! A file goes by its path. The first process is `init`; another has the name that its fork gives it. A line of STEPS is
//! an operation with its process and its object, and `#` begins a comment:
//!
//!     fork init job
//!     exec job /bin/program
//!     read job /some/file            likewise write, append, delete, new-file and new-volatile
//!     end job
//!
//! Exit status: 0 if every step was quiet, 1 after alerts, 2 after refused steps (3 after both), 4 if the text was refused,
//! 5 after a failure.

use std::error::Error;
use std::process::ExitCode;
use std::{env, fs};

use policy_text::{held_before, name_paths, profile_paths, receiver, what, Access, Asked, NamesByStep, Steps};
use yaslaurel::{profiles_policy, Operation, Policy, Recording, Session, Verdict};

/// The policy of a text, whose files and sources go by their paths.
fn named_policy(text: &[u8], image: &[u8]) -> Result<Policy, Box<dyn Error>> {
    let mut policy = Policy::from_image(image)?;
    let paths = profile_paths(text)?;
    name_paths(&mut policy, &paths)?;
    policy.rename_container(paths.len() as u8, "init")?;
    Ok(policy)
}

/// What has been reported so far.
struct Watch {
    policy: Policy,
    names: Steps,
    /// What containers were called at each step, for explanations.
    called: NamesByStep,
    session: Recording,
    steps: usize,
    alerts: usize,
    refusals: usize,
}

impl Watch {
    /// Reports the step of a line, and prints what is not quiet.
    fn step(&mut self, line: &str) -> Result<(), String> {
        let words: Vec<&str> = line.split_whitespace().collect();
        let (word, process, object) = match words[..] {
            ["end", process] => ("end", process, process),
            [word, process, object] => (word, process, object),
            _ => return Err("a step is an operation, a process and an object".into()),
        };
        // The only user of a policy from profiles.
        let user = ["exec", "new-file"].contains(&word).then_some(0);
        let operation = self.names.operation(word, process, object, user)?;
        self.steps += 1;
        if let Operation::Fork { .. } | Operation::NewFile { .. } | Operation::NewVolatile { .. } = operation {
            self.called.take(receiver(operation), self.steps, object);
        }
        let before = held_before(self.session.session(), operation);
        match self.session.perform(operation) {
            Ok(answer) => match answer.verdict {
                Verdict::Quiet => {}
                Verdict::Alert => self.alert(Access::new(operation, answer, before))?,
                // No policy from profiles has a guarded file.
                unknown => return Err(format!("unknown answer {unknown:?}")),
            },
            Err(refusal) => {
                self.refusals += 1;
                let name = |number| self.called.at(number, self.steps).to_string();
                println!("{refusal}, step {}: {}", self.steps, what(operation, name));
            }
        }
        Ok(())
    }

    /// Prints an alert, the rule that forbids it, and how what the rule lacks came there.
    fn alert(&mut self, access: Access) -> Result<(), String> {
        self.alerts += 1;
        let (policy, names, session) = (&self.policy, &self.called, &self.session);
        let asked = Asked { policy, image: session.image(), trace: session.trace(), names, access, all: false };
        print!("{}", asked.explanation().map_err(|refusal| refusal.to_string())?);
        Ok(())
    }
}

/// Reports the steps to a session that the text starts; the exit status.
fn watch(text: &[u8], image: &[u8], steps: &str) -> Result<u8, Box<dyn Error>> {
    let policy = named_policy(text, image)?;
    let (names, called) = (Steps::new(&policy), NamesByStep::new(&policy));
    let session = Session::recording(image)?;
    let mut watch = Watch { policy, names, called, session, steps: 0, alerts: 0, refusals: 0 };
    for (place, line) in steps.lines().enumerate() {
        let line = line.split('#').next().unwrap_or("").trim();
        if !line.is_empty() {
            watch.step(line).map_err(|error| format!("line {}: {error}", place + 1))?;
        }
    }
    println!("{} steps, {} alerts, {} refused", watch.steps, watch.alerts, watch.refusals);
    Ok(u8::from(watch.alerts > 0) | u8::from(watch.refusals > 0) << 1)
}

/// What the program does for its arguments; its exit status, or what failed.
fn run(arguments: &[String]) -> Result<u8, Box<dyn Error>> {
    let [text, file] = arguments else { return Err("profiles TEXT STEPS".into()) };
    let load = |path: &str| fs::read(path).map_err(|error| format!("{path}: {error}"));
    let (text, steps) = (load(text)?, String::from_utf8(load(file)?).map_err(|error| format!("{file}: {error}"))?);
    match profiles_policy(&text) {
        Ok(image) => {
            println!("policy of {} bytes", image.len());
            watch(&text, &image, &steps).map_err(|error| format!("{file}: {error}").into())
        }
        Err(refusal) => {
            println!("{refusal}");
            Ok(4)
        }
    }
}

fn main() -> ExitCode {
    let arguments: Vec<String> = env::args().skip(1).collect();
    match run(&arguments) {
        Ok(status) => ExitCode::from(status),
        Err(error) => {
            eprintln!("{error}");
            ExitCode::from(5)
        }
    }
}
