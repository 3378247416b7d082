//! Access matrices: verdict, silence, derived policy, proposals and games, by names. What the proved functions of the library say is told with
//! the names of the matrix; `docs/ANALYSIS.md` has the texts.

pub mod play;
mod table;

use std::fmt::Write as _;
use std::path::{Path, PathBuf};

use analysis::{
    failed_condition, missing_flows, sounding, suggest, Failed, Flow, NamedMatrix, Position, Search, Suggestion,
};
use clap::ArgMatches;
use policy_text::{write_folder, Holder};
use yaslaurel::{matrix_policy, normalise, Operation, Outcome, Policy, Refusal, Source, Verdict};

use crate::status::Failure;

/// Why a subcommand has no answer.
#[derive(Debug)]
pub enum Stop {
    /// Exit status 4.
    Refused(String),
    /// Exit status 5.
    Failed(Failure),
}

/// A failure stops a subcommand.
impl From<Failure> for Stop {
    fn from(failure: Failure) -> Stop {
        Stop::Failed(failure)
    }
}

/// So does a refusal of the library.
impl From<Refusal> for Stop {
    fn from(refusal: Refusal) -> Stop {
        Stop::Refused(refusal.to_string())
    }
}

/// What is printed, and whether it is the good answer.
type Told = Result<(String, bool), Stop>;

/// `1 right`, `2 rights`.
fn count(number: usize, word: &str) -> String {
    format!("{number} {word}{}", if number == 1 { "" } else { "s" })
}

/// `1 composed flow is not granted`.
fn missing(flows: &[Flow]) -> String {
    format!("{} {} not granted", count(flows.len(), "composed flow"), if flows.len() == 1 { "is" } else { "are" })
}

/// A line for each flow: who could carry what where.
fn flow_lines(matrix: &NamedMatrix, flows: &[Flow]) -> String {
    let (subjects, objects) = (matrix.subjects(), matrix.objects());
    let hops = |flow: &Flow| {
        let hop = |hop: &analysis::Hop| {
            format!("{} reads {} and writes {}", subjects[hop.subject], objects[hop.from], objects[hop.to])
        };
        flow.hops.iter().map(hop).collect::<Vec<_>>().join(", ")
    };
    let line = |flow: &Flow| format!("{} -> {}: {}\n", objects[flow.source], objects[flow.target], hops(flow));
    flows.iter().map(line).collect()
}

/// `matrix verdict`.
fn verdict(matrix: &NamedMatrix) -> Told {
    let flows = missing_flows(matrix)?;
    if flows.is_empty() {
        return Ok(("consistent: every composed flow is granted\n".into(), true));
    }
    Ok((format!("inconsistent: {}\n{}", missing(&flows), flow_lines(matrix, &flows)), false))
}

/// The derived policy, with the names of the matrix.
fn derived(matrix: &NamedMatrix) -> Result<Policy, Stop> {
    let rows = matrix.rows();
    let image = matrix_policy(rows.reads, rows.writes, rows.objects)?;
    let mut policy = Policy::from_image(&image)?;
    let names = matrix.objects().iter().chain(matrix.subjects());
    for (number, name) in names.enumerate() {
        let renamed = policy.rename_container(number as u8, name);
        renamed.map_err(|error| Stop::Refused(format!("a subject and an object have one name: {error}")))?;
    }
    for (atom, name) in matrix.objects().iter().enumerate() {
        let source = Source::from_atom(atom as u32).expect("at most 32 objects");
        policy.rename_source(source, name).map_err(|error| Stop::Refused(error.to_string()))?;
    }
    assert_eq!(normalise(&policy.image()), Ok(image), "the policy is the derived one");
    Ok(policy)
}

/// `matrix silent`.
fn silent(matrix: &NamedMatrix) -> Told {
    let Some(steps) = sounding(matrix)? else {
        return Ok(("silent: no access that the matrix allows raises an alert\n".into(), true));
    };
    let objects = matrix.objects();
    let name = |number: u8| {
        let names = objects.iter().chain(matrix.subjects());
        names.into_iter().nth(number.into()).map_or_else(String::new, String::clone)
    };
    let mut text = String::from("not silent: these accesses raise an alert\n");
    for (place, (operation, answer)) in steps.iter().enumerate() {
        let alert = answer.verdict == Verdict::Alert;
        let held = answer.atoms().map(|atom| name(atom as u8)).collect::<Vec<_>>().join(", ");
        let verdict = if alert { format!("alert, it now holds {held}") } else { "quiet".into() };
        let (process, object) = match *operation {
            Operation::Read { process, object } | Operation::Append { process, object } => {
                (name(process), name(object))
            }
            other => (String::new(), format!("{other:?}")),
        };
        let _ = writeln!(text, "  {} {process} {} {object}: {verdict}", place + 1, operation.verb());
    }
    Ok((text, false))
}

/// `matrix policy`.
fn policy(matrix: &NamedMatrix, folder: &Path) -> Told {
    let policy = derived(matrix)?;
    let holders: Vec<Holder> =
        policy.containers().enumerate().map(|(number, (name, _))| Holder::new(number as u8, name)).collect();
    write_folder(folder, &policy, &[], &holders).map_err(|error| Failure::new(error.to_string()))?;
    Ok((String::new(), true))
}

/// `matrix judge`.
fn judge(old: &NamedMatrix, required: &NamedMatrix, proposed: &NamedMatrix) -> Told {
    let Some(failed) = failed_condition(old, required, proposed)? else {
        let withdrawn = old.rights().filter(|right| !proposed.has(*right)).count();
        let are = if withdrawn == 1 { "is" } else { "are" };
        return Ok((format!("accepted: {} {are} withdrawn\n", count(withdrawn, "right")), true));
    };
    let what = match &failed {
        Failed::Added(right) => format!("the old matrix lacks a right of the proposal: {}\n", old.words(*right)),
        Failed::Lost(right) => format!("a right that must stay is not in the proposal: {}\n", old.words(*right)),
        Failed::Inconsistent(flows) => format!("{}\n{}", missing(flows), flow_lines(old, flows)),
        Failed::NotMinimal(right) => format!("a withdrawn right can be put back alone: {}\n", old.words(*right)),
    };
    Ok((format!("not accepted, condition {}: {what}", failed.number()), false))
}

/// `matrix suggest`.
fn suggested(old: &NamedMatrix, required: &NamedMatrix, most: usize, out: Option<&Path>) -> Told {
    let (search, proposals) = match suggest(old, required, most)? {
        Suggestion::Found(search, proposals) => (search, proposals),
        Suggestion::Lacking(right) => {
            return Ok((
                format!("no proposal: the old matrix lacks a right that must stay: {}\n", old.words(right)),
                false,
            ));
        }
        Suggestion::None => {
            return Ok(("no proposal: the rights that must stay leave a flow that is not granted\n".into(), false))
        }
        Suggestion::NotFound => return Ok(("no proposal was found (greedy search: there may be one)\n".into(), false)),
    };
    let withdrawn = |proposed: &NamedMatrix| old.rights().filter(|right| !proposed.has(*right)).collect::<Vec<_>>();
    let rights = count(withdrawn(&proposals[0]).len(), "right");
    let mut text = match search {
        Search::Exact => format!("{rights} to withdraw, and no proposal withdraws fewer (exact search)\n"),
        Search::Greedy => format!("{rights} to withdraw (greedy search: fewer may do)\n"),
    };
    for (place, proposed) in proposals.iter().enumerate() {
        let _ = writeln!(text, "proposal {}: withdraw", place + 1);
        withdrawn(proposed).into_iter().for_each(|right| text += &format!("  {}\n", old.words(right)));
    }
    if let Some(path) = out {
        table::write(path, &proposals[0])?;
    }
    Ok((text, true))
}

/// The object that an option names.
fn object(matrix: &NamedMatrix, matches: &ArgMatches, option: &str) -> Result<u32, Stop> {
    let name: &String = matches.get_one(option).expect("clap asks for it");
    let number = matrix.object_named(name).map(|number| number as u32);
    number.ok_or_else(|| Stop::Refused(format!("--{option}: there is no object `{name}` in the matrix")))
}

/// `matrix game`.
fn game(matrix: &NamedMatrix, matches: &ArgMatches) -> Told {
    let [source, target] = [object(matrix, matches, "from")?, object(matrix, matches, "to")?];
    let [rounds, withdrawals] =
        ["rounds", "withdrawals"].map(|name| *matches.get_one::<u32>(name).expect("clap asks for it"));
    let outcome = yaslaurel::play(matrix.rows(), source, target, rounds, withdrawals)?;
    if matches.get_flag("play") {
        let position = Position::start(matrix, source, target, rounds, withdrawals);
        let first = match outcome {
            Outcome::Desk { first } => Some(first),
            Outcome::Guard => None,
        };
        return Ok((String::new(), !play::play(position, first)?));
    }
    let [source, target] = [source, target].map(|object| &matrix.objects()[object as usize]);
    Ok(match outcome {
        Outcome::Desk { first } => (format!("the desk wins; its first move: {}\n", play::words(matrix, first)), false),
        Outcome::Guard => (format!("the guard wins: it can keep {source} out of {target}\n"), true),
    })
}

/// The matrix of an argument, with its subjects and objects in the order of another one.
fn ordered(path: &Path, old: &NamedMatrix) -> Result<NamedMatrix, Stop> {
    let matrix = table::read(path)?;
    matrix.in_order_of(old).map_err(|error| Stop::Refused(format!("{}: {error}", path.display())))
}

/// Answers a question to matrices.
pub fn run(matches: &ArgMatches) -> Told {
    let (name, matches) = matches.subcommand().expect("clap asks for it");
    let path = |argument: &str| matches.get_one::<PathBuf>(argument).expect("clap asks for it").as_path();
    match name {
        "verdict" => verdict(&table::read(path("matrix"))?),
        "silent" => silent(&table::read(path("matrix"))?),
        "policy" => policy(&table::read(path("matrix"))?, path("out")),
        "game" => game(&table::read(path("matrix"))?, matches),
        "judge" => {
            let old = table::read(path("old"))?;
            judge(&old, &ordered(path("stay"), &old)?, &ordered(path("proposal"), &old)?)
        }
        _ => {
            let old = table::read(path("old"))?;
            let most = *matches.get_one::<u32>("most").expect("it has a default") as usize;
            let out = matches.get_one::<PathBuf>("out").map(PathBuf::as_path);
            suggested(&old, &ordered(path("stay"), &old)?, most, out)
        }
    }
}
