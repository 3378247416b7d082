//! The arguments of the command.

use std::ffi::OsString;
use std::path::PathBuf;

use clap::builder::{PossibleValuesParser, TypedValueParser};
use clap::{value_parser, Arg, ArgAction, Command, ValueHint};
use clap_complete::Shell;

const STATUSES: &str = "\
Exit status: 0 quiet; 1 alerts or blocked; 2 incomplete, not followed or records refused; 3 both; 4 the policy is refused; 5 a failure: wrong
arguments, an input that is missing or cannot be read, a program that is missing or fails, an output that cannot be written.";

const INPUTS: &str = "\
FOLDER has policy.bin and trace.bin, and is this folder if nothing is named; POLICY and TRACE are files, and - is standard input. A trace whose
folder says by policy.sha256 that it was made for another policy is told, and counts as not followed.";

const MONTH_INPUTS: &str = "\
FOLDER has policy.bin and the traces 00.bin to 63.bin, up to the first that is missing, and is this folder if nothing is named; POLICY and up to 64
TRACE are files, and - is standard input. A trace whose folder says by policy.sha256 that it was made for another policy is told, and counts as not
followed.";

const REPORT_INPUTS: &str = "\
FOLDER has policy.bin and trace.bin, or the traces of a month, 00.bin to 63.bin, or both, and the names, if there are any; it is this folder if
nothing is named. The page needs no network. What is not in it is told, and counts as not followed.";

/// A subcommand that runs a proved program on files.
fn proved(name: &'static str, about: &'static str, inputs: &'static str, most: usize) -> Command {
    let (value, usage) = match name {
        "month" => ("FOLDER | POLICY TRACE ..", "yaslaurel month [--json] [FOLDER | POLICY TRACE ..]".to_string()),
        "watch" => {
            ("FOLDER | POLICY TRACE", "yaslaurel watch [--json] [--report FILE] [FOLDER | POLICY TRACE]".to_string())
        }
        _ => ("FOLDER | POLICY TRACE", format!("yaslaurel {name} [--json] [FOLDER | POLICY TRACE]")),
    };
    let report = (name == "watch").then(|| {
        let file = Arg::new("report").long("report").value_name("FILE").value_parser(value_parser!(PathBuf));
        file.value_hint(ValueHint::FilePath).help("Write the page of FOLDER too, as yaslaurel report does")
    });
    let json = Arg::new("json").long("json").action(ArgAction::SetTrue).help("Print one object of JSON a line");
    let files = Arg::new("inputs")
        .num_args(0..=most)
        .value_name(value)
        .value_parser(value_parser!(OsString))
        .value_hint(ValueHint::AnyPath)
        .help("The policy and what happened under it");
    Command::new(name)
        .about(about)
        .override_usage(usage)
        .arg(json)
        .args(report)
        .arg(files)
        .after_help(format!("{inputs}\n\n{STATUSES}"))
}

const MATRIX: &str = "\
yaslaurel matrix verdict MATRIX                 who could carry what where without a right to
yaslaurel matrix silent MATRIX                  whether no access that it allows raises an alert
yaslaurel matrix policy MATRIX -o FOLDER        write the derived policy with its names into FOLDER
yaslaurel matrix judge OLD STAY PROPOSAL        judge a proposal to withdraw rights
yaslaurel matrix suggest OLD STAY [--most N] [-o FILE]
                                                search for proposals that the judge accepts, at most N; write the first to FILE
yaslaurel matrix game MATRIX --from OBJECT --to OBJECT --rounds N --withdrawals N [--play]
                                                who wins a game of a desk against a guard; with --play you are the guard

A matrix is a text with a line of objects and a line for each subject, with r, w, rw or - for each object; or a table with commas, semicolons or tabs.
A file called - is standard input.

Exit status: 0 consistent, silent, written, accepted, a proposal is shown, the guard wins; 1 the contrary; 4 a matrix, a name or a bound is refused; 5 a
failure: wrong arguments, a file that cannot be read, an output that cannot be written, a game that was left.";

/// An argument that is a file or a folder.
fn path(name: &'static str, value: &'static str, help: &'static str) -> Arg {
    let path = Arg::new(name).required(true).value_name(value).value_parser(value_parser!(PathBuf));
    path.value_hint(ValueHint::AnyPath).help(help)
}

/// An option with a number.
fn number(name: &'static str, help: &'static str) -> Arg {
    Arg::new(name).long(name).value_name("N").required(true).value_parser(value_parser!(u32)).help(help)
}

/// An option with an object of the matrix.
fn object(name: &'static str, help: &'static str) -> Arg {
    Arg::new(name).long(name).value_name("OBJECT").required(true).help(help)
}

/// The subcommand for matrices, with its own.
fn matrix() -> Command {
    let one = || path("matrix", "MATRIX", "The matrix");
    let old = || path("old", "OLD", "The matrix as it is");
    let stay = || path("stay", "STAY", "The rights that must stay, as a matrix");
    let proposal = path("proposal", "PROPOSAL", "The proposed matrix");
    let out = |value, help| path("out", value, help).short('o');
    let most = number("most", "How many proposals to show at most").required(false).default_value("3");
    let play = Arg::new("play").long("play").action(ArgAction::SetTrue).help("Be the guard, on standard input");
    let game = Command::new("game")
        .about("Say who wins a game of a desk against a guard")
        .args([one(), object("from", "Whose information the desk wants"), object("to", "Where the desk wants it")])
        .args([
            number("rounds", "How many rounds, 1 to 4"),
            number("withdrawals", "How many rights the guard may withdraw, 0 to 2"),
        ])
        .arg(play);
    Command::new("matrix")
        .about("Ask an access matrix: flows, silence, proposals, games")
        .subcommand_required(true)
        .subcommand(Command::new("verdict").about("Say who could carry what where without a right to").arg(one()))
        .subcommand(Command::new("silent").about("Say whether no allowed access raises an alert").arg(one()))
        .subcommand(Command::new("policy").about("Write the derived policy").args([one(), out("FOLDER", "The folder")]))
        .subcommand(Command::new("judge").about("Judge a proposal to withdraw rights").args([old(), stay(), proposal]))
        .subcommand(Command::new("suggest").about("Search for proposals that the judge accepts").args([
            old(),
            stay(),
            most,
            out("FILE", "The first proposal as a table").required(false),
        ]))
        .subcommand(game)
        .after_help(MATRIX)
}

/// The words of the program `policy`, for completions; a test compares them with its help.
const POLICY_WORDS: [&str; 13] = [
    "check", "normal", "show", "profiles", "upgrade", "compose", "trim", "explain", "make", "ask", "diff", "lint",
    "help",
];

/// The options of the program `record`, for completions; a test compares them with its help.
const RECORD_OPTIONS: [&str; 15] = [
    "story",
    "guard",
    "log",
    "out",
    "folder",
    "uid",
    "keep",
    "state",
    "allow-missing",
    "strict",
    "why",
    "quiet-why",
    "json",
    "pass-status",
    "version",
];

/// A subcommand whose arguments go on to a program that reads them itself: what is said of them here is for completions.
fn passed(name: &'static str, about: &'static str, known: impl IntoIterator<Item = Arg>) -> Command {
    let rest = Arg::new("arguments").num_args(0..).value_hint(ValueHint::AnyPath).hide(true);
    let usage = format!("yaslaurel {name} ..");
    Command::new(name).about(about).override_usage(usage).disable_help_flag(true).args(known).arg(rest)
}

/// The subcommand of the program `policy`.
fn policy() -> Command {
    let word = Arg::new("word").value_parser(POLICY_WORDS).hide(true);
    passed("policy", "Make, check, show, compose, explain, ask and compare policies (yaslaurel policy help)", [word])
}

/// The subcommand of the program `record`.
fn record() -> Command {
    let options = RECORD_OPTIONS.map(|name| Arg::new(name).long(name).action(ArgAction::SetTrue).hide(true));
    passed("record", "Watch a real program (yaslaurel record help)", options)
}

/// The subcommand that writes a page.
fn report() -> Command {
    let folder = Arg::new("folder")
        .value_name("FOLDER")
        .default_value(".")
        .value_parser(value_parser!(PathBuf))
        .value_hint(ValueHint::DirPath)
        .help("The policy, its traces and its names");
    let output = Arg::new("output")
        .short('o')
        .long("output")
        .value_name("FILE")
        .default_value("report.html")
        .value_parser(value_parser!(PathBuf))
        .value_hint(ValueHint::FilePath)
        .help("Where the page is written");
    Command::new("report")
        .about("Write one page of a folder's traces, to look at in a browser")
        .arg(folder)
        .arg(output)
        .after_help(format!("{REPORT_INPUTS}\n\n{STATUSES}"))
}

/// The command with its subcommands.
pub fn command() -> Command {
    let shells = PossibleValuesParser::new(["bash", "zsh", "fish"]).map(|name| match &*name {
        "bash" => Shell::Bash,
        "zsh" => Shell::Zsh,
        _ => Shell::Fish,
    });
    let shell = Arg::new("shell").required(true).value_name("SHELL").value_parser(shells).help("The shell");
    Command::new("yaslaurel")
        .version(env!("CARGO_PKG_VERSION"))
        .about("An information-flow monitor: watches traces, counts, explains, makes policies and records programs")
        .subcommand_required(true)
        .subcommand(proved("watch", "List what comes of each record of a trace", INPUTS, 2))
        .subcommand(proved("month", "Print the figures of many traces", MONTH_INPUTS, 65))
        .subcommand(proved("explain", "Say of each alert which rule forbids it and how it came to that", INPUTS, 2))
        .subcommand(report())
        .subcommand(matrix())
        .subcommand(policy())
        .subcommand(record())
        .subcommand(Command::new("completions").about("Print the completions for a shell").arg(shell))
        .after_help(STATUSES)
}

#[cfg(test)]
mod tests {
    use super::*;

    #[test]
    fn the_arguments_go_together() {
        command().debug_assert();
    }
}
