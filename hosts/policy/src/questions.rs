//! The words `ask`, `diff` and `lint`: questions whose answer is the exit status too.

use std::ffi::OsString;
use std::path::{Path, PathBuf};

use analysis::{differences, Finding, Item, STEP_LIMIT};
use policy_text::{difference_json, difference_words, Asking, Story};
use yaslaurel::layout::image::LEADING;
use yaslaurel::{normalise, Policy, Source};

use crate::{at_fault, named_policy, print, wrong, Arguments, Failure, Refused};

/// The arguments behind a word: those that are none of its options, what stands behind each option, and whether `--json` is there.
struct Words {
    plain: Vec<OsString>,
    values: Vec<Option<OsString>>,
    json: bool,
}

impl Words {
    /// Reads the arguments; each option stands once.
    fn read(word: &str, arguments: &[OsString], options: &[&str]) -> Result<Words, Failure> {
        let mut words = Words { plain: Vec::new(), values: vec![None; options.len()], json: false };
        let mut rest = arguments.iter();
        while let Some(argument) = rest.next() {
            let shown = argument.to_string_lossy();
            let option = options.iter().position(|option| argument == option);
            if let Some(place) = option.filter(|&place| words.values[place].is_none()) {
                let value = rest.next().ok_or_else(|| wrong(word, format!("nothing is behind {shown}")))?;
                words.values[place] = Some(value.clone());
            } else if argument == "--json" && !words.json {
                words.json = true;
            } else if shown.starts_with('-') && argument != "-" {
                return Err(wrong(word, format!("{shown} is too much")));
            } else {
                words.plain.push(argument.clone());
            }
        }
        Ok(words)
    }

    /// Takes the path behind an option.
    fn path(&mut self, place: usize) -> Option<PathBuf> {
        self.values[place].take().map(PathBuf::from)
    }
}

/// A policy from an image, a story, or a folder that has an image and its names.
fn policy(path: &Path, names: Option<&Path>) -> Result<Policy, Failure> {
    let folder = path.is_dir();
    let file = if folder { path.join("policy.bin") } else { path.to_path_buf() };
    let file = Arguments { file, option: None };
    let bytes = file.load()?;
    // Images of this edition begin with this number and older ones with a smaller one; no text begins so.
    let image = matches!(bytes[..], [low, 0, ..] if u16::from(low) <= LEADING);
    if folder || image || bytes.len() < 2 {
        return named_policy(&file, &bytes, names.or(folder.then_some(path)));
    }
    let story = Story::read_all(&bytes).map_err(|errors| at_fault(&file, &errors))?;
    Ok(story.policy().clone())
}

/// The questions in words: the items and the container.
fn question(policy: &Policy, words: &[&str]) -> Result<(Vec<Item>, u8), Failure> {
    let container = |name: &str| {
        let number = policy.container_named(name);
        number.ok_or_else(|| Refused(format!("policy ask: there is no container `{name}` in the policy")))
    };
    let item = |name: &str, running: bool| {
        let source = policy.source_named(name);
        let source = source.ok_or_else(|| Refused(format!("policy ask: there is no source `{name}` in the policy")))?;
        Ok(Item { source, running })
    };
    match words {
        ["may", "run", source, "reach", to] => Ok((vec![item(source, true)?], container(to)?)),
        ["may", source, "reach", to] => Ok((vec![item(source, false)?], container(to)?)),
        ["which", "sources", "may", "come", "into", to] => {
            let sources = (0..policy.source_names().len()).filter_map(|atom| Source::from_atom(atom as u32));
            let both = sources.flat_map(|source| [false, true].map(|running| Item { source, running }));
            Ok((both.collect(), container(to)?))
        }
        _ => {
            let expected = "`may [run] SOURCE reach CONTAINER` or `which sources may come into CONTAINER`";
            Err(wrong("ask", format!("found `{}`, expected {expected}", words.join(" "))))
        }
    }
}

/// `policy ask`.
pub fn ask(arguments: &[OsString]) -> Result<u8, Failure> {
    let mut words = Words::read("ask", arguments, &["-n", "--steps"])?;
    let limit = match words.values[1].take() {
        None => STEP_LIMIT,
        Some(text) => text
            .to_str()
            .and_then(|text| text.parse().ok())
            .ok_or_else(|| wrong("ask", "a number is not behind --steps"))?,
    };
    let names = words.path(0);
    let (path, rest) = words.plain.split_first().ok_or_else(|| wrong("ask", "a policy is missing"))?;
    let policy = policy(Path::new(path), names.as_deref())?;
    let rest: Vec<String> = rest.iter().map(|word| word.to_string_lossy().into_owned()).collect();
    let (items, container) = question(&policy, &rest.iter().map(String::as_str).collect::<Vec<_>>())?;
    let (mut text, mut status) = (String::new(), 0);
    for &item in &items {
        let found = analysis::ask(&policy, item, container, limit).map_err(|refusal| Refused(refusal.to_string()))?;
        let asking = Asking { policy: &policy, item, container, found: &found };
        text += &match (words.json, items.len()) {
            (true, _) => asking.json(),
            (false, 1) => asking.words(),
            (false, _) => asking.line(),
        };
        status = status.max(match found {
            Finding::Never(_) => 0,
            Finding::Quietly(_) | Finding::OnlyWithAlert(..) => 1,
            Finding::NotFound(..) => 2,
        });
    }
    print(text.as_bytes())?;
    Ok(status)
}

/// `policy diff`.
pub fn diff(arguments: &[OsString]) -> Result<u8, Failure> {
    let mut words = Words::read("diff", arguments, &["-n"])?;
    let names = words.path(0);
    let [first, second] = &words.plain[..] else { return Err(wrong("diff", "expected two policies")) };
    let [first, second] = [policy(Path::new(first), names.as_deref())?, policy(Path::new(second), names.as_deref())?];
    let refused = |refusal: yaslaurel::Refusal| Refused(refusal.to_string());
    let equal = normalise(&first.image()).map_err(refused)? == normalise(&second.image()).map_err(refused)?;
    let found = differences(&first, &second).map_err(refused)?;
    let lines: String = found.iter().map(if words.json { difference_json } else { difference_words }).collect();
    let verdict = match (words.json, equal) {
        (true, equal) => format!("{{\"equal\": {equal}}}\n"),
        (false, true) => "the normal images are equal\n".into(),
        (false, false) => "the normal images differ\n".into(),
    };
    print((lines + &verdict).as_bytes())?;
    Ok(u8::from(!equal || !found.is_empty()))
}

/// `policy lint`.
pub fn lint(arguments: &[OsString]) -> Result<u8, Failure> {
    let mut words = Words::read("lint", arguments, &["--disk"])?;
    let folder = words.path(0);
    let [file] = &words.plain[..] else { return Err(wrong("lint", "expected one story")) };
    let file = Arguments { file: PathBuf::from(file), option: None };
    let told = policy_text::lint(&file.load()?, folder.as_deref());
    let told = told.map_err(|error| at_fault(&file, &error.lines))?;
    let line = |told: &policy_text::LineError| match words.json {
        true => policy_text::line_json(told),
        false => format!("{}:{told}\n", file.file.display()),
    };
    print(told.iter().map(line).collect::<String>().as_bytes())?;
    Ok(u8::from(!told.is_empty()))
}
