//! What is told of a text of profiles: its paths, or the line at fault.

use judge::profiles::{paths, policy, reading, Refused};
use policy_text::{profile_paths, ProfileFault};

use crate::case::Difference;

/// Compares what is told of a text with the judge's reading of it.
pub fn told_differs(text: &[u8]) -> Difference {
    let told = profile_paths(text);
    let judged = policy(text).map_err(Refused::number);
    match (told, judged) {
        (Ok(told), Ok(_)) => {
            let reading = reading(text)?;
            let wanted: Vec<&[u8]> = paths(&reading);
            (!told.iter().map(String::as_bytes).eq(wanted)).then(|| format!("the paths that are told: {told:?}"))
        }
        (Err(fault), Err(number)) if fault.refusal.number() == number => {
            wrong_line(text, &fault).map(|why| format!("the fault that is told, {fault}: {why}"))
        }
        (told, judged) => Some(format!("what is told, {told:?}: the judge says {:?}", judged.map(|_| 0))),
    }
}

/// The first lines of a text, with the bytes that end them.
fn first_lines(text: &[u8], count: usize) -> Vec<u8> {
    text.split_inclusive(|byte| *byte == 10).take(count).flatten().copied().collect()
}

/// The beginning of a text, as it is and with the profile closed that may be open: if any text that begins so is of the
/// grammar and within its length, and profiles no path twice, one of these is.
fn closed(beginning: &[u8]) -> [Vec<u8>; 2] {
    [beginning.to_vec(), [beginning, b"}\n"].concat()]
}

fn of_grammar(text: &[u8]) -> bool {
    policy(text).map_err(Refused::number) != Err(16)
}

/// Why the line of a fault is not the first that is wrong.
fn wrong_line(text: &[u8], fault: &ProfileFault) -> Difference {
    let line = fault.error.line;
    let before = closed(&first_lines(text, line - 1));
    let with = first_lines(text, line);
    if fault.refusal.number() == 16 {
        // At the end of the text nothing can follow, whatever the last line is.
        let ended =
            with == text && (line > text.split_inclusive(|byte| *byte == 10).count() || text.last() != Some(&10));
        if !before.iter().any(|text| of_grammar(text)) {
            return Some("a line above is wrong already".into());
        }
        return (!ended && closed(&with).iter().any(|text| of_grammar(text))).then(|| "the text may go on".into());
    }
    let count = |texts: &[Vec<u8>; 2]| texts.iter().find_map(|text| reading(text).map(|found| paths(&found).len()));
    if fault.error.message.contains(" is path 33,") {
        return ((count(&before), count(&closed(&with))) != (Some(32), Some(33))).then(|| "not the 33rd path".into());
    }
    let last = with.split(|byte| *byte == 10).rev().nth(1).unwrap_or_default();
    let path = last.split(|byte| *byte == b' ').next().unwrap_or_default();
    let named = format!(" rule of `{}` has mixture 9 here,", String::from_utf8_lossy(path));
    (!fault.error.message.contains(&named)).then(|| "the line names another path".into())
}

#[cfg(test)]
mod tests {
    use super::*;
    use yaslaurel::Refusal;

    /// A fault that names a wrong line is found, above and below.
    #[test]
    fn another_line_is_wrong() {
        let text = b"profile /a {\n/b r,\n/c x,\n/d r,\n}\n";
        let fault = profile_paths(text).unwrap_err();
        assert_eq!((fault.refusal, fault.error.line), (Refusal::ProfileText, 3));
        for (line, wrong) in [(2, true), (3, false), (4, true)] {
            let mut other = fault.clone();
            other.error.line = line;
            assert_eq!(wrong_line(text, &other).is_some(), wrong, "line {line}");
        }
    }
}
