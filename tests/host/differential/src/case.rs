//! What a case of the comparison is, and what a part of a run is.

use crate::bench::Bench;
use crate::counters::{Counters, Need};
use crate::random::Random;

/// What went wrong, in words.
pub type Difference = Option<String>;

/// What library and judge are both given. Each kind of case has a module in `cases`.
pub trait Case {
    /// Runs the case on library and judge, counts what it reached and gives the first difference.
    fn run(&self, bench: &mut Bench, counters: &mut Counters) -> Difference;

    /// Cases a little simpler than this one, the boldest first.
    fn simpler(&self) -> Vec<Box<dyn Case>>;

    /// The case as text, with all that is needed to run it again by hand.
    fn show(&self) -> String;
}

/// One part of a run: its name, how many cases it has at factor 1, how one is made, and what all of them must reach.
pub struct Part {
    pub name: &'static str,
    pub cases: u64,
    pub make: fn(&mut Random) -> Box<dyn Case>,
    pub needs: &'static [Need],
}

/// Cases of one kind as cases of any.
pub fn boxed<C: Case + 'static>(cases: impl IntoIterator<Item = C>) -> Vec<Box<dyn Case>> {
    cases.into_iter().map(|case| Box::new(case) as Box<dyn Case>).collect()
}

pub fn differ<T: PartialEq + std::fmt::Debug>(what: &str, library: T, judge: T) -> Difference {
    (library != judge).then(|| format!("{what}: library {library:?}, judge {judge:?}"))
}

/// The first place where two slices differ.
pub fn differ_at<T: PartialEq + std::fmt::Debug>(what: &str, library: &[T], judge: &[T]) -> Difference {
    if library == judge {
        return None;
    }
    let at = library.iter().zip(judge).position(|(a, b)| a != b);
    Some(match at {
        Some(at) => format!("{what}: at {at} library {:?}, judge {:?}", library[at], judge[at]),
        None => format!("{what}: library has {} elements, judge {}", library.len(), judge.len()),
    })
}

pub fn hex(bytes: &[u8]) -> String {
    if bytes.len() > 600 {
        return format!("{} bytes, the first 600: {}", bytes.len(), hex(&bytes[..600]));
    }
    bytes.iter().map(|byte| format!("{byte:02x}")).collect()
}
