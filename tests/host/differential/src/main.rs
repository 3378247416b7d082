//! `differential [SEED] [FACTOR] [PART]` compares the library with the judge.
//!
//! The seed is a number (without one it is taken from the clock), the factor multiplies the size of the run: with 1 it
//! has over 200,000 images, 2,000,000 operations, 200,000 matrices, 80,000 texts of profiles, 60,000 proposals, 20,000
//! games and 30,000 reasons of alerts. PART, the beginning of a part's name, runs that part alone. A disagreement is made
//! small and printed, with the seed that finds it again. The last line is `N passed, M failed`.
//!
//! `differential files SEED COUNT FOLDER` writes COUNT folders into FOLDER, each with a random `policy.bin` and
//! `trace.bin` and the judge's `listing.txt`, to compare the watch program with.

mod bench;
mod case;
mod cases;
mod counters;
mod generate;
mod lent;
mod random;
mod shrink;
mod spec;
mod texts;
mod told;

use std::path::Path;
use std::process::ExitCode;
use std::time::{Duration, Instant, SystemTime, UNIX_EPOCH};
use std::{env, fmt, fs, io};

use bench::Bench;
use case::Part;
use cases::traces::{self, Trace};
use cases::PARTS;
use counters::Counters;
use random::Random;
use yaslaurel::layout::record;

/// The counts of the last line.
#[derive(Default)]
struct Score {
    passed: u32,
    failed: u32,
}

impl Score {
    fn note(&mut self, good: bool, text: fmt::Arguments<'_>) {
        println!("{} {text}", if good { "ok" } else { "FAILED" });
        *if good { &mut self.passed } else { &mut self.failed } += 1;
    }
}

/// Runs one part up to its first disagreement, from a seed of its own that follows from the run's.
fn run_part(part: &Part, seed: u64, cases: u64, bench: &mut Bench, counters: &mut Counters, score: &mut Score) {
    let begun = Instant::now();
    let mut r = Random::new(seed);
    for number in 1..=cases {
        let case = (part.make)(&mut r);
        if let Some(difference) = case.run(bench, counters) {
            score.note(false, format_args!("{}: case {number}: {difference}", part.name));
            let (small, difference) = shrink::shrink(bench, case, difference, Duration::from_secs(5));
            println!("the smallest case found: {difference}");
            print!("{}", small.show());
            return;
        }
    }
    score.note(true, format_args!("{}: {cases} cases, {:.1} s", part.name, begun.elapsed().as_secs_f64()));
}

/// Writes policies, traces and listings for the watch program. Some policies are damaged, and the traces end anywhere.
fn write_files(seed: u64, count: usize, folder: &Path) -> io::Result<()> {
    let mut r = Random::new(seed);
    for number in 0..count {
        let length = r.pick(&[0, 1, 5, 40, 400, 5_000]);
        let class = generate::class(&mut r);
        let Trace { mut image, records } = traces::make(&mut r, class, length);
        if r.percent(10) {
            image = generate::image(&mut r);
        }
        // A record of another length moves all that follow it: in few traces alone.
        let moved = r.percent(10);
        let mut bytes: Vec<u8> =
            records.iter().filter(|record| moved || record.len() == record::LENGTH).flatten().copied().collect();
        bytes.truncate(bytes.len() - r.below(record::LENGTH + 1).min(bytes.len()));
        let place = folder.join(number.to_string());
        fs::create_dir_all(&place)?;
        fs::write(place.join("listing.txt"), judge::listing::listing(&image, &bytes))?;
        fs::write(place.join("policy.bin"), image)?;
        fs::write(place.join("trace.bin"), bytes)?;
    }
    Ok(())
}

fn main() -> ExitCode {
    let args: Vec<String> = env::args().skip(1).collect();
    if let [word, seed, count, folder] = &args[..] {
        assert_eq!(word, "files", "differential files SEED COUNT FOLDER");
        let (seed, count) = (seed.parse().expect("the seed is a number"), count.parse().expect("a number of folders"));
        write_files(seed, count, Path::new(folder)).expect("the files can be written");
        return ExitCode::SUCCESS;
    }
    let clock = || SystemTime::now().duration_since(UNIX_EPOCH).map_or(1, |now| now.as_secs());
    let seed: u64 = args.first().map_or_else(clock, |text| text.parse().expect("the seed is a number"));
    let factor: f64 = args.get(1).map_or(1.0, |text| text.parse().expect("the factor is a number"));
    println!("seed {seed}, factor {factor}");

    let mut counters = Counters::default();
    let mut score = Score::default();
    let mut bench = Bench::new();
    let wanted = args.get(2).map_or("", String::as_str);
    for (place, part) in PARTS.iter().enumerate().filter(|(_, part)| part.name.starts_with(wanted)) {
        let cases = (part.cases as f64 * factor).ceil() as u64;
        run_part(part, seed.wrapping_add(1_000_003 * place as u64), cases, &mut bench, &mut counters, &mut score);
        if score.failed > 0 {
            break;
        }
    }
    print!("reached:\n{}", counters.table());
    if score.failed == 0 && wanted.is_empty() {
        let needs = PARTS.iter().flat_map(|part| part.needs);
        let missing: Vec<String> = needs.flat_map(|need| counters.missing(need)).collect();
        for what in &missing {
            println!("never reached: {what}");
        }
        score.note(missing.is_empty(), format_args!("every answer and every refusal was reached"));
    }
    println!("{} passed, {} failed", score.passed, score.failed);
    ExitCode::from(u8::from(score.failed > 0))
}
