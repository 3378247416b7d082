//! The month program in natural Rust: whole traces, a map of containers, formatted lines.

use std::collections::BTreeMap;
use std::fs;
use std::io::{self, BufWriter, Write};

use yaslaurel::layout::record;
use yaslaurel::{ffi, SESSION_LENGTH};

use crate::plain::{self, Natural};

#[derive(Default)]
struct Figures {
    accepted: u64,
    alerts: u64,
    refused: u64,
    blocked: u64,
    containers: BTreeMap<u64, u64>,
}

impl Figures {
    fn of(policy: &[u8], session: &mut [u64], trace: &[u8]) -> Figures {
        plain::start::<Natural>(policy, session);
        let mut figures = Figures::default();
        for bytes in trace.chunks(record::LENGTH) {
            match plain::step::<Natural>(session, bytes) {
                (ffi::QUIET, ..) => figures.accepted += 1,
                (ffi::ALERT, receiver, ..) => {
                    figures.accepted += 1;
                    figures.alerts += 1;
                    *figures.containers.entry(receiver).or_default() += 1;
                }
                (ffi::BLOCKED, ..) => figures.blocked += 1,
                (number, ..) if number < ffi::ALERT => figures.refused += 1,
                (number, ..) => panic!("no answer has the number {number}"),
            }
        }
        figures
    }

    fn add(&mut self, other: &Figures) {
        self.accepted += other.accepted;
        self.alerts += other.alerts;
        self.refused += other.refused;
        self.blocked += other.blocked;
        for (container, alerts) in &other.containers {
            *self.containers.entry(*container).or_default() += alerts;
        }
    }

    fn write(&self, name: &str, out: &mut impl Write) -> io::Result<()> {
        write!(out, "{name} {} {} {} {}", self.accepted, self.alerts, self.refused, self.blocked)?;
        match self.accepted {
            0 => write!(out, " none")?,
            steps => write!(out, " {} {}", 1_000 * self.alerts / steps, 1_000 * self.alerts % steps)?,
        }
        for (container, alerts) in &self.containers {
            write!(out, " {container} {alerts}")?;
        }
        writeln!(out)
    }
}

pub fn month() -> io::Result<()> {
    let policy = fs::read("policy.bin").unwrap_or_default();
    let mut session = vec![0; SESSION_LENGTH];
    let mut out = BufWriter::new(io::stdout().lock());
    let refused = plain::start::<Natural>(&policy, &mut session);
    if refused != 0 {
        return writeln!(out, "policy refused {refused}");
    }
    let mut total = Figures::default();
    for number in 0..64 {
        let name = format!("{number:02}.bin");
        let Ok(trace) = fs::read(&name) else { break };
        if trace.len().div_ceil(record::LENGTH) > 1_000_000 {
            writeln!(out, "{name} 19")?;
            continue;
        }
        let figures = Figures::of(&policy, &mut session, &trace);
        figures.write(&name, &mut out)?;
        total.add(&figures);
    }
    total.write("total", &mut out)
}
