//! The month's figures (change request No. 6).

use std::collections::BTreeMap;
use std::fmt::Write as _;

use crate::numbers::{MONTH_TRACES, RECORD, SESSION, TRACE_RECORDS};
use crate::session::{outcome, start, step, Outcome};

/// "19 when a trace has over 1,000,000 records".
const TOO_LONG: u32 = 19;

/// "accepted steps, alerts, refused steps, .. then number and alerts of each container number that alerted"; "the month's figures
/// give it a count of its own, right behind refused steps and outside accepted, alerts and refused" (change request No. 9, of a
/// blocked access).
#[derive(Default)]
struct Figures {
    accepted: u64,
    alerts: u64,
    refused: u64,
    blocked: u64,
    containers: BTreeMap<u64, u64>,
}

/// "each from a new session".
fn figures(policy: &[u8], trace: &[u8]) -> Figures {
    let mut session = vec![0; SESSION];
    start(policy, &mut session);
    let mut found = Figures::default();
    // "Records are counted .. as in the watch program": "a short last record counts as a step"
    for record in trace.chunks(RECORD) {
        let answer = step(&mut session, record);
        match outcome(answer.number) {
            Outcome::Quiet => found.accepted += 1,
            Outcome::Alert => {
                found.accepted += 1;
                found.alerts += 1;
                *found.containers.entry(answer.receiver).or_default() += 1;
            }
            Outcome::Blocked => found.blocked += 1,
            Outcome::Refused => found.refused += 1,
        }
    }
    found
}

/// "name (`total` in the last), accepted steps, alerts, refused steps, the rate .., then number and alerts of each container
/// number that alerted, rising", "spaced and ended as in the listing".
fn line(name: &str, found: &Figures) -> String {
    let mut text = format!("{name} {} {} {} {}", found.accepted, found.alerts, found.refused, found.blocked);
    match found.accepted {
        // "With no accepted step it prints `none` for the rate."
        0 => text.push_str(" none"),
        // "1,000 times the alerts by the accepted steps, whole quotient and remainder as two fields"
        steps => write!(text, " {} {}", 1_000 * found.alerts / steps, 1_000 * found.alerts % steps).unwrap(),
    }
    for (container, alerts) in &found.containers {
        write!(text, " {container} {alerts}").unwrap();
    }
    text.push('\n');
    text
}

/// What the program prints of a policy and of the traces that are there, "ending at the first missing name".
pub fn month(policy: &[u8], traces: &[Vec<u8>]) -> String {
    let refusal = start(policy, &mut vec![0; SESSION]);
    if refusal != 0 {
        // "a refused policy is shown as in the watch program"
        return format!("policy refused {refusal}\n");
    }
    let mut text = String::new();
    let mut total = Figures::default();
    // "up to 64 traces named `00.bin` upward"
    for (number, trace) in traces.iter().take(MONTH_TRACES).enumerate() {
        let name = format!("{number:02}.bin");
        if trace.chunks(RECORD).len() > TRACE_RECORDS {
            // "it is then left out whole and only its name and 19 are printed"
            writeln!(text, "{name} {TOO_LONG}").unwrap();
            continue;
        }
        let found = figures(policy, trace);
        text.push_str(&line(&name, &found));
        // "Total counts equal the sums over the histories, and the total rate is worked out from them."
        total.accepted += found.accepted;
        total.alerts += found.alerts;
        total.refused += found.refused;
        total.blocked += found.blocked;
        for (container, alerts) in found.containers {
            *total.containers.entry(container).or_default() += alerts;
        }
    }
    text.push_str(&line("total", &total));
    text
}

#[cfg(test)]
mod tests {
    use super::*;

    /// Figures with these counts and alerts at these containers.
    fn some(accepted: u64, refused: u64, blocked: u64, containers: &[(u64, u64)]) -> Figures {
        let containers: BTreeMap<u64, u64> = containers.iter().copied().collect();
        Figures { accepted, alerts: containers.values().sum(), refused, blocked, containers }
    }

    #[test]
    fn lines() {
        assert_eq!(
            line("07.bin", &some(301, 2, 5, &[(255, 1), (0, 3), (7, 12)])),
            "07.bin 301 16 2 5 53 47 0 3 7 12 255 1\n"
        );
        assert_eq!(line("total", &some(0, 0, 0, &[])), "total 0 0 0 0 none\n");
        assert_eq!(line("00.bin", &some(3, 0, 0, &[])), "00.bin 3 0 0 0 0 0\n");
    }

    #[test]
    fn no_trace_and_refused_policy() {
        let empty = crate::normal::encode(&crate::image::Policy {
            containers: vec![],
            users: vec![],
            rules: vec![],
            owners: vec![],
        });
        assert_eq!(month(&empty, &[]), "total 0 0 0 0 none\n");
        let lines = "00.bin 0 0 1 0 none\n01.bin 0 0 0 0 none\ntotal 0 0 1 0 none\n";
        assert_eq!(month(&empty, &[vec![1, 0, 0], vec![]]), lines);
        assert_eq!(month(&[], &[vec![1, 0, 0]]), "policy refused 1\n");
    }

    #[test]
    fn at_the_limits() {
        let empty = crate::normal::encode(&crate::image::Policy {
            containers: vec![],
            users: vec![],
            rules: vec![],
            owners: vec![],
        });
        let long = [vec![0; 8_000_000], vec![0; 8_000_001]];
        assert_eq!(month(&empty, &long), "00.bin 0 0 1000000 0 none\n01.bin 19\ntotal 0 0 1000000 0 none\n");
        assert_eq!(month(&empty, &vec![vec![]; 65]).lines().count(), 65);
    }
}
