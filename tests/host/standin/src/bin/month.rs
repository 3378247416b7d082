//! The month's figures written a second time, with the planted faults inside. Without one it must print what the judge
//! prints: the test that finds the faults shows that too. `standin-month faults` prints the list of them.

use std::collections::BTreeMap;
use std::{env, fs};

use judge::numbers::{MONTH_TRACES, RECORD, SESSION, TRACE_RECORDS};
use judge::session::{outcome, start, step, Outcome};

// Each is a mistake that a reviewer would try. A new one goes to the end: the notes of changes name them by number.
standin::faults! {
    SumOfRates, all, month, "the total rate is the sum of the rates";
    MeanOfRates, all, month, "the total rate is the mean of the rates";
    QuotientRounded, all, month, "the quotient is rounded";
    RemainderOfAlerts, all, month, "the remainder is that of the alerts alone";
    RefusedAccepted, all, month, "refused steps count as accepted";
    SessionCarriedOver, all, month, "the session is carried over to the next trace";
    LongTraceCounted, all, month, "a trace that is too long counts in the total";
    MillionRefused, all, month, "19 at 1,000,000 records";
    FirstAlertOrder, all, month, "containers in the order of their first alert";
    SilentContainers, all, month, "containers without an alert are printed";
    GapPassedOver, all, month, "a gap in the names is passed over";
    Trace65Read, all, month, "a 65th trace is read";
    ShortRecordLeftOut, all, month, "a short last record is left out";
    ListEndsAtLongTrace, all, month, "the list ends at a trace that is too long";
    ShortRecordUncounted, all, month, "a short last record does not count toward the million";
    AlertsAtProcess, all, month, "alerts are counted at the process";
    BlockedRefused, all, month, "blocked steps count as refused";
    BlockedAccepted, all, month, "blocked steps count as accepted";
    BlockedAlerts, all, month, "blocked steps count as alerts";
    BlockedBehindRate, all, month, "blocked steps stand behind the rate";
    BlockedTotalOfLast, all, month, "the total's blocked steps are those of the last trace";
}

/// Alerts by container, in the order in which the containers are printed.
type Containers = Vec<(u64, u64)>;

#[derive(Clone, Default)]
struct Figures {
    accepted: u64,
    alerts: u64,
    refused: u64,
    blocked: u64,
    containers: Containers,
}

impl Figures {
    fn alert(&mut self, container: u64, alerts: u64) {
        match self.containers.iter_mut().find(|entry| entry.0 == container) {
            Some(entry) => entry.1 += alerts,
            None => self.containers.push((container, alerts)),
        }
        if !planted(Fault::FirstAlertOrder) {
            self.containers.sort();
        }
    }

    fn add(&mut self, other: &Figures) {
        self.accepted += other.accepted;
        self.alerts += other.alerts;
        self.refused += other.refused;
        self.blocked = other.blocked + if planted(Fault::BlockedTotalOfLast) { 0 } else { self.blocked };
        for &(container, alerts) in &other.containers {
            self.alert(container, alerts);
        }
    }
}

/// A quotient and a remainder.
type Rate = (u64, u64);

fn rate(found: &Figures) -> Rate {
    let (thousandfold, steps) = (1_000 * found.alerts, found.accepted);
    let up = if planted(Fault::QuotientRounded) { steps / 2 } else { 0 };
    let whole = if planted(Fault::RemainderOfAlerts) { found.alerts } else { thousandfold };
    ((thousandfold + up) / steps, whole % steps)
}

/// The rate of all traces, whose own rates are these.
fn total_rate(total: &Figures, rates: &[Rate]) -> Rate {
    let summed = rates.iter().fold((0, 0), |sum, rate| (sum.0 + rate.0, sum.1 + rate.1));
    let traces = rates.len() as u64;
    match Fault::planted() {
        Some(Fault::SumOfRates) => summed,
        Some(Fault::MeanOfRates) => (summed.0 / traces, summed.1 / traces),
        _ => rate(total),
    }
}

fn line(name: &str, found: &Figures, rate: Option<Rate>) -> String {
    let mut fields = vec![name.to_string()];
    fields.extend([found.accepted, found.alerts, found.refused, found.blocked].map(|count| count.to_string()));
    match rate {
        Some((quotient, remainder)) => fields.extend([quotient.to_string(), remainder.to_string()]),
        None => fields.push("none".to_string()),
    }
    if planted(Fault::BlockedBehindRate) {
        let blocked = fields.remove(4);
        fields.push(blocked);
    }
    let silent = if planted(Fault::SilentContainers) { 256 } else { 0 };
    let mut containers: BTreeMap<u64, u64> = (0..silent).map(|container| (container, 0)).collect();
    containers.extend(found.containers.iter().copied());
    let shown: Containers =
        if planted(Fault::FirstAlertOrder) { found.containers.clone() } else { containers.into_iter().collect() };
    fields.extend(shown.iter().flat_map(|&(container, alerts)| [container.to_string(), alerts.to_string()]));
    fields.join(" ") + "\n"
}

fn records(trace: &[u8]) -> usize {
    if planted(Fault::ShortRecordUncounted) {
        trace.len() / RECORD
    } else {
        trace.len().div_ceil(RECORD)
    }
}

/// The traces by their numbers, up to the first missing name.
fn traces() -> Vec<(usize, Vec<u8>)> {
    let most = MONTH_TRACES + usize::from(planted(Fault::Trace65Read));
    let there = (0..most).map(|number| (number, fs::read(format!("{number:02}.bin")).ok()));
    if planted(Fault::GapPassedOver) {
        there.filter_map(|(number, trace)| Some((number, trace?))).collect()
    } else {
        there.map_while(|(number, trace)| Some((number, trace?))).collect()
    }
}

struct Month {
    policy: Vec<u8>,
    session: Vec<u64>,
}

impl Month {
    fn figures(&mut self, trace: &[u8]) -> Figures {
        if !planted(Fault::SessionCarriedOver) {
            start(&self.policy, &mut self.session);
        }
        let mut found = Figures::default();
        let shortest = if planted(Fault::ShortRecordLeftOut) { RECORD } else { 1 };
        for record in trace.chunks(RECORD).filter(|record| record.len() >= shortest) {
            let answer = step(&mut self.session, record);
            match outcome(answer.number) {
                Outcome::Quiet => found.accepted += 1,
                Outcome::Alert => {
                    found.accepted += 1;
                    found.alerts += 1;
                    let process = planted(Fault::AlertsAtProcess);
                    found.alert(if process { u64::from(record[2]) } else { answer.receiver }, 1);
                }
                Outcome::Blocked => match Fault::planted() {
                    Some(Fault::BlockedRefused) => found.refused += 1,
                    Some(Fault::BlockedAccepted) => found.accepted += 1,
                    Some(Fault::BlockedAlerts) => {
                        found.blocked += 1;
                        found.alerts += 1;
                        found.alert(answer.receiver, 1);
                    }
                    _ => found.blocked += 1,
                },
                Outcome::Refused => {
                    found.accepted += u64::from(planted(Fault::RefusedAccepted));
                    found.refused += 1;
                }
            }
        }
        found
    }

    fn text(&mut self) -> String {
        let refusal = start(&self.policy, &mut self.session);
        if refusal != 0 {
            return format!("policy refused {refusal}\n");
        }
        let (mut text, mut total, mut rates) = (String::new(), Figures::default(), Vec::new());
        for (number, trace) in traces() {
            let name = format!("{number:02}.bin");
            let over = records(&trace) > TRACE_RECORDS - usize::from(planted(Fault::MillionRefused));
            if over {
                text += &format!("{name} 19\n");
            }
            if over && planted(Fault::ListEndsAtLongTrace) {
                break;
            }
            if over && !planted(Fault::LongTraceCounted) {
                continue;
            }
            let found = self.figures(&trace);
            let rate = (found.accepted > 0).then(|| rate(&found));
            rates.extend(rate);
            if !over {
                text += &line(&name, &found, rate);
            }
            total.add(&found);
        }
        let rate = (total.accepted > 0).then(|| total_rate(&total, &rates));
        text + &line("total", &total, rate)
    }
}

fn main() {
    if env::args().nth(1).as_deref() == Some("faults") {
        return print!("{}", Fault::list("month"));
    }
    let policy = fs::read("policy.bin").unwrap_or_default();
    print!("{}", Month { policy, session: vec![0; SESSION] }.text());
}
