#!/usr/bin/env python3
"""judged.py SEED RANDOM SCRATCH: what the package answers, as lines of the listing, of the month and of explanations, against the proved programs (byte for byte)
and, on the random cases in the folder RANDOM, the judge's listings that stand there. Events of batches against single steps, however they are cut."""

import sys
from pathlib import Path

from common import ROOT, WORDS, chosen, cut, finish, listed, note, printed, records, whole
from yaslaurel import ALERT, BLOCKED, Figures, Origin, Policy, Refused, Session, explain, why


def listing(policy, trace):
    """The watch program's listing, from single steps."""
    session, alerts, refused = Session(policy), 0, 0
    lines = ["step op p o verdict at tag pos"]
    for number, record in enumerate(records(trace), 1):
        answer = session.step(record)
        short = len(record) < 8
        op, p, o = ("other", 0, 0) if short else (WORDS.get(record[0], "other"), int.from_bytes(record[2:4], "little"), int.from_bytes(record[4:6], "little"))
        fields = [answer.answer] if answer.refused else [answer.receiver, f"{answer.tag:016x}", 255 if answer.position is None else answer.position]
        lines.append(" ".join(map(str, (number, op, p, o, answer.verdict, *fields))))
        alerts, refused = alerts + answer.alert, refused + answer.refused
    lines.append(f"total {session.taken} alerts {alerts} refused {refused}")
    return "\n".join(lines) + "\n"


def traced(folder):
    """The trace of a folder; a missing one counts as empty."""
    return (folder / "trace.bin").read_bytes() if (folder / "trace.bin").exists() else b""


def text(folder, make):
    """What a program would print of a folder, from the package: its lines, or that the policy is refused."""
    try:
        policy = Policy.from_file(folder / "policy.bin")
    except Refused as error:
        return f"policy refused {error.number}\n"
    return make(policy, traced(folder))


def month(folder):
    """The month program's lines, from the figures of each trace and their sum."""
    try:
        policy = Policy.from_file(folder / "policy.bin")
    except Refused as error:
        return f"policy refused {error.number}\n"
    names = []
    while len(names) < 64 and (folder / f"{len(names):02}.bin").exists():
        names.append(f"{len(names):02}.bin")
    figures = [Figures.of(policy, (folder / name).read_bytes()) for name in names]
    lines = [one.line(name) for name, one in zip(names, figures)]
    return "\n".join([*lines, sum(figures, Figures()).line("total")]) + "\n"


def explanation(policy, trace):
    """The explain program's lines, from the reason of each alert and blocked record and the chain of each atom that is lacked."""
    mixtures = mixtures_of(policy.image)
    session, lines, count = Session(policy), [], 0
    for place, record in enumerate(records(trace)):
        answer = session.step(record)
        if answer.answer not in (ALERT, BLOCKED):
            continue
        upto = trace[:8 * (place + 1)]
        reason, count, told = why(policy, upto), count + 1, set()
        behind = {Origin.OWN: [], Origin.RUN: [reason.origin_number, *(step + 1 for step in reason.chain)]}.get(reason.origin, [reason.origin_number])
        step = [] if reason.record is None else [reason.record + 1]
        owner = 65535 if reason.owner is None else reason.owner
        lines += [f"{answer.verdict} {place + 1} {reason.receiver}", " ".join(map(str, ("rule", reason.origin.name.lower(), reason.rule, owner, *step, *behind)))]
        for mixture, atom in zip(mixtures[reason.rule], reason.lacked):
            lines.append(f"lacks {mixture:016x} {atom}")
            if atom not in told:
                chain = explain(policy, upto, reason.receiver, atom)
                lines.append(" ".join(map(str, ("way", atom, chain.file, *(step + 1 for step in chain.records)))))
                told.add(atom)
    return "\n".join([*lines, f"total {len(records(trace))} explained {count}"]) + "\n"


def mixtures_of(image):
    """The mixtures of each rule of a normal image."""
    word = lambda at: int.from_bytes(image[at:at + 2], "little")
    rules, length, first = word(10), word(12), word(14)
    found = []
    for at in range(rules, rules + length, 6):
        start = first + 8 * word(at)
        found.append([int.from_bytes(image[place:place + 8], "little") for place in range(start, start + 8 * word(at + 2), 8)])
    return found


def batches(policy, trace, rng):
    """Whether events, raw events, figures, runs and feeds, however cut, are those of single steps; and how many events there are."""
    trace = whole(trace)
    single, answers = Session(policy), []
    for record in records(trace):
        answers.append(single.step(record))
    wanted = [(place, *vars(answer).values()) for place, answer in enumerate(answers) if not answer.quiet]
    told = lambda events: [tuple(getattr(event, name) for name in ("place", "answer", "receiver", "tag", "position")) for event in events]
    pieces = cut(trace, rng)
    whole_one, by_pieces, fed, run, counted = (Session(policy) for _ in range(5))
    good = told(whole_one.events(trace)) == wanted
    good &= [event for _, piece in pieces for event in told(by_pieces.events(piece))] == wanted
    good &= [event for first, piece in pieces for _ in range(2) for event in told(fed.feed(first, piece))] == wanted
    found, at = [], 0
    while at < len(trace):
        ran = run.run(trace[at:])
        found, at = found + ([ran.event] if ran.event else []), at + 8 * ran.taken
    good &= told(found) == wanted
    figures = sum((counted.figures(piece) for _, piece in pieces), Figures())
    alerts = [answer.receiver for answer in answers if answer.alert]
    good &= figures == Figures(
        records=len(answers), accepted=sum(answer.quiet or answer.alert for answer in answers), alerts=len(alerts), refused=sum(answer.refused for answer in answers),
        blocked=sum(answer.blocked for answer in answers), by_container={number: alerts.count(number) for number in alerts},
    )
    sessions = (single, whole_one, by_pieces, fed, run, counted)
    good &= len({session.state() for session in sessions}) == 1 and {session.taken for session in sessions} == {len(answers)}
    return good, len(wanted)


def random_months(cases, rng, scratch):
    """How many months of a case's policy, with its trace and others', have the month program's lines."""
    good = 0
    for number, case in enumerate(cases):
        target = Path(scratch, str(number))
        target.mkdir(parents=True)
        (target / "policy.bin").write_bytes((case / "policy.bin").read_bytes())
        traces = [traced(rng.choice(cases)) for _ in range(rng.randrange(4))] + [traced(case)]
        for place, trace in enumerate(traces):
            (target / f"{place:02}.bin").write_bytes(trace)
        good += month(target) == printed("month", target)
    return good


def explained(cases, scratch):
    """How many traces have the explanations of the program, which reads the normal image, and how many explanations there are."""
    good, count = 0, 0
    for number, case in enumerate(cases):
        target = Path(scratch, f"explained-{number}")
        target.mkdir()
        (target / "policy.bin").write_bytes(Policy.from_file(case / "policy.bin").image)
        (target / "trace.bin").write_bytes(traced(case))
        lines = printed("explain", target)
        good, count = good + (text(target, explanation) == lines), count + lines.count("rule ")
    return good, count


def main(seed, folder, scratch):
    rng, stored = chosen(seed, "judged"), [ROOT / "demo", ROOT / "crates/watch/data", *listed(ROOT / "tests/host/listing")]
    cases = listed(folder)
    lost = [case for case in stored if text(case, listing) != printed("watch", case)]
    note(not lost and len(stored) > 20, f"the listings of {len(stored)} stored cases are the watch program's {lost or ''}")
    lost = [case for case in stored if (case / "expected").exists() and text(case, listing) != (case / "expected").read_text()]
    note(not lost, f"and those that are stored {lost or ''}")
    lost = [case.name for case in cases if not text(case, listing) == printed("watch", case) == (case / "listing.txt").read_text()]
    note(not lost and cases, f"the listings of {len(cases)} random cases are the watch program's and the judge's {lost or ''}")
    months = [ROOT / "crates/month/data", *(path for path in (ROOT / "tests/host/month").iterdir() if path.is_dir())]
    lost = [case for case in months if (case / "policy.bin").exists() and month(case) != printed("month", case)]
    note(not lost and len(months) > 10, f"the lines of {len(months)} stored months are the month program's {lost or ''}")
    good = random_months(cases, rng, scratch)
    note(good == len(cases), f"the lines of {good} of {len(cases)} random months are the month program's")
    accepted = [case for case in [*stored, *cases] if not text(case, lambda *_: "").startswith("policy refused")]
    good, count = explained(accepted, scratch)
    note(good == len(accepted) and count, f"the explanations of {good} of {len(accepted)} traces are those of the program explain ({count} of them)")
    results = [batches(Policy.from_file(case / "policy.bin"), traced(case), rng) for case in accepted]
    found = sum(count for _, count in results)
    note(all(good for good, _ in results) and found, f"batches are single steps, in {len(results)} traces with {found} events")
    finish()


main(*sys.argv[1:])
