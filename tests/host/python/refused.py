#!/usr/bin/env python3
"""refused.py [PROGRAM]: every refusal with its words and its remedy, errors that are sent elsewhere, names; with the program `policy` also stories."""

import hashlib
import os
import pickle
import re
import shutil
import sys
import tempfile
import warnings
from pathlib import Path

from common import ROOT, finish, listed, note, raised, records
from yaslaurel import (
    Busy, Code, ForeignNames, Gap, Names, Policy, ProgramFailed, Refused, Session, SnapshotMismatch, UnknownAnswer, UnknownName, YaslaurelError, answers,
    explain, matrix, record, trim, why,
)
from yaslaurel._native import ffi, lib

sys.path.insert(0, str(ROOT / "hosts/python"))
import formats  # noqa: E402

FORMATS = (ROOT / "docs/FORMATS.md").read_text(encoding="utf-8")
HEADER = (ROOT / "include/yaslaurel.h").read_text(encoding="ascii")


def tables():
    """Meanings and remedies by number: the texts of the header's function by their order, and the rows of the table in docs/FORMATS.md."""
    meanings = re.findall(r'^        "([^"]+)",', HEADER[HEADER.index("meanings[] = {"):], re.M)
    rows = re.findall(r"^\| (\d+) \| (.+?) \| (.+) \|$", FORMATS[FORMATS.index("\n## Refusals\n"):], re.M)
    numbers = {int(number) for number in re.findall(r"^#define YASLAUREL_REFUSED_\w+ (\d+)u$", HEADER, re.M)}
    return {number: meanings[number] for number in numbers}, {int(number): remedy for number, _, remedy in rows}


def damaged_session():
    """A session whose process holds a rule of nine mixtures."""
    session = Session(Policy.from_matrix([1], [1], 1))
    session._numbers[lib.YASLAUREL_CONTAINER_ROW + lib.YASLAUREL_PERMIT_AT] = 9
    return session


def nine_places():
    """Two policies that are composed to a rule of nine mixtures if all consent."""
    made = []
    for first in (0, 8):
        policy = formats.Policy()
        policy.container(1, permit=0)
        policy.user()
        policy.rule([1 << (first + atom) for atom in range(8 if first == 0 else 1)])
        made.append(Policy(policy.image()))
    return made


def stepped():
    """The refusals of single records in stored cases."""
    found = {}
    for case in ("session-refusals", "other-user", "every-word"):
        folder = ROOT / "tests/host/listing" / case
        session = Session(Policy.from_file(folder / "policy.bin"))
        for one in records((folder / "trace.bin").read_bytes()):
            answer = session.step(one)
            if answer.refused:
                found[answer.answer] = answer.refusal
    return found


def raised_by_calls():
    """The refusals that calls raise."""
    demo, trace = Policy.from_file(ROOT / "demo/policy.bin"), (ROOT / "demo/trace.bin").read_bytes()
    texts = {path.parent.name: path.read_bytes() for path in (ROOT / "tests/host/profiles").glob("refused-*/profiles.txt")}
    one, other = nine_places()
    calls = [(Policy, (folder / "policy.bin").read_bytes()) for folder in listed(ROOT / "tests/host/listing") if folder.name.startswith("refused")]
    calls += [(Policy.from_profiles, text) for text in texts.values()]
    calls += [(lambda _: matrix.verdict([1], [1, 1], 1), 0), (lambda _: matrix.silent([], [], 1), 0), (lambda _: Policy.from_matrix([2], [1], 1), 0)]
    calls += [(lambda _: matrix.judge(matrix.Matrix([1], [1], 1), matrix.Matrix([1], [1], 2), matrix.Matrix([1], [1], 1)), 0)]
    calls += [(lambda _: matrix.game(matrix.Matrix([1], [1], 1), 0, 0, 1, 0), 0), (lambda _: one.compose(demo), 0), (lambda _: one.compose(other, range(9)), 0)]
    calls += [(lambda _: one.compose(one, bytes(31)), 0), (lambda _: one.compose(one, bytes(31) + b"\2"), 0)]
    calls += [(lambda data: trim(demo, data), trace), (lambda data: trim(demo, data), b""), (lambda data: why(demo, data), trace[:8]), (lambda data: explain(demo, data, 256, 0), trace)]
    return [raised(Refused, call, argument) for call, argument in calls]


def refusals():
    meanings, remedies = tables()
    found, errors = stepped(), raised_by_calls()
    note(all(errors), f"{len(errors)} calls are refused")
    found.update({error.number: error for error in errors if error})
    found[10] = damaged_session().step(record(Code.READ, 1, 0)).refusal
    # Nothing that the package lends has a wrong length, so 9 is asked for by a call of the library itself.
    found[9] = Refused(lib.yaslaurel_session_start(b"", 0, ffi.new("uint64_t[1]"), 1))
    note(found.keys() == meanings.keys(), f"every refusal is reached: {sorted(meanings.keys() ^ found.keys()) or len(found)}")
    note(all(error.number == number and error.meaning == meanings[number] for number, error in found.items()), "each has the header's words")
    note(all(error.remedy == remedies[number] for number, error in found.items()), "each has the remedy of docs/FORMATS.md")
    checked = [(raised(Refused, Policy.check, image), raised(Refused, Policy, image)) for image in (b"", bytes(18), bytes(20481))]
    note(all(one and one.number == other.number for one, other in checked) and Policy.check(Policy.from_matrix([1], [1], 1).image) is None, "check refuses what a policy refuses")
    note(answers.told(3, 5, 5, 5) == (3, None, 0, None), "a refusal has neither receiver nor tag nor position")
    note(all(raised(UnknownAnswer, answers.told, number, 0, 0, 0) for number in (19, 99, 255, 258)), "a number that the header does not list is told")


def sent():
    """Errors are one kind, have words, and come through pickle as they were."""
    errors = [Refused(7), Gap(5, 3), Busy(), SnapshotMismatch("policy"), UnknownName("no container is called 'x'"), UnknownAnswer(99)]
    errors += [ForeignNames("of another"), ProgramFailed("policy", 4, "line 1\n")]
    for error in errors:
        again = pickle.loads(pickle.dumps(error))
        note(isinstance(error, YaslaurelError) and str(again) == str(error) != "" and vars(again) == vars(error), f"{type(error).__name__}: {error}")


def images():
    """Policies are equal by their normal images."""
    policy = formats.Policy()
    policy.container(1, atom=0, permit=0)
    policy.container(3)
    policy.user()
    policy.rule([1, 3, 3])
    spelled, normal = Policy(policy.image()), formats.Policy()
    normal.container(1, atom=0, permit=0)
    normal.container(3)
    normal.user()
    normal.rule([3])
    note(spelled.image == normal.image() and spelled == Policy(normal.image()) and hash(spelled) == hash(Policy(normal.image())), "a policy is its normal image")
    note(spelled != Policy.from_matrix([1], [1], 1) and spelled != 5 and Policy.normal(policy.image()) == normal.image(), "and no other")
    note(spelled.digest == hashlib.sha256(normal.image()).digest(), "its digest is the SHA-256 of it")


def names(work):
    demo = Policy.from_file(ROOT / "demo/policy.bin")
    note((demo.container("south.statement"), demo.user("south-member"), demo.source("prices")) == (8, 1, 2), "the demo's names")
    note(demo.names.container_name(14) == "south-desk or third-desk" and demo.names.container_name(250) == "250", "names of numbers, also of one that was taken again")
    note(demo.names.sources_in(1 << 33 | 5) == ["north", "prices", "south (running)"], "names of the sources in a tag")
    unknown = [raised(UnknownName, call, "nobody") for call in (demo.container, demo.user, demo.source, Policy(demo.image).container)]
    note(all(unknown) and all("nobody" in str(error) for error in unknown), "a name that is none is told")
    folder = Path(work, "names")
    shutil.copytree(ROOT / "demo", folder, ignore=shutil.ignore_patterns("*.bin"))
    note(Policy.from_file(ROOT / "demo/policy.bin", folder).names == demo.names, "names of a folder that is named")
    other = Path(work, "other.bin")
    other.write_bytes(Policy.from_matrix([1], [1], 1).image)
    note(raised(ForeignNames, Policy.from_file, other, folder) is not None, "names of another policy are refused")
    shutil.copy(other, folder / "other.bin")
    note(Policy.from_file(folder / "other.bin").names == Names((), (), ()), "and not taken where they stand beside it")
    (folder / "policy.sha256").unlink()
    with warnings.catch_warnings(record=True) as said:
        warnings.simplefilter("always")
        taken = Policy.from_file(ROOT / "demo/policy.bin", folder)
    note(taken.names == demo.names and len(said) == 1 and "does not say" in str(said[0].message), "names without a digest are taken with a warning")
    (folder / "containers.txt").write_text("256 x\n")
    with warnings.catch_warnings():
        warnings.simplefilter("ignore")
        note(raised(ValueError, Policy.from_file, ROOT / "demo/policy.bin", folder) is not None, "a line of names that is none is told")
    profiles = Policy.from_profiles((ROOT / "demo/profiles/profiles.txt").read_text())
    note(profiles.names.container_name(0) == profiles.names.sources_in(1)[0] and profiles.names.container_name(0).startswith("/"), "the paths of profiles are names")
    note(pickle.loads(pickle.dumps(demo)) == demo and pickle.loads(pickle.dumps(demo)).names == demo.names, "a policy and its names can be sent elsewhere")


def stories(program, work):
    text = (ROOT / "demo/story.txt").read_text()
    demo = Policy.from_file(ROOT / "demo/policy.bin")
    made = [Policy.from_story(text, program), Policy.from_story(ROOT / "demo/story.txt", program)]
    note(all(one == demo and one.names == demo.names for one in made), "a story is the demo's policy with its names, as text and as file")
    error = raised(ProgramFailed, Policy.from_story, "source a\nnonsense\n", program)
    note(error and error.status == 4 and "-:2:" in error.said and "nonsense" in str(error), "a story that is refused: the line, and what was expected")
    error = raised(ProgramFailed, Policy.from_story, Path(work, "missing"), program)
    note(error and error.status == 5 and "missing" in error.said, "a story that is missing")
    error = raised(ProgramFailed, Policy.from_story, text, Path(work, "no-program"))
    note(error and error.status is None and "no-program" in str(error), "a program that is missing")
    error = raised(ProgramFailed, Policy.from_story, text, "true")
    note(error and "made no policy" in str(error), "a program that makes nothing")
    paths = {"policy": f'exec "{program}" "$@"', "yaslaurel": f'[ "$1" = policy ] && shift && exec "{program}" "$@"'}
    kept = os.environ["PATH"]
    try:
        for name, line in paths.items():
            folder = Path(work, f"path-{name}")
            folder.mkdir()
            (folder / name).write_text(f"#!/bin/sh\n{line}\n")
            (folder / name).chmod(0o755)
            os.environ["PATH"] = str(folder)
            note(Policy.from_story(text) == demo, f"the program is found on the path as {name}")
        os.environ["PATH"] = work
        error = raised(ProgramFailed, Policy.from_story, text)
        note(error and "on the path" in str(error), "and told where it is not there")
    finally:
        os.environ["PATH"] = kept


refusals()
sent()
images()
with tempfile.TemporaryDirectory() as scratch:
    names(scratch)
    if len(sys.argv) > 1:
        stories(sys.argv[1], scratch)
finish()
