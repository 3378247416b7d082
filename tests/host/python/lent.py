#!/usr/bin/env python3
"""lent.py: records in every kind of memory: the same answers, no copy, given back afterwards; and memory that is not in one piece."""

import array
import mmap
import tempfile
import tracemalloc

import numpy
from common import ROOT, finish, note, raised
from yaslaurel import Code, Figures, Gap, Policy, Session, record
from yaslaurel.buffers import lend
from yaslaurel._native import ffi

POLICY = Policy.from_file(ROOT / "demo/policy.bin")
TRACE = (ROOT / "demo/trace.bin").read_bytes()


def mapped(data):
    """Bytes in a mapped file."""
    file = tempfile.TemporaryFile()
    file.write(data)
    file.flush()
    return mmap.mmap(file.fileno(), 0, access=mmap.ACCESS_READ)


def kinds(data):
    """Bytes in every kind of memory, by name."""
    read_only = numpy.frombuffer(data, dtype=numpy.uint8)
    fields = numpy.dtype([("code", "u1"), ("zero", "u1"), ("process", "<u2"), ("object", "<u2"), ("user", "<u2")])
    return {
        "bytes": data,
        "bytearray": bytearray(data),
        "memoryview": memoryview(data),
        "memoryview, writable": memoryview(bytearray(data)),
        "memoryview of numbers": memoryview(bytearray(data)).cast("Q"),
        "memoryview in two dimensions": memoryview(bytearray(data)).cast("B", shape=[len(data) // 8, 8]),
        "array": array.array("Q", data),
        "mmap": mapped(data),
        "numpy": read_only.copy(),
        "numpy, read-only": read_only,
        "numpy, numbers": read_only.view(numpy.uint64),
        "numpy, rows": read_only.reshape(-1, 8),
        "numpy, fields": read_only.view(fields),
        "numpy, at an odd address": numpy.frombuffer(b"x" + data, dtype=numpy.uint8)[1:],
    }


def answers():
    wanted = Session(POLICY).events(TRACE)
    for name, data in kinds(TRACE).items():
        same = Session(POLICY).events(data) == Session(POLICY).feed(0, data) == wanted and Session(POLICY).figures(data) == Figures.of(POLICY, TRACE)
        same &= Session(POLICY).event_array(data).tolist() == Session(POLICY).event_array(TRACE).tolist() and Session(POLICY).run(data) == Session(POLICY).run(TRACE)
        same &= Figures.of(POLICY, data) == Figures.of(POLICY, TRACE)
        address = numpy.frombuffer(data, dtype=numpy.uint8).__array_interface__["data"][0]
        note(same and int(ffi.cast("uintptr_t", lend(data))) == address, f"records in {name}: the same answers, where they lie")
    note(all(Session(POLICY).step(data).quiet for data in kinds(TRACE[:8]).values()), "single records in all of these")
    note(all(Session(POLICY).events(data) == [] for data in (b"", bytearray(), memoryview(b""), array.array("B"), numpy.empty(0))), "no record at all in all of these")
    image = POLICY.image + bytes(-len(POLICY.image) % 8)
    note(all(Policy(data) == POLICY for data in kinds(image).values()), "a policy's image in all of these")
    snapshot = Session(POLICY).snapshot()
    note(Session.restore(POLICY, mapped(snapshot)).taken == Session.restore(POLICY, bytearray(snapshot)).taken == 0, "a snapshot in a mapped file")


def numbers():
    """The raw events: five columns, as the library has them."""
    events, raw, rows = Session(POLICY).events(TRACE), Session(POLICY).raw_events(TRACE), Session(POLICY).event_array(TRACE)
    note(raw.format == "Q" and raw.tolist() == rows.reshape(-1).tolist() and rows.dtype == numpy.uint64 and rows.shape == (len(events), 5), "raw events are five numbers each")
    spelled = [[event.place, event.answer, event.receiver or 0, event.tag, 255 if event.receiver is not None and event.position is None else event.position or 0] for event in events]
    note(rows.tolist() == spelled, "and the same events")
    note(Session(POLICY).event_array(b"").shape == (0, 5) and len(Session(POLICY).raw_events(TRACE[:8])) == 0, "also of none")
    later = Session(POLICY)
    later.events(TRACE[:80])
    note(later.event_array(TRACE[80:])[:, 0].tolist() == [event.place for event in events if event.place >= 10], "their places count from the session's first record")


def copies():
    """No batch copies its records."""
    quiet = Policy.from_matrix([1], [1], 1)
    long = bytearray(record(Code.READ, 1, 0) * 1_000_000)
    for name in ("events", "raw_events", "figures", "run", "feed"):
        session = Session(quiet)
        call = getattr(session, name)
        tracemalloc.start()
        call(0, long) if name == "feed" else call(long)
        peak = tracemalloc.get_traced_memory()[1]
        tracemalloc.stop()
        note(peak < 500_000 and session.taken == 1_000_000, f"{name} of 8,000,000 bytes takes {peak} bytes of memory")


def refused():
    """Memory in pieces, memory of no bytes, and memory that is to be given back."""
    session, rows = Session(POLICY), numpy.frombuffer(TRACE, dtype=numpy.uint8).reshape(-1, 8)
    session.events(TRACE[:80])
    before = session.taken, session.state()
    pieces = {"every second byte": memoryview(TRACE)[::2], "backwards": memoryview(TRACE)[::-1], "every second row": rows[::2], "columns": rows[:, :4], "in another order": numpy.asfortranarray(rows)}
    for name, data in pieces.items():
        errors = [raised(ValueError, call, data) for call in (session.step, session.run, session.events, session.raw_events, session.figures, lambda data: session.feed(10, data))]
        errors += [raised(ValueError, Policy, data), raised(ValueError, lambda data: Figures.of(POLICY, data), data)]
        note(all(error and "in one piece" in str(error) for error in errors), f"memory that is not in one piece is refused: {name}")
    note(all(raised(TypeError, call, data) for call in (session.step, session.events, Policy) for data in ("text", 5, None)), "what has no memory is refused")
    lengths = [raised(ValueError, session.events, TRACE[:length]) for length in range(80) if length % 8]
    note(all(error and "no whole records" in str(error) for error in lengths), "what is no whole records is refused")
    note((session.taken, session.state()) == before, "nothing has changed then")
    data, held = bytearray(TRACE), mapped(TRACE)
    error = raised(Gap, session.feed, 1000, data), raised(Gap, session.feed, 1000, held)
    session.events(data), session.events(held), session.step(held[:8])
    data.append(0)
    held.close()
    note(all(error) and len(data) == len(TRACE) + 1, "memory is given back behind a call, also one that fails")


answers()
numbers()
copies()
refused()
finish()
