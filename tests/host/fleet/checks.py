"""Counts of the checks of a script of this test: its last line is `N passed, M failed`."""

import sys
import traceback

passed = failed = 0


def note(good, text):
    global passed, failed
    print(f"{'ok' if good else 'FAILED'} {text}", flush=True)
    passed, failed = passed + bool(good), failed + (not good)


def tried(text, check):
    """Runs a check that says by an exception what is wrong."""
    try:
        check()
    except Exception as error:
        note(False, f"{text}: {type(error).__name__}: {str(error).strip()[:400]}")
        traceback.print_exc(file=sys.stdout)
    else:
        note(True, text)


def refused(kind, words, action):
    """The action raises this kind of exception, with these words."""
    try:
        action()
    except kind as error:
        assert words in str(error), f"told {error!r}, and not {words!r}"
    else:
        raise AssertionError(f"{kind.__name__} was not raised: {words}")


def finish():
    print(f"{passed} passed, {failed} failed")
    sys.exit(failed != 0)
