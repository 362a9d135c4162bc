"""Checks by name: how they are registered, what they expect, and how their results are counted."""
import dataclasses
import random
import shutil
import tempfile
import time
import traceback
from typing import Callable

# How often a check may miss its moment before it is given up for this run.
TRIES = 20

# The most characters of a value that a failure shows.
SHOWN = 400


class Failed(Exception):
    """Something was not as expected."""


class Skipped(Exception):
    """The check cannot be made on this machine; the text says why."""


class Missed(Exception):
    """The moment that the check waits for did not come; the text says which. This is no failure."""


@dataclasses.dataclass(frozen=True)
class Check:
    """A check. `shows` says what holds if it passes."""
    shows: str
    function: Callable
    is_long: bool = False


CHECKS = []


def check(shows, is_long=False):
    """Registers a function as a check. It takes a `Trial`, raises if something is wrong, and may return a note."""
    def register(function):
        CHECKS.append(Check(shows, function, is_long))
        return function
    return register


def cases(table):
    """Registers a function as one check for each entry of a table, which has the arguments after the trial by what they show."""
    def register(function):
        for shows, arguments in table.items():
            CHECKS.append(Check(shows, lambda trial, given=arguments: function(trial, *given)))
        return function
    return register


def expect(what, got, wanted):
    """Fails if a value is not the one that is wanted."""
    if got != wanted:
        raise Failed(f"{what}\n    expected {shown(wanted, got)}\n    came     {shown(got, wanted)}")


def expect_that(holds, what):
    """Fails if something does not hold."""
    if not holds:
        raise Failed(what)


def shown(value, other):
    """A value as a failure shows it. Of a long one this is the part around its first difference from the other."""
    if not isinstance(value, (bytes, str)):
        value, other = repr(value), repr(other)
    if len(value) <= SHOWN or not isinstance(other, type(value)):
        return repr(value[:SHOWN])
    length = min(len(value), len(other))
    first = next((at for at in range(length) if value[at] != other[at]), length)
    start = max(0, first - SHOWN // 2)
    return f"{value[start:start + SHOWN]!r} ({len(value)} in all, from {start} on)"


class Trial:
    """What a check is given: the program, a folder of its own, and a source of random numbers."""

    def __init__(self, program, folder, source, is_long):
        self.program = program
        self.folder = folder
        self.random = source
        self.is_long = is_long

    @staticmethod
    def until_caught(attempt):
        """Makes an attempt again as long as it misses its moment, and gives it up after some tries."""
        for _ in range(TRIES):
            try:
                return attempt()
            except Missed as why:
                print(f"     missed: {why}; trying again", flush=True)
        raise Missed(f"nothing was caught in {TRIES} tries")


class Tally:
    """Makes checks, prints a line for each, and counts their results."""

    def __init__(self):
        self.passed = 0
        self.failed = 0

    def make(self, each, trial_in):
        """Makes one check in a new folder, which is removed afterwards."""
        folder = tempfile.mkdtemp(prefix="splitstore-tests-")
        began = time.monotonic()
        try:
            note = each.function(trial_in(folder))
            self.passed += 1
            print(f"ok   {each.shows} ({time.monotonic() - began:.1f} s{f'; {note}' if note else ''})", flush=True)
        except (Skipped, Missed) as why:
            print(f"skip {each.shows}: {why}", flush=True)
        except Failed as why:
            self.fail(each, why)
        except Exception:
            self.fail(each, traceback.format_exc())
        finally:
            shutil.rmtree(folder, ignore_errors=True)

    def fail(self, each, why):
        self.failed += 1
        print(f"FAIL {each.shows}\n    {why}", flush=True)


def seeded(seed, each):
    """The source of random numbers of a check. It depends on the seed and not on which other checks are made."""
    return random.Random(f"{seed} {each.shows}")
