"""Runs with standard input, standard output or standard error closed, as some supervisors start a program.

The system gives the descriptor of a closed stream to the next file that is opened. Whichever streams are closed, no file
of the store may take their place: every block stays, and what can be done without the stream is done.
"""
import re

from checking import cases, expect, expect_that
from formats import random_block
from stores import INIT, Store, closing, copied, expect_log_kept, files_in, get_line, new_folder, new_store, put_line, script_of

CLOSED = [(0,), (1,), (2,), (0, 1), (0, 2), (1, 2), (0, 1, 2)]

COMMANDS = {
    "init": INIT,
    "trace": ["trace"],
    "--help": ["--help"],
    "--version": ["--version"],
    "an unknown command": ["nonsense"],
}

NO_STORE, NEW_STORE, STORE_WITH_BLOCKS = "no store", "a new store", "a store with blocks"

INPUT_FAILED = rb"splitstore: standard input: read: .+ \(os error \d+\)\n"
OUTPUT_FAILED = rb"splitstore: standard output: (write|flush): .+ \(os error \d+\)\n"


def folder_with(trial, state):
    """A folder in this state."""
    if state == NO_STORE:
        return Store(trial.program, new_folder(trial, "store"))
    store = new_store(trial)
    if state == STORE_WITH_BLOCKS:
        store.put(*(random_block(trial.random, length) for length in (0, 3, 500, 70_000)))
    return store


def wanted_end(command, closed, usual):
    """The status and standard output of a run with descriptors closed, given those of a run with none closed."""
    status, out = (4, b"error: read fault\n") if command == "trace" and 0 in closed else usual
    return (5, b"") if 1 in closed else (status, out)


def wanted_reasons(command, closed):
    """The pattern of standard error: a line for each stream that failed."""
    if 2 in closed:
        return b""
    return (INPUT_FAILED if command == "trace" and 0 in closed else b"") + (OUTPUT_FAILED if 1 in closed else b"")


def compare(trial, store, command, script, closed, usual, files):
    """Makes one run with descriptors closed on a copy of the store, and compares it with the usual run, which left these files."""
    copy = copied(trial, store)
    what = f"{command} with {' and '.join(map(str, closed))} closed"
    ended = trial.program.run(copy.folder, *COMMANDS[command], script=script, before=[closing(*closed)])
    if store.blocks:
        expect_log_kept(what, store.log(), copy.log())
        copy.expect_found(f"after {what}")
    is_unread = command == "trace" and 0 in closed
    expect(f"{what}: the files afterwards", copy.files(), store.files() if is_unread else files)
    expect(f"{what}: status and output", (ended.status, ended.out), wanted_end(command, closed, usual))
    reasons = wanted_reasons(command, closed)
    expect_that(re.fullmatch(reasons, ended.err), f"{what}: standard error is {ended.err!r}, which does not match {reasons!r}")


@cases({f"{command} on {state}, with each of the descriptors 0, 1 and 2 and each pair closed: no block is lost": (command, state)
        for command in COMMANDS for state in (NO_STORE, NEW_STORE, STORE_WITH_BLOCKS)})
def closed_descriptors(trial, command, state):
    store = folder_with(trial, state)
    new = [random_block(trial.random, length) for length in (10, 2000)]
    script = script_of(*map(put_line, new), *map(get_line, new + store.blocks)) if command == "trace" else ""

    usual_folder = copied(trial, store).folder
    usual = trial.program.run(usual_folder, *COMMANDS[command], script=script)
    expect("standard error of a run with nothing closed", usual.err, b"")
    files = files_in(usual_folder)
    if command == "init" and state != NO_STORE:
        expect("the files of a store after init", files, store.files())
    for closed in CLOSED:
        compare(trial, store, command, script, closed, (usual.status, usual.out), files)
