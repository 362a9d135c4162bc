"""Two programs on one store: the second one touches nothing.

To hold a program in the middle of its script, its output goes to a pipe that is not read, and its gets print more than
the pipe and the program's own buffer take.
"""
import contextlib
import fcntl
import os
import select
import subprocess

from checking import Failed, check, expect, expect_that
from formats import random_block
from stores import (EXISTS, HOT, INIT, MADE, NO_STORE, SECONDS, Ended, Store, answers, files_in, finish, found, get_line,
                    new_folder, new_store, put_line, puts_and_gets, script_of, written)

LOCKED = Ended(6, b"error: disk fault\n", b"splitstore: another program uses this store\n")
LOCKED_LOG = Ended(6, b"error: disk fault\n", b"splitstore: hot-a.log: another program uses this file\n")

# A get of a block of so many bytes prints twice as many; so many gets fill a pipe of 64 KB and a buffer of 64 KB.
LARGE, GETS = 100_000, 4


@contextlib.contextmanager
def holding(trial, store):
    """A program in the middle of its script on the store, with the answers that it is to give."""
    large, new = store.blocks[-1], random_block(trial.random, 30)
    script = script_of(put_line(new), *[get_line(large)] * GETS, get_line(new))
    wanted = ["opened 0", "stored 1", *[found(large)] * GETS, found(new)]
    with open(written(trial, script), "rb") as file:
        process = store.program.start(store.folder, "trace", stdin=file)
    try:
        if not select.select([process.stdout], [], [], SECONDS)[0]:
            raise Failed("the first program prints nothing")
        store.blocks.append(new)
        yield process, wanted
    finally:
        process.kill()
        process.communicate()


def store_to_hold(trial):
    return new_store(trial).put(random_block(trial.random, 10), random_block(trial.random, LARGE))


@check("trace and init on a store in use end with status 6 and touch nothing, and the program that uses it goes on")
def second_program(trial):
    store = store_to_hold(trial)
    with holding(trial, store) as (first, wanted):
        before = store.files()
        script = script_of(put_line(random_block(trial.random, 20)), get_line(store.blocks[0]))
        expect("trace on a store in use", store.trace(script), LOCKED)
        expect("init on a store in use", trial.program.run(store.folder, *INIT), LOCKED)
        expect("the files of the store in use", store.files(), before)
        ended = finish(first)
        expect("the first program's status and standard error", (ended.status, ended.err), (0, b""))
        expect("the first program's answers", answers(ended.out), wanted)
    store.expect_found("after the first program")


@check("a log that is linked into a second folder, by a hard or a symbolic link or `cp -al`, has one program at a time")
def linked_logs(trial):
    store = store_to_hold(trial)
    log, folders = os.path.join(store.folder, HOT), []
    for link in (os.link, os.symlink):
        folders.append(new_folder(trial, link.__name__))
        link(log, os.path.join(folders[-1], HOT))
    with holding(trial, store) as (first, wanted):
        folders.append(os.path.join(trial.folder, "snapshot"))
        subprocess.run(["cp", "-al", store.folder, folders[-1]], check=True)
        before = store.files()
        for folder in folders:
            for arguments in (["trace"], ["import"], ["info"], INIT):
                expect(f"{arguments[0]} on the log of a store in use", trial.program.run(folder, *arguments), LOCKED_LOG)
        expect("the files of the store in use", store.files(), before)
        ended = finish(first)
        expect("the first program's status and answers", (ended.status, answers(ended.out)), (0, wanted))
    for folder in folders:
        Store(trial.program, folder, store.blocks).expect_found("through a link")


@check("two programs that only read share a store and its log, and one that writes is refused beside them, as they are beside it")
def readers_share(trial):
    store = new_store(trial).put(random_block(trial.random, 10))
    wanted = store.info()
    expect("the status of info", wanted.status, 0)
    locks = [os.open(path, os.O_RDONLY) for path in (store.folder, os.path.join(store.folder, HOT))]
    try:
        for descriptor in locks:
            fcntl.flock(descriptor, fcntl.LOCK_SH | fcntl.LOCK_NB)
        expect("info beside a program that reads", store.info(), wanted)
        expect("trace beside it", store.trace("0 open\n"), LOCKED)
        fcntl.flock(locks[0], fcntl.LOCK_UN)
        expect("info beside a program that reads the log", store.info(), wanted)
        expect("trace beside that", store.trace("0 open\n"), LOCKED_LOG)
        fcntl.flock(locks[1], fcntl.LOCK_EX | fcntl.LOCK_NB)
        expect("info beside a program that writes the log", store.info(), LOCKED_LOG)
        fcntl.flock(locks[0], fcntl.LOCK_EX | fcntl.LOCK_NB)
        expect("info beside a program that writes the store", store.info(), LOCKED)
    finally:
        for descriptor in locks:
            os.close(descriptor)
    store.expect_found("after programs that shared it")


@check("what does not need the disk runs beside a program that uses the store")
def no_disk(trial):
    store = store_to_hold(trial)
    with holding(trial, store):
        for argument in ("--version", "--help", "nonsense"):
            beside = trial.program.run(store.folder, argument)
            expect(f"{argument} on a store in use", beside, trial.program.run(trial.folder, argument))
        expect("a script with a bad line on a store in use", store.trace("0 close\n"), Ended(9, b"error: script 1 3\n", b""))


@check("a program that is killed releases its store")
def killed_holder(trial):
    store = store_to_hold(trial)
    with holding(trial, store) as (first, _):
        first.kill()
        first.wait()
        store.expect_found("after the program that used it was killed", *store.blocks[:-1])
        store.put(random_block(trial.random, 5))


@check("a folder that is locked before it has a store stays empty")
def locked_folder(trial):
    folder = new_folder(trial, "empty")
    descriptor = os.open(folder, os.O_RDONLY)
    try:
        fcntl.flock(descriptor, fcntl.LOCK_EX | fcntl.LOCK_NB)
        expect("init in a locked folder", trial.program.run(folder, *INIT), LOCKED)
        expect("trace in a locked folder", trial.program.run(folder, "trace", script="0 open\n"), LOCKED)
        expect("the files of the locked folder", files_in(folder), {})
    finally:
        os.close(descriptor)
    Store(trial.program, folder).init()


def together(trial, folder, *runs):
    """How two runs end that are started together, each given as its arguments and its script."""
    started = []
    for number, (arguments, script) in enumerate(runs):
        with open(written(trial, script, f"script-{number}"), "rb") as file:
            started.append(trial.program.start(folder, *arguments, stdin=file))
    return [finish(each) for each in started]


def expect_trace(store, blocks, ended):
    """Expects that a run of puts and gets of these blocks was refused as a whole, or is answered rightly."""
    if ended != LOCKED:
        wanted = [answer for each in blocks for answer in ("stored 1", found(each))]
        expect("a run beside another", (ended.status, answers(ended.out), ended.err), (0, ["opened 0", *wanted], b""))
        store.blocks += blocks


@check("two traces that are started together: each is refused as a whole or answers rightly, and every stored block is found")
def two_traces(trial):
    store = new_store(trial)
    refused = 0
    for _ in range(10):
        parts = [[random_block(trial.random, 200) for _ in range(250)] for _ in range(2)]
        ends = together(trial, store.folder, *((["trace"], puts_and_gets(part)) for part in parts))
        refused += LOCKED in ends
        expect_that(ends != [LOCKED, LOCKED], "both of two programs were refused")
        for part, ended in zip(parts, ends):
            expect_trace(store, part, ended)
        store.expect_found("after two programs that were started together")
    return f"in {refused} of 10 pairs one was refused"


@check("init and trace that are started together: the store is made once, and every stored block is found")
def init_and_trace(trial):
    for turn in range(20):
        store = Store(trial.program, new_folder(trial, str(turn)))
        blocks = [random_block(trial.random, 100) for _ in range(3)]
        runs = [(INIT, ""), (["trace"], puts_and_gets(blocks))]
        order = 1 if turn % 2 else -1
        made, traced = together(trial, store.folder, *runs[::order])[::order]
        expect_that(made in (MADE, LOCKED), f"init beside trace ended with {made}")
        if traced != NO_STORE:
            expect_trace(store, blocks, traced)
        if made == LOCKED and not store.blocks:
            store.init()
        if store.blocks:
            store.expect_found("after init and trace that were started together")


@check("two inits that are started together make one store")
def two_inits(trial):
    for turn in range(20):
        folder = new_folder(trial, str(turn))
        ends = together(trial, folder, (INIT, ""), (INIT, ""))
        is_one_made = ends.count(MADE) == 1 and all(each in (MADE, LOCKED, EXISTS) for each in ends)
        expect_that(is_one_made, f"two inits ended with {ends}")
        Store(trial.program, folder).put(random_block(trial.random, 10))
