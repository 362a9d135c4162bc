"""Runs that are killed at random moments, after which everything that was answered `stored` is found, and the head is there."""
import itertools
import os
import signal
import time

from checking import Missed, check, expect, expect_that
from formats import IDENTITY, random_block
from headers import header_block
from stores import (EXISTS, FILES, INIT, MADE, SECONDS, Store, answers, found, get_line, head_line, new_folder, new_store, put_line,
                    script_of, written)

KILLS, LONG_KILLS = 50, 1000

# The puts of a run that is killed.
PUTS = 60

# The bytes of a block whose get prints more than the program buffers, so that the lines before it are printed too.
LARGE = 40_000


def counted(word, printed):
    """How many of the answers begin so."""
    return sum(each.startswith(word) for each in printed)


class Puts:
    """A script of puts of new blocks, with a head and a get that prints much after each of them."""

    def __init__(self, source, large):
        self.batches = [[random_block(source, source.randint(16, 3000)) for _ in range(source.randint(1, 3))] for _ in range(PUTS)]
        self.blocks = [each for batch in self.batches for each in batch]
        # the headers stand in identity CIDs; two runs have no height in common
        self.heights = source.sample(range(1 << 40), PUTS)
        lines, self.wanted = [], ["opened 0"]
        for batch, height in zip(self.batches, self.heights):
            lines += [put_line(*batch), head_line(header_block(height, code=IDENTITY)), get_line(large)]
            self.wanted += [f"stored {len(batch)}", f"head {height}", found(large)]
        self.script = script_of(*lines)

    def stored(self, printed):
        """The blocks of the puts whose answers were printed."""
        expect("the answers before a kill", printed, self.wanted[:len(printed)])
        return [each for batch in self.batches[:counted("stored ", printed)] for each in batch]

    def heads(self, printed):
        """The heights that the head may have, if one was printed; else none."""
        count = counted("head ", printed)
        return self.heights[count - 1:] if count else []


def killed(trial, store, script, printed, pause):
    """Kills a run so many seconds after it has printed so many bytes. Gives its answers, and whether the kill came before its end."""
    path = os.path.join(trial.folder, "out")
    with open(written(trial, script), "rb") as file, open(path, "w+b") as out:
        process = store.program.start(store.folder, "trace", stdin=file, stdout=out)
        while os.path.getsize(path) < printed and process.poll() is None:
            time.sleep(0.0002)
        time.sleep(pause)
        process.kill()
        _, err = process.communicate(timeout=SECONDS)
        expect("standard error of a run that is killed", err, b"")
        out.seek(0)
        return answers(out.read()), process.returncode == -signal.SIGKILL


def kill_once(trial, store, large, size, seconds):
    """Kills one run of puts, and looks for every block that was stored. A calm run prints so many bytes in so many seconds."""
    puts = Puts(trial.random, large)
    # one in five at any moment, the others after some output, which comes however slow the machine is
    is_any = trial.random.random() < 0.2
    printed = 0 if is_any else trial.random.randrange(size * 9 // 10)
    answered, is_killed = killed(trial, store, puts.script, printed, trial.random.uniform(0, seconds if is_any else seconds / PUTS))
    stored = puts.stored(answered)
    store.blocks += stored
    store.expect_found("after a kill")
    for each, answer in zip(puts.blocks, store.answers_to(*map(get_line, puts.blocks))):
        expect_that(answer in ("not-found", found(each)), f"a block of a run that was killed is answered {answer[:80]}")
    heads = puts.heads(answered)
    if heads:
        height = int(store.answers_to("0 info\n")[0].split()[2])
        expect_that(height in heads, f"the head has the height {height} after a run that was killed")
    if not is_killed:
        raise Missed("the run had ended before the kill")
    if not stored:
        raise Missed("the kill came before a put was printed")
    return len(stored)


@check("whatever moment a run is killed at, every block that it said was stored is found, and the head is its last or a later one")
def kills(trial):
    large = random_block(trial.random, LARGE)
    store, calm = new_store(trial).put(large), Puts(trial.random, large)
    began = time.monotonic()
    ended = store.trace(calm.script)
    seconds = time.monotonic() - began
    expect("the answers of a run that is not killed", answers(ended.out), calm.wanted)
    counts = []
    for turn in range(LONG_KILLS if trial.is_long else KILLS):
        if turn % 10 == 0:
            store = new_store(trial, f"store-{turn}").put(large)
        counts.append(trial.until_caught(lambda: kill_once(trial, store, large, len(ended.out), seconds)))
    return f"{len(counts)} kills, each after {min(counts)} to {max(counts)} stored blocks"


def kill_init(trial, folder):
    """Kills one `init` when it has made some of the files, and runs it again. Gives whether it had made the store."""
    count, pause = trial.random.randint(0, len(FILES)), trial.random.uniform(0, 0.001)
    process = trial.program.start(folder, *INIT)
    while len(os.listdir(folder)) < count and process.poll() is None:
        pass
    time.sleep(pause)
    process.kill()
    out, _ = process.communicate(timeout=SECONDS)
    again = trial.program.run(folder, *INIT)
    expect_that(again == EXISTS or (again == MADE and not out), f"init ended with {again} after one that was killed and printed {out!r}")
    Store(trial.program, folder).put(random_block(trial.random, 100)).expect_found("after an init that was killed")
    if process.returncode != -signal.SIGKILL:
        raise Missed("init had ended before the kill")
    return again == EXISTS


@check("whatever moment init is killed at, a second init makes the store or finds it made")
def kills_of_init(trial):
    folders = itertools.count()
    made = [trial.until_caught(lambda: kill_init(trial, new_folder(trial, str(next(folders))))) for _ in range(KILLS)]
    return f"{len(made)} kills, {sum(made)} after the store was made"
