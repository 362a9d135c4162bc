"""Each allocation failing in turn, over the worked examples."""
import errno
import re

from cars import car, import_into
from checking import check, expect, expect_that
from examples import AFTER, read
from formats import random_block
from headers import header_block
from imports import imported, info_lines
from interposed import run
from logs import kept
from model import Model
from stores import EXISTS, INIT, MADE, Store, answers, copied, new_folder, new_store, script_of

# The statuses that a lack of memory can end a run with, and their lines. A file whose path finds no memory is not opened.
LINES = {3: b"error: no memory", 6: b"error: disk fault"}
REASONS = {6: rb"splitstore: [a-z.-]+: open: out of memory\n"}
ENDS = [line + b"\n" for line in LINES.values()]


def without(trial, number, folder, *arguments, script=""):
    """How a run ends whose allocation of this number fails."""
    return run(trial, folder, *arguments, script=script, rules=[("malloc", "memory", number, errno.ENOMEM)])[0]


def allocations(trial, folder, *arguments, script=""):
    """The numbers of the allocations of a run."""
    _, made = run(trial, folder, *arguments, script=script)
    return range(1, made[-1].result + 1)


def expect_end(what, ended, usual):
    """Expects that a run ended as usual, or with a status of its lack of memory, its line and its reason."""
    expect_that(ended.status in (usual, *LINES), f"{what}: its status is {ended.status}, and it ends {ended.out[-80:]!r}")
    if ended.status in LINES:
        expect(f"{what}: its last line", ended.out.splitlines()[-1], LINES[ended.status])
    reasons = REASONS.get(ended.status, b"")
    expect_that(re.fullmatch(reasons, ended.err), f"{what}: standard error is {ended.err!r}, which does not match {reasons!r}")


def expect_stored(what, store, script, out):
    """Expects that the blocks of each put of the script that was answered `stored` are found, with the data as it stands there."""
    lines = script.splitlines()
    stored = [lines[int(line.split()[2]) - 1] for line in out.decode("ascii").splitlines() if " = stored" in line]
    pairs = [pair for line in stored for pair in zip(line.split()[3::2], line.split()[4::2])]
    ended = store.trace(script_of(*(f"0 get 0 {cid}\n" for cid, _ in pairs)))
    wanted = ["opened 0", *(f"found {data}" for _, data in pairs)]
    expect(f"{what}: gets of what was stored", (ended.status, answers(ended.out)), (0, wanted))


@check("each allocation of the examples failing in turn: the run ends with a status and its line, and what was stored is found", True)
def examples_without_memory(trial):
    count = 0
    for name in ("first", "twice", "links", "chain"):
        store = new_store(trial, name)
        for each in AFTER.get(name, []):
            store.trace(read(f"examples/{each}.script"))
        script = read(f"examples/{name}.script")
        usual = copied(trial, store).trace(script).status
        for number in allocations(trial, copied(trial, store).folder, "trace", script=script):
            copy, what = copied(trial, store), f"the example {name} without its allocation {number}"
            ended = without(trial, number, copy.folder, "trace", script=script)
            expect_end(what, ended, usual)
            expect_stored(what, copy, script, ended.out)
            expect(f"the status of the example after {what}", copy.trace(script).status, usual)
            count += 1
    return f"{count} runs"


@check("each allocation of init failing in turn: it makes the store or ends with a status and its line, and can be run again", True)
def init_without_memory(trial):
    numbers = allocations(trial, new_folder(trial, "calm"), *INIT)
    for number in numbers:
        store = Store(trial.program, new_folder(trial, str(number)))
        what = f"init without its allocation {number}"
        expect_end(what, without(trial, number, store.folder, *INIT), 0)
        again = trial.program.run(store.folder, *INIT)
        expect_that(again in (MADE, EXISTS), f"after {what} a second one ended with {again}")
        ended = store.trace(read("examples/first.script"))
        expect(f"the first example after {what}", ended.out, read("examples/first.out").encode("ascii"))
    return f"{len(numbers)} runs"


@check("each allocation of import and info failing in turn: a status and its line, whole puts are kept, and an import again ends well", True)
def imports_without_memory(trial):
    fresh, top = new_store(trial, "fresh"), header_block(4)
    # each is put alone, the last one with the header
    blocks = [*(random_block(trial.random, 2_200_000) for _ in range(3)), top]
    data, model = car(blocks, [top.cid]), Model()
    import_into(model, data)
    prefixes = [[each.cid for each in blocks[:count]] for count in (0, 1, 2, 4)]
    numbers = allocations(trial, copied(trial, fresh).folder, "import", script=data)
    for number in numbers:
        store, what = copied(trial, fresh), f"an import without its allocation {number}"
        expect_end(what, without(trial, number, store.folder, "import", script=data), 0)
        cids = list(kept(store.log()))
        expect_that(cids in prefixes, f"{what} keeps {len(cids)} blocks")
        expect(f"an import after {what}", store.import_car(data), imported(4, 4 - len(cids), 4))
    for number in allocations(trial, store.folder, "info"):
        ended = without(trial, number, store.folder, "info")
        expect_end(f"info without its allocation {number}", ended, 0)
        expect_that(ended.out in (info_lines(model).encode("ascii"), *ENDS), f"info without its allocation {number} prints {ended.out!r}")
    return f"{len(numbers)} runs of import"
