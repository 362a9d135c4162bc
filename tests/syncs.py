"""The order of writes and syncs, and what becomes of a run after a sync that failed."""
import errno

from checking import check, expect, expect_that
from failures import disk_fault, reason
from formats import random_block
from headers import header_block
from interposed import NO_BYTE, on, run
from model import Head, Model
from stores import (EXISTS, FILES, HOT, INIT, MADE, Store, answers, copied, files_in, found, get_line, head_line, new_folder, new_store,
                    put_line, script_of)


def filled(trial):
    return new_store(trial).put(*(random_block(trial.random, length) for length in (0, 100, 5000)))


@check("a put of new blocks and a head make two writes of the log, each followed by its data sync, and no other call writes or syncs")
def two_syncs(trial):
    store = filled(trial)
    one, two, three = (random_block(trial.random, length) for length in (10, 101, 70_000))
    end, wanted = len(store.log()) - 1, []
    first, second = header_block(3, ticket=b"1"), header_block(3, ticket=b"2")
    records = [*({each.cid: each.data for each in blocks} for blocks in ((one,), (two, three), (first, second))),
               Head(3, (second.cid, first.cid))]
    for need in map(Model.need, records):
        wanted += [("pwrite", end + 1, need), ("fdatasync", 0, 0), ("pwrite", end, 1), ("fdatasync", 0, 0)]
        end += need
    script = script_of(put_line(one), get_line(one), put_line(one, store.blocks[1]), put_line(two, three), get_line(three),
                       put_line(*store.blocks), get_line(random_block(trial.random, 9)), put_line(first, second),
                       head_line(first, second, one), head_line(second, first), "0 info\n", f"0 size 0 {one.cid.hex()}\n", "0 close 0\n")
    ended, made = run(trial, store.folder, "trace", script=script)
    expect("the status and standard error", (ended.status, ended.err), (0, b""))
    changes = on(made, HOT, "pwrite", "fdatasync", "fsync")
    # those before the first write are of the opening
    changes = changes[[each.call for each in changes].index("pwrite"):]
    expect("the writes and syncs of the log", [(each.call, each.at, each.length) for each in changes], wanted)
    expect("their results", [each.result for each in changes], [length for _, _, length in wanted])
    expect("what is written or synced", {each.file for each in made if each.call in ("pwrite", "fdatasync", "fsync")}, {HOT, "."})


@check("no `stored` is printed before the second sync of its put")
def stored_after_sync(trial):
    large, blocks = random_block(trial.random, 40_000), [random_block(trial.random, 50) for _ in range(30)]
    store = new_store(trial).put(large)
    script = script_of(*(line for each in blocks for line in (put_line(each), get_line(large))))
    ended, made = run(trial, store.folder, "trace", script=script)
    opened, synced, printed = 0, 0, 0
    for each in made:
        if each.file == HOT and each.call == "pwrite" and each.length == 1:
            opened += 1
        elif each.file == HOT and each.call == "fdatasync":
            synced = opened
        elif each.file == "stdout":
            printed += each.result
            stored = answers(ended.out[:printed]).count("stored 1")
            expect_that(stored <= synced, f"{stored} puts were printed as stored when {synced} were synced")
    expect("what was printed, and the puts that were synced", (printed, synced), (len(ended.out), len(blocks)))


@check("init syncs each file that it writes, and the folder after each file that it makes, before it prints `store made`")
def syncs_of_init(trial):
    ended, made = run(trial, new_folder(trial, "store"), *INIT)
    expect("init", ended, MADE)
    before = made[:[each.file for each in made].index("stdout")]
    for name in FILES:
        opened = before.index(on(before, name, "open")[0])
        expect_that(on(before[opened:], ".", "fsync"), f"the folder is not synced after {name} is made")
        expect(f"the last call on {name}", on(before, name, "pwrite", "fdatasync")[-1].call, "fdatasync")


class DeadLog:
    """What calls are answered if one sync of the log fails, and each later one does."""

    def __init__(self, failing):
        self.failing = failing
        self.syncs = 0
        self.in_doubt = False

    def sync(self):
        self.syncs += 1
        return self.syncs < self.failing

    def settle(self):
        self.in_doubt = self.in_doubt and not self.sync()
        return not self.in_doubt

    def put(self):
        if not self.settle() or not self.sync():
            return "fault"
        self.in_doubt = not self.sync()
        return "fault" if self.in_doubt else "stored 1"

    def or_fault(self, answer):
        """The answer to a call that settles the log."""
        return answer if self.settle() else "fault"


@check("after a sync of the log that failed, each call of the run that has to sync is answered fault, gets of a log in doubt too")
def failed_sync(trial):
    store = filled(trial)
    new, missing = [random_block(trial.random, 60) for _ in range(5)], random_block(trial.random, 9)
    script = script_of(*(line for each in new for line in
                         (put_line(each), get_line(store.blocks[1]), put_line(store.blocks[2]), get_line(missing))))
    _, calm = run(trial, copied(trial, store).folder, "trace", script=script)
    opening = [each.call for each in on(calm, HOT, "pwrite", "fdatasync")].index("pwrite")
    expect_that(opening > 0, "the log is synced as the store is opened")
    for number in range(1, opening + 2 * len(new) + 1):
        copy = copied(trial, store)
        ended, _ = run(trial, copy.folder, "trace", script=script, rules=[("fdatasync", HOT, number, errno.EIO)])
        if number <= opening:
            expect(f"trace if sync {number} fails, which is of the opening", ended, disk_fault(HOT, "sync", errno.EIO))
        else:
            log, wanted = DeadLog(number - opening), ["opened 0"]
            for each in new:
                wanted += [log.put(), log.or_fault(found(store.blocks[1])), log.or_fault("stored 0"), "not-found"]
            expect(f"the answers if sync {number} fails", answers(ended.out), wanted)
            expect(f"the end if sync {number} fails", (ended.status, ended.err), (0, reason(HOT, "sync", errno.EIO)))
            copy.blocks += [each for each, answer in zip(new, wanted[1::4]) if answer != "fault"]
        copy.expect_found(f"after a run whose sync {number} failed")
        copy.put(random_block(trial.random, 7)).expect_found("after a put")
    return f"{opening + 2 * len(new)} syncs, {opening} of the opening"


@check("a sync of a file or of the folder that fails ends init with status 6 and its reason, and init can be run again")
def failed_sync_of_init(trial):
    _, calm = run(trial, new_folder(trial, "calm"), *INIT)
    syncs = [(call, file, number) for call, file in [("fsync", "."), *(("fdatasync", name) for name in FILES)]
             for number in range(1, len(on(calm, file, call)) + 1)]
    expect_that(len(syncs) >= 2 * len(FILES), "init syncs each file, and the folder after it")
    for call, file, number in syncs:
        store = Store(trial.program, new_folder(trial, f"{call}-{file}-{number}"))
        ended, _ = run(trial, store.folder, *INIT, rules=[(call, file, number, errno.EIO)])
        expect(f"init if {call} {number} of {file} fails", ended, disk_fault(file, "sync", errno.EIO))
        again = trial.program.run(store.folder, *INIT)
        expect_that(again in (MADE, EXISTS), f"a second init ended with {again}")
        store.put(random_block(trial.random, 10)).expect_found("after a second init")
    return f"{len(syncs)} syncs"


@check("a sync of the folder that fails ends trace with status 6 and its reason")
def failed_sync_of_folder(trial):
    store = filled(trial)
    ended, _ = run(trial, store.folder, "trace", script="0 open\n", rules=[("fsync", ".", 1, errno.EIO)])
    expect("trace if the folder is not synced", ended, disk_fault(".", "sync", errno.EIO))
    store.expect_found("after a failed sync of the folder")


@check("a lock that the system refuses, as over some network file systems, ends init and trace with status 6 and touches nothing")
def failed_lock(trial):
    store, empty = filled(trial), new_folder(trial, "empty")
    before = store.files()
    for folder, arguments in ((store.folder, ["trace"]), (store.folder, INIT), (empty, INIT)):
        ended, _ = run(trial, folder, *arguments, rules=[("flock", ".", 1, errno.ENOLCK)])
        expect(f"{arguments[0]} without a lock", ended, disk_fault(".", "lock", errno.ENOLCK))
    ended, _ = run(trial, store.folder, "trace", rules=[("flock", HOT, 1, errno.ENOLCK)])
    expect("trace without a lock of the log", ended, disk_fault(HOT, "lock", errno.ENOLCK))
    expect("the files of the store", store.files(), before)
    expect("the files of the empty folder", files_in(empty), {})


@check("a log that ends before a block that was there answers fault with its reason, and the next run finds the block")
def short_log(trial):
    store = filled(trial)
    script = script_of(get_line(store.blocks[1]))
    _, calm = run(trial, store.folder, "trace", script=script)
    ended, _ = run(trial, store.folder, "trace", script=script, rules=[("pread", HOT, len(on(calm, HOT, "pread")), NO_BYTE)])
    expect("the answers", answers(ended.out), ["opened 0", "fault"])
    expect("the end", (ended.status, ended.err), (0, f"splitstore: {HOT}: read: failed to fill whole buffer\n".encode("ascii")))
    store.expect_found("after a read that failed")
