"""Stores of which bytes are others, or are missing: each run answers what the file has, or names the damage."""
import os

from checking import check, expect, expect_that
from stores import HOT, Ended, Store, answers, get_line, new_folder, new_store
from formats import Block, digits
from worked import ABC, LINK, LINK_BYTES, NOTHING

BLOCKS = [Block(bytes.fromhex(ABC), b"abc"), Block(bytes.fromhex(NOTHING), b""), Block(bytes.fromhex(LINK), bytes.fromhex(LINK_BYTES))]

# The gates of the log of a store that keeps these blocks, each by a record of its own; the last one is closed.
GATES = [0, 14, 54, 105, 153, 243]

# Where the data of each block begins.
DATA = [102, 153, 201]

# How a new store's first 55 bytes end: those from there on are no settings.
SETTINGS_END = 55


def stored(trial):
    """The bytes of such a log."""
    store = new_store(trial, "stored", "depth=0").put(*BLOCKS)
    log = store.log()
    expect("the length of the log", len(log), GATES[-1] + 1)
    return log


def read(trial, folder, log):
    """How a run ends that gets the three blocks from this log."""
    with open(os.path.join(folder, HOT), "wb") as file:
        file.write(log)
    return Store(trial.program, folder).trace("0 open\n" + "".join(map(get_line, BLOCKS)))


def answered(ended):
    """The answers of a run that ended well, or its last line."""
    return tuple(answers(ended.out)[1:]) if ended.status == 0 else ended.out.decode("ascii")


def wanted_answers(blocks):
    """What a run may come to where a byte that is no data is another."""
    whole = [f"found {digits(each.data)}" for each in blocks]
    choices = [(a, b, c) for a in (whole[0], "not-found") for b in (whole[1], "not-found") for c in (whole[2], "not-found")]
    return {*choices, "error: no store\n", *(f"error: damaged 0 {gate}\n" for gate in GATES)}


@check("damage is named by the gate of its record")
def named(trial):
    log, folder = stored(trial), new_folder(trial, "damaged")
    for at, other, gate in ((5, b"\xff", 0), (42, b"\0\0\0\1", 14), (59, b"\xff", 54), (243, b"\xa5", 243)):
        ended = read(trial, folder, log[:at] + other + log[at + len(other):])
        expect(f"{other.hex()} at {at}", ended, Ended(8, f"error: damaged 0 {gate}\n".encode("ascii"), b""))


@check("with any byte of a log changed, each block is found as the file has it or not at all, or there is no store, or a gate is named")
def changed_bytes(trial):
    log, folder = stored(trial), new_folder(trial, "changed")
    sound = wanted_answers(BLOCKS)
    for at, byte in enumerate(log):
        for other in (byte ^ 1, 0xA5, trial.random.randrange(256)):
            changed = log[:at] + bytes([other]) + log[at + 1:]
            came = answered(read(trial, folder, changed))
            if any(start <= at < start + len(each.data) for start, each in zip(DATA, BLOCKS)):
                now = [changed[start:start + len(each.data)] for start, each in zip(DATA, BLOCKS)]
                expect(f"{other:02x} in a block, at {at}", came, tuple(f"found {digits(data)}" for data in now))
            else:
                expect_that(came in sound, f"{other:02x} at {at}: {came}")


@check("a log that is cut anywhere has no store, or is damaged at the last gate that is left")
def cut(trial):
    log, folder = stored(trial), new_folder(trial, "cut")
    for length in range(len(log)):
        gate = max((gate for gate in GATES if gate < length), default=0)
        wanted = Ended(8, f"error: damaged 0 {gate}\n".encode("ascii"), b"") if length >= SETTINGS_END else Ended(7, b"error: no store\n", b"")
        expect(f"cut at {length}", read(trial, folder, log[:length]), wanted)


@check("a new store has nothing of the records of an older one in its other files, and a store that is there keeps its files")
def old_records(trial):
    folder = new_folder(trial, "old")
    others = ["hot-b.log", "cold-a.log", "cold-b.log", "meta.log", "move.log"]
    for name in others:
        with open(os.path.join(folder, name), "wb") as file:
            file.write(b"\xa5\0\0\0\x01\0\0")
    store = Store(trial.program, folder).init()
    made = store.files()
    expect("the other files", [made[name] for name in others], [b"\0\0\0\0\x01\0\0"] * len(others))
    expect("a second init", trial.program.run(folder, "init", "mode=discard"), Ended(7, b"error: store exists\n", b""))
    expect("the files after it", store.files(), made)
