"""Has and size of kept blocks against gets of the same, and heads of 64 headers against heads of one.

The program reads a script, so its times are differences of runs: see `own` in `store.py`. A head is two syncs on the disk.
So heads are set in memory, where a sync costs nothing; what is left is reading and judging the headers and one record.

Run by `bench/run asks`.
"""
import hashlib
import os
import random
import shutil
import sys
import tempfile

from store import LINES_ASKED, MEMORY, RAW, RUNS, filled, four, made, own, script, see
from timing import new_store, put_script, seconds, shown

KEPT = 100_000
MOST_OVER_GET = 0.5

HEADS, HEADERS, PARENTS = 1_000, 64, 5
MOST_OVER_ONE = 64

DAG_CBOR = bytes.fromhex("01711220")
LINK = bytes.fromhex("d82a582500")
# the number 1,000
HEIGHT = bytes.fromhex("1903e8")


def best_of(commands_of):
    """The best of RUNS turns of each command of `four`, by the name of the four. The whole run comes last, as it may write."""
    times = {}
    for turn in range(RUNS):
        for name, (whole, *rest) in commands_of(turn).items():
            each = times.setdefault(name, [float("inf")] * 4)
            for place, command in [*enumerate(rest, 1), (0, whole)]:
                each[place] = min(each[place], seconds(*command))
    return times


def asks(folder, blocks, store):
    """Has, size and get of the same blocks in the same order."""
    order = random.Random(3).sample(blocks, LINES_ASKED)
    wanted = {"has": [b"yes"] * len(order), "size": [b"size %d" % len(data) for _, data in order],
              "get": [b"found " + data.hex().encode("ascii") for _, data in order]}
    commands = {}
    for name, told in wanted.items():
        path = script(os.path.join(folder, name), [f"0 {name} 0 {cid.hex()}\n" for cid, _ in order])
        see(path, store, told)
        commands[name] = four(path, store)
    times = best_of(lambda turn: commands)
    get = own(times["get"])
    print(f"{len(order):,} gets in random order, of {len(blocks):,} blocks: {shown(get)}")
    for name in ("has", "size"):
        asked = own(times[name])
        print(f"  {name} {shown(asked)}; ratio {asked / get:.2f} (wanted: at most {MOST_OVER_GET})", flush=True)


def header(source, parents):
    """A header with a ticket of its own; its links to state root, receipts and messages are to the first parent."""
    links = [LINK + cid for cid in parents]
    ticket = b"\x81\x58\x60" + source.randbytes(96)
    data = (b"\x90\x40" + ticket + b"\x80\x80\x80" + bytes([0x80 + len(links)]) + b"".join(links) + b"\x40" + HEIGHT
            + 3 * links[0] + b"\x40\0\x40\0\x40")
    return DAG_CBOR + hashlib.sha256(data).digest(), data


def heads():
    """Heads of 64 headers and of one, each of the same height and the same parents, on a copy of one store."""
    source = random.Random(4)
    parents = [RAW + source.randbytes(32) for _ in range(PARENTS)]
    headers = [header(source, parents) for _ in range(HEADERS)]
    with tempfile.TemporaryDirectory(dir=MEMORY) as folder:
        store = new_store(os.path.join(folder, "store"))
        put_script(os.path.join(folder, "put"), headers, store, f"stored {HEADERS}")
        paths = {}
        for count in (1, HEADERS):
            line = " ".join(["0 head", *(cid.hex() for cid, _ in headers[:count])]) + "\n"
            paths[count] = script(os.path.join(folder, f"heads-{count}"), [line] * HEADS)
            see(paths[count], shutil.copytree(store, os.path.join(folder, f"seen-{count}")), [b"head 1000"] * HEADS)

        def copy(turn, count):
            return shutil.copytree(store, os.path.join(folder, f"store-{turn}-{count}"))

        times = best_of(lambda turn: {count: four(path, copy(turn, count)) for count, path in paths.items()})
    one, many = own(times[1]), own(times[HEADERS])
    where = "in memory" if MEMORY else "with their syncs"
    print(f"{HEADS:,} heads of {HEADERS} headers of {len(headers[0][1])} bytes, {where}: {shown(many)}")
    print(f"  of one {shown(one)}; ratio {many / one:.1f} (wanted: at most {MOST_OVER_ONE})", flush=True)


def main(folder):
    heads()
    blocks = made(KEPT)
    asks(folder, blocks, filled(folder, {}, blocks)[0])


if __name__ == "__main__":
    main(sys.argv[1])
