"""Imports of CARs against other stores that read the same CAR and put the same groups: a chain, and blocks of 4096 bytes.

What opening a store takes is subtracted: a run of `info` on a store just made. The other stores time themselves, in `peers/`,
without their opening and closing, once without hashing and once with hashing each block by a library of their language. All
take turns. A peer that cannot be compiled, for want of a library, is left out.

Run by `bench/run imports`.
"""
import os
import shutil
import subprocess
import sys

from chain import chain, raw_blocks, write_car
from store import TIME, compiled, made_folder, memory_of, peer
from timing import PROGRAM, RUNS, new_store, run, seconds, shown

NUMBER, TIPSETS = 1, 20_000
SEED, BLOCKS = 1, 200_000

MOST_OVER_BADGER, MOST_OVER_SUM = 1.0, 1.5
# bytes of memory for each kept block, and beside them; between fewer blocks the system's own steps count more
MOST_EACH, MOST_BESIDE = 250, 40_000_000
LEAST_BLOCKS = 20_000

HASHING = ["-lcrypto", "-lb2"]
COMPILE = {
    "plain": ["g++", "-DIMPORTS", "plain.cc", *HASHING],
    "LevelDB": ["g++", "-DIMPORTS", "leveldb.cc", "-lleveldb", *HASHING],
    "Badger": ["go", "badger_import.go"],
}
WAYS = {"plain": "plain", "hashing": "hashed"}


class File:
    """A CAR of a chain or of raw blocks: its path, how many sections it has, and what an import of it prints of the head."""

    def __init__(self, path, blocks, height=None):
        self.path, self.count, self.height = path, len(blocks), height
        with open(path, "wb") as file:
            write_car(file, blocks, [] if height is None else [blocks[-1][0]])

    def line(self, word):
        height = self.height if word == "head=yes" else "-"
        return f"imported {self.count} new {self.count} height {height}\n".encode("ascii")


def files(folder):
    """The chain and its lower half, the raw blocks and the first half of them."""
    def at(name):
        return os.path.join(folder, f"{name}.car")

    blocks = chain(NUMBER, TIPSETS)
    chains = [File(at(f"chain-{tipsets}"), blocks[:5 * tipsets + 1], tipsets - 1) for tipsets in (TIPSETS, TIPSETS // 2)]
    blocks = raw_blocks(SEED, BLOCKS)
    return chains, [File(at(f"raw-{count}"), blocks[:count]) for count in (BLOCKS, BLOCKS // 2)]


def see(folder, file, word):
    """Ends where an import does not print what it is to print, and gives the most memory that it takes."""
    store = new_store(os.path.join(folder, "seen"))
    if run([PROGRAM, "import", word], file.path, store) != file.line(word):
        sys.exit(f"an import of {file.path} does not print {file.line(word)!r}")
    shutil.rmtree(store)
    store = new_store(os.path.join(folder, "seen"))
    most = memory_of(store, folder, ["import", word], file.path)
    shutil.rmtree(store)
    return most


def import_by(program, folder, file, way):
    """The seconds that a peer tells of an import."""
    done = peer([program, "import", made_folder(folder), file.path, way], subprocess.PIPE)
    if int(done.stdout) != file.count:
        sys.exit(f"{program} puts {done.stdout!r} blocks of {file.path}")
    return float(done.stderr)


def turn(folder, peers, file, half, words):
    """The seconds of each in one turn: imports with these words, that of the half, opening, `sha256sum`, and the peers."""
    took = {}
    for what, source, word in [*((word, file, word) for word in words), ("half", half, words[-1])]:
        store = new_store(os.path.join(folder, what))
        took[what] = seconds([PROGRAM, "import", word], source.path, store)
    store = new_store(os.path.join(folder, "opened"))
    took["open"] = seconds([PROGRAM, "info"], os.devnull, store)
    took["sum"], took["no sum"] = (seconds(["sha256sum"], path, folder) for path in (file.path, os.devnull))
    for name, program in peers.items():
        for shows, way in WAYS.items():
            took[name, shows] = import_by(program, os.path.join(folder, f"{name}-{way}"), file, way)
    return took


def measured(folder, peers, file, half, words):
    """The best seconds of each in all turns."""
    best = {}
    for number in range(RUNS):
        where = made_folder(os.path.join(folder, f"turn-{number}"))
        for what, took in turn(where, peers, file, half, words).items():
            best[what] = min(took, best.get(what, took))
        # the stores of all turns would take gigabytes; what their removal leaves for the disk to do is done before the next turn
        shutil.rmtree(where)
        os.sync()
    return best


def tell(file, half, words, peers, best):
    size = os.path.getsize(file.path)
    ours = {word: best[word] - best["open"] for word in words}
    for word, took in ours.items():
        print(f"import {word} of {file.count:,} blocks, {size:,} bytes: {shown(took)}, {file.count / took:,.0f} blocks a second, "
              f"{size / took / 1e6:.0f} MB a second (whole {shown(best[word])}, opening {shown(best['open'])})")
        for name in peers:
            for shows in WAYS:
                most = f" (wanted: at most {MOST_OVER_BADGER})" if (name, shows) == ("Badger", "hashing") else ""
                kind = "with hashing" if shows == "hashing" else "without hashing"
                print(f"  {name} {kind} {shown(best[name, shows])}; ratio {took / best[name, shows]:.2f}{most}")
    took, part = ours[words[-1]], best["half"] - best["open"]
    print(f"  of {half.count:,} blocks {shown(part)}; ratio {took / part:.2f} for {file.count / half.count:.1f} times the blocks "
          "(wanted: about as many times)", flush=True)


def tell_sum(took, peers, best):
    """Prints the ratio to `sha256sum` of the same bytes and the writes and syncs of `plain`."""
    if "plain" in peers:
        hashing = best["sum"] - best["no sum"]
        least = hashing + best["plain", "plain"]
        print(f"  sha256sum of the same bytes {shown(hashing)}, and plain without hashing: {shown(least)}; "
              f"ratio {took / least:.2f} (wanted: at most {MOST_OVER_SUM})", flush=True)


def tell_memory(file, half, most, less):
    """Prints the most memory of an import, and where the two are far enough apart what each block adds."""
    wanted = MOST_EACH * file.count + MOST_BESIDE
    line = f"  memory {most / 1e6:.1f} MB (wanted: at most {wanted / 1e6:.1f}), {less / 1e6:.1f} MB for half the blocks"
    if file.count - half.count >= LEAST_BLOCKS:
        each = (most - less) / (file.count - half.count)
        line += f": {each:.0f} bytes a block (wanted: at most {MOST_EACH}), and {(most - each * file.count) / 1e6:.1f} MB beside"
    print(line, flush=True)


def main(folder):
    if not os.path.exists(TIME):
        sys.exit(f"imports needs GNU time as {TIME}")
    peers = compiled(folder, COMPILE)
    chains, raws = files(folder)
    for name, (file, half), words in (("chain", chains, ["head=no", "head=yes"]), ("raw", raws, ["head=no"])):
        memory = [see(folder, each, word) for each in (file, half) for word in words[-1:]]
        best = measured(made_folder(os.path.join(folder, f"turns-{name}")), peers, file, half, words)
        tell(file, half, words, peers, best)
        if name == "raw":
            tell_sum(best["head=no"] - best["open"], peers, best)
        tell_memory(file, half, *memory)


if __name__ == "__main__":
    main(sys.argv[1])
