"""Puts, gets, opening and memory of the store, against other stores on the same blocks.

The program reads a script, so its times are differences of runs. Reading and judging a script is told by the same script
with a bad last line, on which the program ends before it opens the store. The other stores time themselves, in `peers/`,
without their opening and closing. All take turns. A peer that cannot be compiled, for want of its library, is left out.

Run by `bench/run store`.
"""
import hashlib
import os
import random
import shutil
import subprocess
import sys
import tempfile

from timing import PROGRAM, RUNS, best, new_store, put_line, run, seconds, shown, trace

HERE = os.path.dirname(os.path.abspath(__file__))

PUT, KEPT = 15_000, (15_000, 100_000)
BATCHES = (1, 256)
# the most lines of a script are 100,000, and an `open` and a bad line stand beside those that are measured
LINES_ASKED = 99_998
LENGTHS = (8, 792)

MOST_OVER_PLAIN, MOST_OVER_LMDB = 1.3, 2
MOST_OVER_PLAIN_LESS_HASHING = 1.6
LEAST_OPENED, MOST_MEMORY = 300_000, 160
MOST_OPENING_OVER_PLAIN, MOST_OPENING_OVER_BEFORE = 1.5, 0.6
PIECE, MORE_READS = 65_536, 10
# another build of the program, whose opening is measured beside this one's
BEFORE = os.environ.get("BEFORE")

TIME = "/usr/bin/time"
RAW = bytes.fromhex("01551220")
BAD, BAD_STATUS = "bad\n", 9
# where a sync costs nothing: stores are filled there before they are measured
MEMORY = "/dev/shm" if os.path.isdir("/dev/shm") else None

COMPILE = {
    "plain": ["g++", "plain.cc"],
    "LMDB": ["g++", "lmdb.cc", "-llmdb"],
    "LevelDB": ["g++", "leveldb.cc", "-lleveldb"],
    "RocksDB": ["g++", "rocksdb.cc", "-lrocksdb"],
    "SQLite": ["g++", "sqlite.cc", "-lsqlite3"],
    "Badger": ["go", "badger.go"],
}
FLAGS = {"g++": ["-O2", "-std=c++17"], "go": ["build"]}
# Debian's packages of Go libraries lie in one folder, which Go takes instead of modules
GO = {"GO111MODULE": "off", "GOPATH": "/usr/share/gocode", "CGO_CFLAGS": "-O2 -w"}


def compiles(command, environment):
    where = os.path.join(HERE, "peers")
    return subprocess.run(command, cwd=where, env=environment, stderr=subprocess.PIPE, check=False).returncode == 0


def compiled(folder, table=COMPILE):
    """The peers by their names: the program of each."""
    peers = {}
    for name, (compiler, *words) in table.items():
        program = os.path.join(folder, f"peer-{len(peers)}")
        command = [compiler, *FLAGS[compiler], "-o", program, *words]
        environment = {**os.environ, **GO, "GOCACHE": os.path.join(folder, "go")}
        peers[name] = program
        if not shutil.which(compiler) or not compiles(command, environment):
            print(f"({name} is left out: it does not compile here)")
            del peers[name]
    return peers


def made(count):
    """Blocks of random bytes, each with its CID."""
    source = random.Random(count)
    datas = [source.randbytes(source.randint(*LENGTHS)) for _ in range(count)]
    return [(RAW + hashlib.sha256(data).digest(), data) for data in datas]


def write_blocks(path, blocks):
    """Writes blocks as the peers read them."""
    with open(path, "wb") as file:
        for cid, data in blocks:
            file.write(cid + len(data).to_bytes(4, "little") + data)
    return path


def script(path, lines):
    with open(path, "w", encoding="ascii") as file:
        file.write("0 open\n" + "".join(lines))
    return path


def answers(path, store):
    """What the store answers to the calls of a script behind its `open`."""
    return [line.split(b" = ")[1] for line in run([PROGRAM, "trace"], path, store).splitlines()[1:]]


def see(path, store, wanted):
    """Sees to it that all calls of a script but its `open` are answered so."""
    if answers(path, store) != wanted:
        sys.exit(f"{path}: the store does not answer {wanted[0][:80]!r} and so on")


def in_batches(blocks, batch):
    return [blocks[at:at + batch] for at in range(0, len(blocks), batch)]


def puts_script(path, blocks, batch):
    """The script of the puts, and what they are answered on a store with none of the blocks."""
    batches = in_batches(blocks, batch)
    return script(path, map(put_line, batches)), [b"stored %d" % len(pairs) for pairs in batches]


def four(path, store):
    """The commands whose times tell what the calls of a script take: see `own`."""
    with open(path, encoding="ascii") as file:
        lines = file.read()
    for more, text in (("-judged", lines + BAD), ("-open", "0 open\n"), ("-start", BAD)):
        with open(path + more, "w", encoding="ascii") as file:
            file.write(text)
    return [trace(path, store), trace(path + "-judged", store, BAD_STATUS),
            trace(path + "-open", store), trace(path + "-start", store, BAD_STATUS)]


def own(times):
    """The whole run, less reading and judging the script, less opening: a run of `0 open` alone, less starting for it."""
    whole, judged, opened, started = times
    return whole - judged - (opened - started)


def peer(words, output=subprocess.DEVNULL):
    """A run of a peer."""
    done = subprocess.run(words, stdout=output, stderr=subprocess.PIPE, check=False)
    if done.returncode != 0:
        sys.exit(f"{words} ended with status {done.returncode}: {done.stderr!r}")
    return done


def told(program, what, folder, *words):
    """The seconds that a peer tells."""
    return float(peer([program, what, folder, *words]).stderr)


def made_folder(path):
    os.mkdir(path)
    return path


def tell(what, times, others, wanted):
    """Prints the store's own time and its ratio to the time of each other; `wanted` has what is wanted of some ratios."""
    ours = own(times)
    names = ("whole", "judged", "open", "start")
    print(f"{what}: {shown(ours)} (" + ", ".join(f"{name} {shown(time)}" for name, time in zip(names, times)) + ")")
    for name, time in others.items():
        most = f" (wanted: at most {wanted[name]})" if name in wanted else ""
        print(f"  {name} {shown(time)}; ratio {ours / time:.2f}{most}", flush=True)


def puts(folder, peers, blocks, batch):
    file = write_blocks(os.path.join(folder, "blocks"), blocks)
    path, wanted = puts_script(os.path.join(folder, f"puts-{batch}"), blocks, batch)
    # all blocks of a put are hashed, and the last one is found to be another: the put is refused, and nothing is written
    refused = [[*pairs[:-1], (RAW + bytes(32), pairs[-1][1])] for pairs in in_batches(blocks, batch)]
    refusals = script(os.path.join(folder, "refusals"), map(put_line, refused))
    store = new_store(os.path.join(folder, f"seen-{batch}"))
    see(refusals, store, [b"mismatch %d" % (len(pairs) - 1) for pairs in refused])
    see(path, store, wanted)

    times = [float("inf")] * 5
    others = dict.fromkeys(peers, float("inf"))
    takers = ["store", *peers]
    for turn in range(RUNS):
        # each begins a turn once, and no file is removed meanwhile: a disk answers slowly to who comes after that
        for name in takers[turn % len(takers):] + takers[:turn % len(takers)]:
            where = os.path.join(folder, f"put-{batch}-{turn}-{name}")
            if name == "store":
                store = new_store(where)
                whole, *rest = four(path, store)
                for place, command in [*enumerate([*rest, trace(refusals, store)], 1), (0, whole)]:
                    times[place] = min(times[place], seconds(*command))
            else:
                others[name] = min(others[name], told(peers[name], "put", made_folder(where), file, str(batch)))
    *times, hashed = times
    tell(f"{len(blocks):,} blocks put, {batch} at a time", times, others, {"plain": MOST_OVER_PLAIN} if batch == 1 else {})
    hashing = own([hashed, *times[1:]])
    print(f"  of the store's time {shown(hashing)} is hashing: the puts refused", flush=True)
    if batch > 1 and "plain" in others:
        print(f"  less hashing, ratio to plain {(own(times) - hashing) / others['plain']:.2f} "
              f"(wanted: at most {MOST_OVER_PLAIN_LESS_HASHING})", flush=True)


def filled(folder, peers, blocks):
    """A store of these blocks, one a record, made by several runs, and the folder of each peer with the same."""
    with tempfile.TemporaryDirectory(dir=MEMORY) as memory:
        store = new_store(os.path.join(memory, "store"))
        for part in in_batches(blocks, PUT):
            path, wanted = puts_script(os.path.join(folder, "part"), part, 1)
            see(path, store, wanted)
        store = shutil.copytree(store, os.path.join(folder, f"store-{len(blocks)}"))
    file = write_blocks(os.path.join(folder, "blocks"), blocks)
    stores = {"plain": store}
    for name, program in peers.items():
        if name != "plain":
            stores[name] = made_folder(f"{store}-{name}")
            told(program, "put", stores[name], file, "256")
    return store, stores


def gets(folder, peers, blocks, store, stores):
    order = random.Random(2).sample(blocks, min(len(blocks), LINES_ASKED))
    path = script(os.path.join(folder, "gets"), [f"0 get 0 {cid.hex()}\n" for cid, _ in order])
    found = [b"found " + data.hex().encode("ascii") for _, data in order]
    see(path, store, found)
    file = write_blocks(os.path.join(folder, "order"), order)
    for name, program in peers.items():
        if peer([program, "get", stores[name], file], subprocess.PIPE).stdout.splitlines() != found:
            sys.exit(f"{name} prints other lines")

    times = [float("inf")] * 4
    others = dict.fromkeys(peers, float("inf"))
    commands = four(path, store)
    for _ in range(RUNS):
        for place, command in enumerate(commands):
            times[place] = min(times[place], seconds(*command))
        for name, program in peers.items():
            others[name] = min(others[name], told(program, "get", stores[name], file))
    tell(f"{len(order):,} gets in random order, of {len(blocks):,} blocks", times, others, {"LMDB": MOST_OVER_LMDB})


def memory_of(store, folder, words=("trace",), source=os.devnull):
    """The most memory that a run of the program on a store takes, in bytes; by default that of opening it."""
    path = os.path.join(folder, "memory")
    run([TIME, "-f", "%M", "-o", path, PROGRAM, *words], source, store)
    with open(path, encoding="ascii") as file:
        return 1024 * int(file.read())


def calls_of_opening(folder, store):
    """How often opening a store calls the system, by the name of the call: reads at an offset, syncs, sizes."""
    path = os.path.join(folder, "calls")
    watched = "trace=pread64,fdatasync,fsync,fstat,statx,newfstatat"
    run(["strace", "-f", "-y", "-e", watched, "-o", path, PROGRAM, "trace"], os.devnull, store)
    with open(path, encoding="utf-8", errors="replace") as file:
        lines = [line for line in file if "hot-a.log>" in line]
    return {name: sum(f" {name}(" in line or line.startswith(f"{name}(") for line in lines)
            for name in ("pread64", "fdatasync", "fsync", "fstat", "statx", "newfstatat")}


def opening(folder, count, store, empty, plain):
    commands = [trace(os.devnull, store), trace(os.devnull, empty)]
    peers = {"plain": ([plain, "open", store], [plain, "open", empty])} if plain else {}
    if BEFORE:
        peers["the build before"] = ([BEFORE, "trace"], [BEFORE, "trace"])
    for full, none in peers.values():
        commands += [(full, os.devnull, store), (none, os.devnull, empty)]
    full, none, *others = best(commands)
    print(f"{count:,} blocks opened: {shown(full - none)} (full {shown(full)}, empty {shown(none)}), "
          f"{count / (full - none):,.0f} blocks a second (wanted: at least {LEAST_OPENED:,})")
    wanted = {"plain": MOST_OPENING_OVER_PLAIN, "the build before": MOST_OPENING_OVER_BEFORE} if count >= 100_000 else {}
    for place, name in enumerate(peers):
        took = others[2 * place] - others[2 * place + 1]
        most = f" (wanted: at most {wanted[name]})" if name in wanted else ""
        print(f"  {name} {shown(took)}; ratio {(full - none) / took:.2f}{most}")
    if shutil.which("strace"):
        size = os.path.getsize(os.path.join(store, "hot-a.log"))
        calls = ", ".join(f"{name} {number}" for name, number in calls_of_opening(folder, store).items() if number)
        print(f"  calls on the hot log of {size:,} bytes: {calls} (wanted: one sync and one size, and at most "
              f"{-(-size // PIECE) + MORE_READS} reads)")
    each = (memory_of(store, folder) - memory_of(empty, folder)) / count
    wanted = f" (wanted: at most {MOST_MEMORY})" if count >= 100_000 else ""
    print(f"  memory {each:.0f} bytes a block{wanted}", flush=True)


def main(folder):
    if not os.path.exists(TIME):
        sys.exit(f"store needs GNU time as {TIME}")
    peers = compiled(folder)
    for batch in BATCHES:
        puts(folder, peers, made(PUT), batch)
    empty = new_store(os.path.join(folder, "empty"))
    for count in KEPT:
        blocks = made(count)
        store, stores = filled(folder, peers, blocks)
        gets(folder, peers, blocks, store, stores)
        opening(folder, count, store, empty, peers.get("plain"))


if __name__ == "__main__":
    main(sys.argv[1])
