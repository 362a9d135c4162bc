"""Runs of `import`: input in pieces, streams that fail or are closed, runs that are killed, what is shown of progress, and a snapshot."""
import contextlib
import errno
import os
import pty
import re
import signal
import socket
import threading
import time

from cars import GROUP, car, groups, import_into, read_car, sections
from checking import Missed, cases, check, expect, expect_that
from descriptors import INPUT_FAILED, OUTPUT_FAILED
from failures import limiting, reason, resource
from formats import (BLAKE2B_256, BYTES, DAG_CBOR, IDENTITY, NULL, RAW, block, cbor_head, cbor_link, digest_of, random_block, random_bytes)
from headers import array, header_block
from imports import HEAD_NO, TWO, expect_state, imported, info_lines, small_blocks
from interposed import ONE_BYTE, on, run
from logs import kept, puts
from model import Model
from stores import HOT, SECONDS, Ended, closing, copied, finish, new_store, written

# The runs that are killed, and how many bytes of input are written at once, and with which pause, so that they last.
KILLS, PIECE, PAUSE = 20, 4096, 0.001

# What moves the cursor of a terminal or clears a part of it.
CONTROL = rb"\x1b\[[0-9;?]*[A-Za-z]"

# What is shown of progress: megabytes that were read, of how many, the rate, and the time that is left.
PROGRESS = re.compile(rb"splitstore: (\d+\.\d)(?: of (\d+\.\d))? MB, \d+\.\d MB/s(?:, \d+ (?:s|min) left)?")

# What clears the line of progress at its end.
CLEARED = b"\r\x1b[K"


def give(process, data, piece=65_536, pause=0.0):
    """Writes the input of a run in pieces, as long as it reads, and closes it."""
    with contextlib.suppress(BrokenPipeError):
        for at in range(0, len(data), piece):
            os.write(process.stdin.fileno(), data[at:at + piece])
            time.sleep(pause)
    with contextlib.suppress(BrokenPipeError):
        process.stdin.close()
    process.stdin = None


def in_pieces(store, data, piece):
    """How an import ends whose input comes in pieces of so many bytes."""
    process = store.program.start(store.folder, "import", stdin=-1)
    writer = threading.Thread(target=give, args=(process, data, piece))
    writer.start()
    writer.join(SECONDS)
    return finish(process)


def tall(source, count, length=50):
    """Blocks with a header at their end, and a CAR of them whose root that is."""
    top = header_block(count, ticket=random_bytes(source, 9))
    blocks = [*small_blocks(source, count, length), top]
    return blocks, car(blocks, [top.cid])


def in_packets(store, data):
    """How an import ends each of whose reads gives one byte: each byte is a packet of its own."""
    ours, theirs = socket.socketpair(socket.AF_UNIX, socket.SOCK_SEQPACKET)
    process = store.program.start(store.folder, "import", stdin=theirs)
    theirs.close()
    with contextlib.suppress(BrokenPipeError):
        for byte in data:
            ours.send(bytes([byte]))
    ours.close()
    return finish(process)


@check("a CAR that comes a byte at a time, or in other pieces, is imported as one that is a file")
def pieces(trial):
    fresh, tried = new_store(trial, "fresh"), 0
    small, large = tall(trial.random, 20)[1], tall(trial.random, 700, 400)[1]
    single = {"bytes, each a read": in_packets, "pieces of 1 byte": lambda store, data: in_pieces(store, data, 1)}
    larger = {f"pieces of {size}": lambda store, data, it=size: in_pieces(store, data, it) for size in (7, 4096, 65_537)}
    for data, ways in ((small, single), (small[:-1], single), (small + b"\0", single), (large, larger), (large[:-9], larger)):
        usual = copied(trial, fresh)
        wanted = trial.program.run_on(written(trial, data), usual.folder, "import")
        expect("an import of a file", wanted, Ended(*import_into(Model(), data), b""))
        files = usual.files()
        for what, way in ways.items():
            store = copied(trial, fresh)
            expect(f"an import of {len(data)} bytes in {what}", way(store, data), wanted)
            expect(f"the files after {what}", store.files(), files)
            tried += 1
    return f"{tried} runs"


@check("a read of an import that a signal interrupts or that moves one byte is made again or goes on, and changes nothing else")
def interrupted_reads(trial):
    fresh, data = new_store(trial, "fresh"), tall(trial.random, 300, 400)[1]
    calm = copied(trial, fresh)
    usual, made = run(trial, calm.folder, "import", script=data)
    expect("the end of a calm run", usual, Ended(*import_into(Model(), data), b""))
    files, reads = calm.files(), len(on(made, "stdin", "read"))
    expect_that(reads > 1, "there are several reads")
    for number in range(1, reads + 1):
        for error in (errno.EINTR, ONE_BYTE):
            store = copied(trial, fresh)
            ended, _ = run(trial, store.folder, "import", script=data, rules=[("read", "stdin", number, error)])
            expect(f"an import whose read {number} ends with {error}", ended, usual)
            expect(f"the files if read {number} ends with {error}", store.files(), files)
    return f"{reads} reads"


def broken_input(program, folder, data, *words):
    """How an import ends whose input fails behind these bytes: a socket whose other end was closed with unread bytes in it."""
    ours, theirs = socket.socketpair()
    theirs.send(b"unread")
    process = program.start(folder, "import", *words, stdin=theirs)
    theirs.close()
    with contextlib.suppress(OSError):
        ours.sendall(data)
    ours.close()
    return finish(process)


@check("an input that fails in the middle ends an import with status 4 and its reason: what was put stays, and what was not is not")
def failed_input(trial):
    blocks = small_blocks(trial.random, 600, 100)
    wanted = Ended(4, b"error: read fault\n", reason("standard input", "read", errno.ECONNRESET))
    # sections that are read after the last put that is certain are not enough for another
    for count, put in ((0, 0), (1, 0), (GROUP - 1, 0), (GROUP + 9, GROUP), (2 * GROUP + 80, 2 * GROUP)):
        data = car(blocks[:count])
        for data in (data, data + sections(blocks[count:count + 1])[:-1], data + b"\xff"):
            store = new_store(trial, f"{count}-{len(data)}")
            expect(f"an input of {count} sections that fails", broken_input(trial.program, store.folder, data, *HEAD_NO), wanted)
            expect(f"the blocks after {count} sections", list(kept(store.log())), [each.cid for each in blocks[:put]])
    store = new_store(trial, "header")
    expect("an input that fails in the header", broken_input(trial.program, store.folder, TWO[:7]), wanted)
    expect("an input that fails before it", broken_input(trial.program, store.folder, b""), wanted)
    # what is not put is not judged either
    bad = car(small_blocks(trial.random, 3)) + sections([random_block(trial.random, 4)])[:-1] + b"\0"
    expect("an input that fails behind a bad section", broken_input(trial.program, store.folder, bad), wanted)
    expect("the blocks behind it", kept(store.log()), {})


@check("each read of an import that fails ends it with status 4: what is kept are whole puts of the first sections")
def failed_reads(trial):
    fresh, data = new_store(trial, "fresh"), tall(trial.random, 600, 400)[1]
    found = groups(read_car(data).sections)
    wholes = [[]]
    for group in found:
        wholes.append(wholes[-1] + [each.cid for each in group])
    _, made = run(trial, copied(trial, fresh).folder, "import", script=data)
    reads = on(made, "stdin", "read")
    for number in range(1, len(reads) + 1):
        store = copied(trial, fresh)
        ended, made = run(trial, store.folder, "import", script=data, rules=[("read", "stdin", number, errno.EIO)])
        expect(f"an import whose read {number} fails", ended, Ended(4, b"error: read fault\n", reason("standard input", "read", errno.EIO)))
        cids = list(kept(store.log()))
        expect_that(cids in wholes, f"what is kept if read {number} fails: {len(cids)} blocks")
        last = max(at for at, each in enumerate(made) if each.file == "stdin")
        expect(f"the calls of the disk after read {number}", on(made[last + 1:], HOT, "pwrite", "pread", "fdatasync", "fsync"), [])
    return f"{len(reads)} reads"


@check("each write and sync of an import that fails ends it with status 6 and its reason: whole puts stay, and the next import ends well")
def failed_disk(trial):
    fresh, (blocks, data) = new_store(trial, "fresh"), tall(trial.random, 300)
    _, made = run(trial, copied(trial, fresh).folder, "import", script=data)
    changes = on(made, HOT, "pwrite", "fdatasync")
    first = [each.call for each in changes].index("pwrite")
    expect_that(len(changes) - first == 12, "two puts and a head are twelve calls")
    order = [each.cid for each in blocks]
    for number in range(first, len(changes)):
        call = changes[number].call
        nth = sum(each.call == call for each in changes[:number + 1])
        store = copied(trial, fresh)
        ended, _ = run(trial, store.folder, "import", script=data, rules=[(call, HOT, nth, errno.EIO)])
        said = "write" if call == "pwrite" else "sync"
        expect(f"an import whose {said} {nth} fails", ended, Ended(6, b"error: disk fault\n", reason(HOT, said, errno.EIO)))
        cids = list(kept(store.log()))
        expect_that(cids in ([], order[:GROUP], order), f"what is kept if {said} {nth} fails: {len(cids)} blocks")
        again = imported(len(blocks), len(blocks) - len(cids), 300)
        expect(f"the next import, after {said} {nth} failed", store.import_car(data), again)
    return f"{len(changes) - first} calls"


@check("a disk that is full ends an import with status 6 and its reason, and keeps the groups before it")
def full_disk(trial):
    store, model, blocks = new_store(trial), Model(), small_blocks(trial.random, 600)
    ended = store.import_car(car(blocks), *HEAD_NO, before=[limiting(resource.RLIMIT_FSIZE, 20_000)])
    expect("an import on a full disk", ended, Ended(6, b"error: disk fault\n", reason(HOT, "write", errno.EFBIG)))
    expect("what is kept", list(kept(store.log())), [each.cid for each in blocks[:GROUP]])
    import_into(model, car(blocks), sets_head=False)
    expect("an import with room again", store.import_car(car(blocks), *HEAD_NO), imported(600, 600 - GROUP))
    expect_state("after it", store, model)


def expect_reasons(what, ended, pattern):
    expect_that(re.fullmatch(pattern, ended.err), f"{what}: standard error is {ended.err!r}, which does not match {pattern!r}")


@check("an import without standard input, or with a folder for it, ends with status 4 and its reason, and keeps nothing")
def no_input(trial):
    store = new_store(trial)
    before = store.files()
    for words in ([], HEAD_NO):
        ended = store.import_car(TWO, *words, before=[closing(0)])
        expect("an import without standard input", (ended.status, ended.out), (4, b"error: read fault\n"))
        expect_reasons("an import without standard input", ended, INPUT_FAILED)
        folder = os.open(trial.folder, os.O_RDONLY)
        ended = finish(trial.program.start(store.folder, "import", *words, stdin=folder))
        os.close(folder)
        expect("an import of a folder", ended, Ended(4, b"error: read fault\n", reason("standard input", "read", errno.EISDIR)))
    expect("the files", store.files(), before)


@cases({f"`{command}` without standard output, or with a full one, ends with status 5, and no store is harmed": (command,)
        for command in ("import", "import head=no", "info")})
def no_output(trial, command):
    words, (blocks, data) = command.split(), tall(trial.random, 300)
    for number, streams in enumerate(((1,), (1, 2), None)):
        store, model = new_store(trial, str(number)), Model()
        if streams:
            ended = trial.program.run(store.folder, *words, script=data, before=[closing(*streams)])
        else:
            with open("/dev/full", "wb") as full:
                ended = finish(trial.program.start(store.folder, *words, stdin=-1, stdout=full), data)
        expect(f"{command} with {streams} closed", (ended.status, ended.out), (5, b""))
        expect_reasons(command, ended, OUTPUT_FAILED if streams != (1, 2) else b"")
        if command != "info":
            import_into(model, data, sets_head=command == "import")
        expect_state(f"after {command} with {streams} closed", store, model)
    ended = trial.program.run(store.folder, *words, script=data, before=[closing(2)])
    if command != "info":
        wanted = imported(len(blocks), 0, 300 if command == "import" else "-").out
    else:
        wanted = info_lines(model).encode("ascii")
    expect(f"{command} without standard error", (ended.status, ended.out), (0, wanted))


@check("`info` reads no input: it ends with status 0 without one, and with one that is never written")
def info_without_input(trial):
    store = new_store(trial)
    wanted = Ended(0, info_lines(Model()).encode("ascii"), b"")
    expect("info without standard input", store.info(before=[closing(0)]), wanted)
    reader, writer = os.pipe()
    expect("info with an open pipe", finish(store.program.start(store.folder, "info", stdin=reader)), wanted)
    os.close(reader)
    os.close(writer)


def killed(store, data, count, pause):
    """Kills an import so many seconds after so many bytes of its input were written; Missed if it had ended."""
    process = store.program.start(store.folder, "import", stdin=-1)
    for at in range(0, count, PIECE):
        os.write(process.stdin.fileno(), data[at:min(at + PIECE, count)])
        time.sleep(PAUSE)
    time.sleep(pause)
    process.kill()
    finish(process)
    if process.returncode != -signal.SIGKILL:
        raise Missed(f"an import had ended by itself with status {process.returncode}")


def kill_and_import(trial, fresh, data, blocks, wanted):
    """Kills an import at a random moment, imports again, and gives how many puts were there."""
    store = copied(trial, fresh)
    # the last byte is never written, so that the import can't end
    killed(store, data, trial.random.randrange(1, len(data)), trial.random.choice([0, 0.001, 0.005, 0.02]))
    found = [pair for put in puts(store.log()) for pair in put]
    expect("what is kept after a kill", found, [(each.cid, each.data) for each in blocks[:len(found)]])
    expect_that(len(found) % GROUP == 0, f"{len(found)} blocks are kept after a kill, and no whole puts")
    again = store.import_car(data)
    expect("the import after a kill", again, imported(len(blocks), len(blocks) - len(found), len(blocks) - 1))
    expect("info after it", store.info(), wanted.info())
    expect("the blocks after it", kept(store.log()), kept(wanted.log()))
    return len(found) // GROUP


@check("an import that is killed keeps whole puts of its first sections, and the same import then ends as one that was not stopped")
def killed_imports(trial):
    fresh, (blocks, data) = new_store(trial, "fresh"), tall(trial.random, 1600, 100)
    wanted = new_store(trial, "wanted")
    expect("an import that is not stopped", wanted.import_car(data), imported(1601, 1601, 1600))
    there = [trial.until_caught(lambda: kill_and_import(trial, fresh, data, blocks, wanted)) for _ in range(KILLS)]
    return f"after {KILLS} kills there were {min(there)} to {max(there)} puts"


@check("imports of one CAR one after another, each killed, come to their end")
def killed_again_and_again(trial):
    store, (blocks, data) = new_store(trial), tall(trial.random, 1600, 100)
    before = 0
    for count in range(len(data) // 8, len(data), len(data) // 8):
        trial.until_caught(lambda: killed(store, data, count, 0.05))
        now = len(kept(store.log()))
        expect_that(now >= before, f"{now} blocks are kept after a kill, and {before} before it")
        before = now
    model = Model()
    import_into(model, data)
    ended = store.import_car(data)
    expect("the last import", ended, imported(len(blocks), len(blocks) - before, 1600))
    expect_state("after the last import", store, model)


class Terminal:
    """A terminal for standard error, and what was printed there."""

    def __init__(self):
        self.ours, self.theirs = pty.openpty()
        self.printed = b""
        self.reader = threading.Thread(target=self.read)
        self.reader.start()

    def read(self):
        # a terminal that nobody has open any more answers EIO
        with contextlib.suppress(OSError):
            while True:
                self.printed += os.read(self.ours, 65_536)

    def lines(self):
        """The lines, once all who could print have ended."""
        self.reader.join(SECONDS)
        os.close(self.ours)
        return [line for line in re.split(rb"[\r\n]+", re.sub(CONTROL, b"", self.printed)) if line.strip()]


def watched(program, store, data, pause):
    """An import whose input comes in pieces with pauses and whose standard error is a terminal: its end, seconds, and terminal."""
    terminal = Terminal()
    began = time.monotonic()
    process = program.start(store.folder, "import", stdin=-1, stderr=terminal.theirs)
    os.close(terminal.theirs)
    give(process, data, len(data) // 30, pause)
    ended = finish(process)
    return ended, time.monotonic() - began, terminal


def expect_progress(terminal, seconds, data, of=None):
    """Expects one line that is written over at most once a second, with megabytes that do not fall, and is cleared in the end."""
    lines = terminal.lines()
    shown = [PROGRESS.fullmatch(line) for line in lines]
    expect_that(all(shown), f"each line tells of progress: {lines[:3]}")
    expect_that(0 < len(lines) <= seconds, f"{len(lines)} lines of progress in {seconds:.1f} seconds")
    expect_that(b"\n" not in terminal.printed and terminal.printed.endswith(CLEARED), f"one line is written over: {terminal.printed!r}")
    counts = [float(each[1]) for each in shown]
    expect_that(counts == sorted(counts) and counts[-1] <= len(data) / 1e6, f"the megabytes rise up to {len(data) / 1e6}: {counts}")
    expect("of how many", {each[2] for each in shown}, {of})
    return f"{len(lines)} lines in {seconds:.1f} s"


@check("an import shows on a terminal, at most once a second, how much it has read, and prints the same as without one")
def progress_of_pipe(trial):
    fresh, (blocks, data) = new_store(trial, "fresh"), tall(trial.random, 600, 300)
    usual = copied(trial, fresh)
    wanted = usual.import_car(data)
    expect("an import without a terminal", wanted, imported(len(blocks), len(blocks), 600))
    files = usual.files()
    store = copied(trial, fresh)
    ended, seconds, terminal = watched(trial.program, store, data, 0.09)
    expect("an import with a terminal", (ended.status, ended.out), (wanted.status, wanted.out))
    expect("the files after it", store.files(), files)
    shown = expect_progress(terminal, seconds, data)
    for off in ("no", "0", "off", "false"):
        store = copied(trial, fresh)
        ended, _, terminal = watched(trial.program.with_environment(SPLITSTORE_PROGRESS=off), store, data, 0.05)
        expect(f"an import with SPLITSTORE_PROGRESS={off}", (ended.status, ended.out, terminal.lines()), (wanted.status, wanted.out, []))
        expect("the files after that", store.files(), files)
    return shown


@check("an import whose standard error is no terminal shows no progress, whatever its standard output is")
def no_progress(trial):
    fresh, (blocks, data) = new_store(trial, "fresh"), tall(trial.random, 300, 100)
    wanted = imported(len(blocks), len(blocks), 300)
    process = trial.program.start(copied(trial, fresh).folder, "import", stdin=-1)
    give(process, data, len(data) // 20, 0.07)
    expect("an import with pipes", finish(process), wanted)
    terminal = Terminal()
    process = trial.program.start(copied(trial, fresh).folder, "import", stdin=-1, stdout=terminal.theirs)
    os.close(terminal.theirs)
    give(process, data, len(data) // 20, 0.07)
    ended = finish(process)
    expect("an import that prints on a terminal", (ended.status, ended.err, terminal.lines()), (0, b"", [wanted.out.strip()]))


def stopped_and_continued(process):
    """Lets a run go on for some milliseconds at a time, with pauses, until it ends. Gives the seconds that this took."""
    began = time.monotonic()
    while process.poll() is None:
        expect_that(time.monotonic() - began < SECONDS, "an import does not end")
        process.send_signal(signal.SIGSTOP)
        time.sleep(0.06)
        process.send_signal(signal.SIGCONT)
        time.sleep(0.01)
    return time.monotonic() - began


@check("an import of a file shows on a terminal how much it has read, of how much there is from where the file stood")
def progress_of_file(trial):
    blocks, ahead = [random_block(trial.random, 1_000_000) for _ in range(50)], bytes(9_000_000)
    data = car(blocks)

    def attempt():
        store, terminal = copied(trial, fresh), Terminal()
        with open(path, "rb") as file:
            os.lseek(file.fileno(), len(ahead), os.SEEK_SET)
            process = trial.program.start(store.folder, "import", *HEAD_NO, stdin=file, stderr=terminal.theirs)
        os.close(terminal.theirs)
        seconds = stopped_and_continued(process)
        ended = finish(process)
        expect("an import of a file", (ended.status, ended.out), (0, imported(50, 50).out))
        if seconds < 1.5:
            raise Missed(f"an import of a file had ended after {seconds:.2f} seconds")
        return expect_progress(terminal, seconds, data, b"50.0")

    fresh, path = new_store(trial, "fresh"), written(trial, ahead + data)
    return trial.until_caught(attempt)


def item(content):
    """A dag-cbor block under blake2b-256."""
    return block(content, DAG_CBOR, BLAKE2B_256)


def bytes_item(content):
    return cbor_head(BYTES, len(content)) + content


def number(value):
    return cbor_head(0, value)


def amt(*links):
    """The root of an AMT of height 0 of these links, fewer than eight."""
    bitmap = bytes([(1 << len(links)) - 1])
    return item(array([number(0), number(len(links)), array([bytes_item(bitmap), array([]), array(list(map(cbor_link, links)))])]))


def hamt(pairs):
    """The one node of a HAMT of these pairs of a key and a value, whose slots differ."""
    slots = {digest_of(0x12, key)[0] >> 3: array([array([bytes_item(key), value])]) for key, value in pairs}
    field = sum(1 << slot for slot in slots)
    expect("the slots of a HAMT of one node", len(slots), len(pairs))
    spelled = field.to_bytes((field.bit_length() + 7) // 8, "big")
    return item(array([bytes_item(spelled), array([slots[slot] for slot in sorted(slots)])]))


def snapshot():
    """The blocks of a tipset of two headers with their parents, state, messages and receipts, and the two headers."""
    code = block(b"\0asm\x01\0\0\0 of an actor", RAW, BLAKE2B_256)
    state, info = item(array([number(1), bytes_item(b"state")])), item(array([]))
    links = [cbor_link(code.cid), cbor_link(state.cid)]
    actors = hamt([(bytes([0, id_]), array([*links, number(id_), bytes_item(bytes([0, id_])), bytes([NULL])])) for id_ in (1, 2, 3)])
    root = item(array([number(5), cbor_link(actors.cid), cbor_link(info.cid)]))
    bls = [item(array([number(0), bytes_item(b"\0\x01"), bytes_item(b"\0" + bytes([at])), number(at)])) for at in (2, 3)]
    secp = item(array([array([number(0), bytes_item(b"\0\x03")]), bytes_item(b"\x01" + bytes(65))]))
    bls_root, secp_root, empty = amt(*(each.cid for each in bls)), amt(secp.cid), amt()
    messages = item(array([cbor_link(bls_root.cid), cbor_link(secp_root.cid)]))
    receipt = array([number(0), bytes_item(b""), number(9)])
    receipts = item(array([number(0), number(1), array([bytes_item(b"\x01"), array([]), array([receipt])])]))
    none = item(array([cbor_link(empty.cid)] * 2))
    first = header_block(0, links=(root.cid, empty.cid, none.cid))
    parents = [header_block(6, [first.cid], ticket, (root.cid, empty.cid, none.cid)) for ticket in (b"a", b"b")]
    tops = [header_block(7, [each.cid for each in parents], ticket, (root.cid, receipts.cid, messages.cid)) for ticket in (b"c", b"d")]
    return [*tops, *parents, first, root, actors, info, state, code, messages, bls_root, secp_root, *bls, secp, receipts, none, empty], tops


@check("a snapshot of a tipset, its parents, state, messages and receipts is imported whole, and its two headers are the head")
def realistic_snapshot(trial):
    blocks, tops = snapshot()
    data = car(blocks, [each.cid for each in tops])
    expect_that(0 < data.index(b"roots") < data.index(b"version"), "the roots come before the version")
    store, model = new_store(trial), Model()
    expect("the model of the snapshot", import_into(model, data), (0, imported(len(blocks), len(blocks), 7).out))
    expect("the import", store.import_car(data), imported(len(blocks), len(blocks), 7))
    expect_state("after the import", store, model)
    expect("info after it", store.info(), Ended(0, info_lines(model).encode("ascii"), b""))
    store.expect_found("after the import", *blocks)
    expect("the import again", store.import_car(data), imported(len(blocks), 0, 7))
    identity = block(b"of its CID", RAW, IDENTITY)
    expect("the import with another block", store.import_car(data + sections([identity])), imported(len(blocks) + 1, 0, 7))
