"""Chains of headers: tipsets that are set as head and those that are refused, the counts, has and size, and views that close."""
import errno
import os

from checking import check, expect, expect_that
from failures import reason
from formats import DAG_CBOR, DAG_PB, IDENTITY, RAW, SHA2_256, Block, block, cid_text, random_block, random_bytes
from headers import HEIGHTS, NO_HEADERS, NOWHERE, UNREAD, array, header_block, header_items
from interposed import on, run
from model import HEADERS, VIEWS, Head, Model
from sizes import filling
from stores import HOT, Ended, answers, copied, get_line, head_line, new_store, put_line, script_of
from worked import HEADER

INFO = "0 info\n"

DAG_JSON = 0x0129

# Items that may stand in any unread place of a header: null, a float, an array, a map of arrays, a number below 0.
ANY_ITEMS = [b"\xf6", b"\xfb" + bytes(8), array([b"\0"] * 30), b"\xa1\x80\x81\x80", b"\x3b" + b"\xff" * 8]

# A call of the system on the log, and what standard error says of it.
SAID = {"pread": "read", "pwrite": "write", "fdatasync": "sync"}


def info(height="-", kept=0, views=1, due=0, base=0, ended=0):
    """The answer to an info."""
    return f"info height {height} base {base} ended {ended} hot {kept} kept {kept} views {views} running 0 due {due}"


def tipset(height, parents=(), count=2, **more):
    """So many headers of one height with the same parents."""
    return [header_block(height, [each.cid for each in parents], bytes([at + 1]), **more) for at in range(count)]


def heads_and_counts(tipsets):
    """Lines that set each tipset as head, each with an info after it."""
    return [line for blocks in tipsets for line in (head_line(*blocks), INFO)]


@check("a chain is put, and each of its tipsets is set as head, back and forth, also by a run that opens the store again")
def chain(trial):
    store, parents, chained = new_store(trial), [], {}
    for height, count in ((0, 1), (7, 3), (14, HEADERS), (15, 2), (4499, 1)):
        parents = tipset(height, parents, count)
        chained[height] = parents
    store.blocks = [each for blocks in chained.values() for each in blocks]
    kept = len(store.blocks)
    stored = [f"stored {len(each)}" for each in chained.values()]
    expect("puts of the headers", store.answers_to(*(put_line(*each) for each in chained.values())), stored)
    heights = [*chained, *reversed(chained), 15]
    wanted = [answer for height in heights for answer in (f"head {height}", info(height, kept))]
    expect("the tipsets as heads", store.answers_to(*heads_and_counts(chained[height] for height in heights)), wanted)
    expect("the counts in the next run", store.answers_to(INFO), [info(15, kept)])
    lines = heads_and_counts([chained[14][::-1], chained[7][1:]])
    expect("a tipset in another order, and a part of one", store.answers_to(*lines), ["head 14", info(14, kept), "head 7", info(7, kept)])
    store.expect_found("after the heads")


class Fork:
    """Headers of several heights and parents, and a block that is no header. All but some headers are to be put."""

    def __init__(self, source):
        roots, self.raw = tipset(4), random_block(source, 100)
        self.good = tipset(5, roots, HEADERS)
        self.higher = tipset(6, roots)
        self.far = tipset(6, roots[:1])
        self.others = [tipset(5, parents) for parents in (roots[::-1], roots[:1], [*roots, roots[0]], [])]
        self.kept = [*roots, *self.good, *self.higher, *self.far, *(each for pair in self.others for each in pair), self.raw]
        self.absent = tipset(5, roots, links=(NOWHERE, NOWHERE, self.raw.cid))

    def refused(self):
        """Tipsets that are refused, each with its answer: the first fault in the order of the answers, at its least place."""
        a, b, most = *self.good[:2], self.good[:-1]
        x, y = self.absent
        raw, higher, far, bare = self.raw, self.higher[0], self.far[0], self.others[-1][0]
        return [
            ([], "tipset-empty"),
            ([*self.good, bare], "tipset-too-many 65"), ([a] * 65, "tipset-too-many 65"), ([x] * 1000, "tipset-too-many 1000"),
            ([a, b, a], "tipset-repeated 2"), ([a, b, b, a], "tipset-repeated 2"), ([x, x], "tipset-repeated 1"),
            ([raw, x, x], "tipset-repeated 2"), ([*most, a], "tipset-repeated 63"),
            ([x], "absent 0"), ([a, x, y], "absent 1"), ([raw, higher, a, y], "absent 3"), ([*most, x], "absent 63"),
            ([raw], "tipset-not-header 0"), ([a, raw], "tipset-not-header 1"), ([raw, higher], "tipset-not-header 0"),
            ([a, raw, higher], "tipset-not-header 1"), ([*most, raw], "tipset-not-header 63"),
            ([a, higher], "tipset-height 1"), ([higher, a, b], "tipset-height 1"), ([a, far], "tipset-height 1"),
            ([a, b, *self.higher, raw], "tipset-height 2"), ([*most, higher], "tipset-height 63"),
            *(([a, b, *pair], "tipset-parents 2") for pair in self.others),
            *(([*pair, a], "tipset-parents 2") for pair in self.others),
            ([a, bare, raw], "tipset-parents 1"), ([a, bare, higher], "tipset-parents 1"), ([*most, bare], "tipset-parents 63"),
        ]


def expect_refused(what, store, good, height, kept, refused):
    """Expects that each tipset is refused by its answer, and that the head stays: a good one that is set first, also in the next run."""
    lines = heads_and_counts(blocks for blocks, _ in refused)
    wanted = [answer for _, refusal in refused for answer in (refusal, info(height, kept))]
    expect(f"heads, {what}", store.answers_to(head_line(*good), *lines), [f"head {height}", *wanted])
    before = store.log()
    expect(f"heads in the next run, {what}", store.answers_to(*lines), wanted)
    expect(f"the log, {what}", store.log(), before)


@check("a tipset is refused by its first fault and the least place of that, and the head stays as it was")
def refused_tipsets(trial):
    fork, store = Fork(trial.random), new_store(trial)
    refused, kept = fork.refused(), len(fork.kept)
    expect("heads of an empty store", store.answers_to(*heads_and_counts([[], fork.good])), ["tipset-empty", info(), "absent 0", info()])
    expect("a put of the blocks", store.answers_to(put_line(*fork.kept)), [f"stored {kept}"])
    wanted = [answer for _, refusal in refused for answer in (refusal, info(kept=kept))]
    expect("heads where none was set", store.answers_to(*heads_and_counts(blocks for blocks, _ in refused)), wanted)
    expect_refused("where one was set", store, fork.good, 5, kept, refused)
    return f"{len(refused)} tipsets"


@check("a block that lacks anything of a header is no header, alone or beside one")
def no_headers(trial):
    store, items, short = new_store(trial), header_items(5, [NOWHERE]), array(header_items(0))
    good = header_block(5, [NOWHERE])
    bad = [block(array(change(items)), DAG_CBOR) for change in NO_HEADERS.values()]
    bad += [block(array(items), codec) for codec in (RAW, DAG_PB, DAG_JSON)]
    kept = [good, *bad]
    expect("puts of them", store.answers_to(*map(put_line, kept)), ["stored 1"] * len(kept))
    # bytes that are no item are there only under identity CIDs
    datas = [b"", short[:-1], short + b"\0", b"\x98\x10" + short[1:], b"\x9f" + short[1:] + b"\xff"]
    bad += [*(block(data, DAG_CBOR, IDENTITY) for data in datas), block(short, RAW, IDENTITY)]
    refused = [(blocks, f"tipset-not-header {len(blocks) - 1}") for each in bad for blocks in ([each], [good, each])]
    expect_refused("of what is no header", store, [good], 5, len(kept), refused)
    return f"{len(bad)} blocks"


@check("a header is one whatever its other items are, under either hash function and in an identity CID, up to the height 2^63 - 1")
def headers(trial):
    store, raw = new_store(trial), random_block(trial.random, 9)
    heights = [0, 23, 24, 255, 256, 65_535, 65_536, (1 << 32) - 1, 1 << 32, HEIGHTS - 1]
    many = [block(bytes([at]), RAW, IDENTITY).cid for at in range(100)]
    taken = [*map(header_block, heights), header_block(8, [raw.cid, raw.cid]), header_block(8, many),
             header_block(8, links=(raw.cid, raw.cid, NOWHERE), code=SHA2_256)]
    for other in ANY_ITEMS:
        items = header_items(9)
        for at in UNREAD:
            items[at] = other
        taken.append(block(array(items), DAG_CBOR))
    heights += [8] * 3 + [9] * len(ANY_ITEMS)
    expect("puts of the headers", store.answers_to(*map(put_line, taken)), ["stored 1"] * len(taken))
    expect("each as head", store.answers_to(*map(head_line, taken)), [f"head {height}" for height in heights])
    identity = Block(bytes.fromhex(HEADER), bytes.fromhex(HEADER)[4:])
    expect("an identity header beside one that is kept", store.answers_to(head_line(identity, taken[0])), ["head 0"])
    expect("the counts in the next run", store.answers_to(INFO), [info(0, len(taken))])


@check("a compaction is due from the head of height `threshold` on, and not at one below")
def due(trial):
    for number, threshold in enumerate((1, 5, 4500, 1 << 62)):
        store = new_store(trial, str(number), f"threshold={threshold}", "depth=3")
        heights = [threshold - 1, threshold, threshold + 1, threshold - 1, HEIGHTS - 1]
        blocks = [header_block(height) for height in heights]
        kept = len(set(blocks))
        store.answers_to(*map(put_line, blocks))
        wanted = [answer for height in heights for answer in (f"head {height}", info(height, kept, due=int(height >= threshold)))]
        lines = heads_and_counts([each] for each in blocks)
        expect(f"heads at the threshold {threshold}", store.answers_to(INFO, *lines), [info(kept=kept), *wanted])
        expect(f"the next run at the threshold {threshold}", store.answers_to(INFO), [info(HEIGHTS - 1, kept, due=1)])


@check("a log that has a base tells it in each run, and a compaction is due from `threshold` above it on")
def due_above_a_base(trial):
    store, base, ended, threshold = new_store(trial, "base", "threshold=10"), 100, 7, 10
    body = b"\x06" + base.to_bytes(8, "big") + ended.to_bytes(8, "big")
    with open(os.path.join(store.folder, HOT), "r+b") as log:
        log.seek(-1, os.SEEK_END)
        log.write(b"\xa5" + len(body).to_bytes(4, "big") + body + b"\0")
    heights = [0, threshold, base + threshold - 1, base + threshold, base + threshold + 1, base - 1]
    blocks = [header_block(height) for height in heights]
    store.answers_to(*map(put_line, blocks))
    counts = {"kept": len(blocks), "base": base, "ended": ended}
    wanted = [answer for height in heights for answer in (f"head {height}", info(height, due=int(height >= base + threshold), **counts))]
    expect("heads above a base", store.answers_to(INFO, *heads_and_counts([each] for each in blocks)), [info(**counts), *wanted])
    expect("the next run", store.answers_to(INFO), [info(heights[-1], **counts)])


@check("views open up to 1024, those that are closed open again from the least number on, and the next run has none")
def views(trial):
    store, closed = new_store(trial), sorted(trial.random.sample(range(VIEWS), 40))
    some = len(closed)
    # lines with their answers; the first view of client 1 is one that it was refused
    calls = [*(("0 open", f"opened {view}") for view in range(VIEWS)), ("1 open", "too-many-views"), ("1 info", info(views=VIEWS)),
             *((f"0 close {view}", "closed") for view in trial.random.sample(closed, some)), ("1 info", info(views=VIEWS - some)),
             *((f"0 has {view} bafkqaaa", "bad-view" if view in closed else "yes") for view in range(VIEWS)),
             ("1 close 0", "bad-view"), ("1 close 1", "bad-view"),
             *(("1 open", f"opened {view}") for view in closed), ("0 open", "too-many-views"), ("1 info", info(views=VIEWS)),
             *(call for at, view in enumerate(closed) for call in ((f"0 close {view}", "bad-view"), (f"1 close {at + 1}", "closed"))),
             ("0 open", f"opened {closed[0]}"), (f"0 close {VIEWS}", "bad-view"), (f"0 close {VIEWS + 1}", "closed"),
             ("0 info", info(views=VIEWS - some))]
    ended = store.trace("".join(f"{line}\n" for line, _ in calls))
    expect("the end", (ended.status, ended.err), (0, b""))
    for number, ((line, answer), came) in enumerate(zip(calls, answers(ended.out)), 1):
        expect(f"line {number}, {line!r}", came, answer)
    again = answers(store.trace(f"{INFO}0 close 0\n0 open\n0 info\n").out)
    expect("views in the next run", again, [info(views=0), "bad-view", "opened 0", info()])


@check("has and size answer of identity CIDs and of all that is kept, and of nothing else")
def has_and_size(trial):
    store = new_store(trial).put(*(random_block(trial.random, size) for size in (0, 1, 255, 65_536, 300_000)))
    refused, missing = random_block(trial.random, 7), random_block(trial.random, 8)
    there = [*store.blocks, *(block(random_bytes(trial.random, size), codec, IDENTITY)
                              for size, codec in ((0, RAW), (1, DAG_CBOR), (68, DAG_PB), (60, 0)))]
    lines = [line for each in (*there, refused, missing) for line in (f"0 has 0 {cid_text(each.cid)}\n", f"0 size 0 {each.cid.hex()}\n")]
    wanted = [*(answer for each in there for answer in ("yes", f"size {len(each.data)}")), *["no", "not-found"] * 2]
    put = put_line(store.blocks[1], refused, Block(missing.cid, b"other"))
    for when in ("in one run", "in the next"):
        expect(f"has and size {when}", store.answers_to(put, *lines), ["mismatch 2", *wanted])
    lines = [f"0 {name} {view} {store.blocks[0].cid.hex()}\n" for name in ("has", "size") for view in (1, 4_294_967_295)]
    expect("has and size without a view", store.answers_to(*lines), ["bad-view"] * 4)


@check("a head takes its record of the log up to the last byte of the limit, and not one more, and stays as it was")
def full_log(trial):
    for count in (1, 3, HEADERS):
        store, first, wider = new_store(trial, str(count), "limit=65536"), header_block(1), tipset(2, count=count)
        kept, need = count + 2, Model.need(Head(2, tuple(each.cid for each in wider)))
        expect("a put of the headers", store.answers_to(put_line(first, *wider), head_line(first)), [f"stored {count + 1}", "head 1"])
        room = 65_536 - len(store.log())
        for left, answer, height in ((need, "head 2", 2), (need - 1, f"log-full 0 {need} {need - 1}", 1)):
            copy = copied(trial, store).put(filling(trial.random, room - left))
            expect(f"a head of {count} with {left} bytes of room", copy.answers_to(head_line(*wider), INFO), [answer, info(height, kept)])
            expect("the counts in the next run", copy.answers_to(INFO), [info(height, kept)])
            copy.expect_found("after a head on a full log", first, *wider)


def with_bytes(trial, store, at, data):
    """A copy of a store whose log has other bytes at a place."""
    copy = copied(trial, store)
    log = copy.log()
    with open(os.path.join(copy.folder, HOT), "wb") as file:
        file.write(log[:at] + data + log[at + len(data):])
    return copy


@check("a header whose bytes are others on the disk is judged as it stands there")
def changed_headers(trial):
    good = tipset(5)
    store = new_store(trial).put(*good)
    start = store.log().index(good[1].data)
    height = start + good[1].data.index(b"\x05\xd8")
    expect("the head", store.answers_to(*heads_and_counts([good])), ["head 5", info(5, 2)])
    for at, data, refusal in ((height, b"\x06", "tipset-height 1"), (height, b"\x25", "tipset-not-header 1"),
                              (start, b"\x8f", "tipset-not-header 1"), (start + len(good[1].data) - 1, b"\x41", "tipset-not-header 1")):
        copy = with_bytes(trial, store, at, data)
        came = copy.answers_to(head_line(*good), INFO, head_line(good[0]), get_line(good[0]))
        expect(f"heads with {data.hex()} in a header", came, [refusal, info(5, 2), "head 5", f"found {good[0].data.hex()}"])
    copy = with_bytes(trial, store, height, b"\x06")
    expect("another height that the disk has", copy.answers_to(*heads_and_counts([good[1:]])), ["head 6", info(6, 2)])


@check("a record of a head that is damaged is named by its gate, and one whose gate is closed counts for nothing")
def damaged_heads(trial):
    good = tipset(5)
    store = new_store(trial).put(*good)
    record = len(store.log()) - 1
    expect("the head", store.answers_to(head_line(*good)), ["head 5"])
    # the record is a gate, a length of four bytes, a kind, a count, a height of eight bytes and the CIDs
    for at, data in ((4, b"\xff"), (5, b"\x07"), (6, b"\0"), (6, b"\1"), (6, b"\3"), (6, b"\x41"), (7, b"\x80"), (15, b"\0")):
        ended = with_bytes(trial, store, record + at, data).trace(INFO)
        expect(f"a record with {data.hex()} at {at}", ended, Ended(8, f"error: damaged 0 {record}\n".encode("ascii"), b""))
    expect("a record with another height", with_bytes(trial, store, record + 14, b"\7").answers_to(INFO), [info(7, 2)])
    expect("a record whose gate is closed", with_bytes(trial, store, record, b"\0").answers_to(INFO), [info(kept=2)])


@check("a head whose read, write or sync fails is answered fault, has and size go on, and the next run has one head or the other")
def failed_heads(trial):
    first, second = tipset(1), tipset(2)
    store = new_store(trial).put(*first, *second)
    expect("the first head", store.answers_to(head_line(*first)), ["head 1"])
    script = script_of(head_line(*second), INFO, f"0 size 0 {second[0].cid.hex()}\n", head_line(), head_line(*first), INFO)
    wanted = ["opened 0", "fault", info(1, 4), f"size {len(second[0].data)}", "tipset-empty"]
    _, opening = run(trial, copied(trial, store).folder, "trace", script="0 open\n")
    for call, said in SAID.items():
        for number in (1, 2):
            copy, what = copied(trial, store), f"{call} {number} of the heads fails"
            rule = (call, HOT, len(on(opening, HOT, call)) + number, errno.EIO)
            ended, _ = run(trial, copy.folder, "trace", script=script, rules=[rule])
            came = answers(ended.out)
            expect(f"the answers if {what}", came[:len(wanted)], wanted)
            # a sync that fails makes all later ones fail
            expect(f"the last answers if {what}", came[len(wanted):], ["fault" if call == "fdatasync" else "head 1", info(1, 4)])
            expect(f"the end if {what}", (ended.status, ended.err), (0, reason(HOT, said, errno.EIO)))
            after = copy.answers_to(INFO)[0]
            expect_that(after in (info(1, 4), info(2, 4)), f"the counts after a run in which {what}: {after}")
            expect(f"a head after a run in which {what}", copy.answers_to(*heads_and_counts([second])), ["head 2", info(2, 4)])
