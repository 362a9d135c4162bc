"""Imports of CARs: what is printed and kept, what is refused and where, how sections are put, and what becomes of the roots."""
import gzip

from cars import (BAD_CID, BAD_HEADER, BAD_LENGTH, BAD_VERSION, GROUP, GROUP_BYTES, HEADER_BYTES, MALFORMED, MISMATCH, SECTION_BYTES,
                  TOO_LARGE, TRUNCATED, UNKNOWN_HASH, ZERO_SECTION, car, framed, header, import_into, roots_pair, section, sections, text,
                  version_pair)
from checking import cases, check, expect, expect_that
from formats import (BLAKE2B_256, BYTES, DAG_CBOR, FLOAT, IDENTITY, MAP, RAW, SHA2_256, Block, block, cbor_head, cbor_link, cid_of,
                     random_block, random_bytes, varint)
from headers import NOWHERE, ZERO, array, header_block
from logs import heads, kept, puts
from model import HEADERS, Model
from sizes import MIB
from stores import NO_STORE, Ended, Store, copied, get_line, head_line, new_folder, new_store, put_line
from worked import ABC, NOTHING

ABC_BLOCK = Block(bytes.fromhex(ABC), b"abc")
NO_BYTES = Block(bytes.fromhex(NOTHING), b"")

# A CAR of two blocks without roots, and the beginning of a section behind them.
TWO = bytes.fromhex("11a265726f6f7473806776657273696f6e01" "27" + ABC + "616263" "24" + NOTHING)
TWO_AND_A_PART = TWO + bytes.fromhex("27" + ABC[:20])

# The name of a hash function that the store does not know.
SHA2_512 = 0x13

HEAD_NO = ["head=no"]


def refused(kind, offset=0):
    return Ended(10, f"error: car {kind} {offset}\n".encode("ascii"), b"")


def imported(count, new, height="-"):
    return Ended(0, f"imported {count} new {new} height {height}\n".encode("ascii"), b"")


def bad_head(answer):
    return Ended(16, f"error: head {answer}\n".encode("ascii"), b"")


def info_lines(model, views=0, **settings):
    """What `info` prints of a store with these settings, the others as they come."""
    shown = {"depth": 3600, "threshold": 4500, "batch": 256, "rows": 2 ** 32 - 1, "limit": 1 << 40, **settings}
    counts = model.info(None).replace("views 0", f"views {views}")
    return " ".join(["mode discard", *(f"{name} {value}" for name, value in shown.items())]) + f"\n{counts}\n"


def expect_state(what, store, model):
    """Expects that the log of a store holds the blocks and the head of a model."""
    log = store.log()
    expect(f"the blocks, {what}", kept(log), model.kept)
    expect(f"the height of the head, {what}", heads(log)[-1:], [model.head.height] if model.head else [])


def expect_import(what, store, model, data, *words):
    """Imports a CAR into a store and its model, expects the same of both, and gives how it ended."""
    ended = store.import_car(data, *words)
    expect(what, ended, Ended(*import_into(model, data, "head=no" not in words), b""))
    expect_state(what, store, model)
    return ended


def small_blocks(source, count, length=20):
    return [random_block(source, length) for _ in range(count)]


def some_blocks(source, count):
    """Blocks of which some are so long that the lengths of their sections take two and three bytes."""
    return [random_block(source, 18_000 if at % 50 == 1 else 20 + at % 3 * 100) for at in range(count)]


@check("a CAR of two blocks is imported, by a head or without one, and what stands before a section that is cut is kept")
def two_blocks(trial):
    table = {
        "without roots": (TWO, ["head=yes"], bad_head("tipset-empty")),
        "without roots, by default": (TWO, [], bad_head("tipset-empty")),
        "without a head": (TWO, HEAD_NO, imported(2, 2)),
        "cut, without a head": (TWO_AND_A_PART, HEAD_NO, refused(TRUNCATED, 95)),
        "cut, with a head": (TWO_AND_A_PART, ["head=yes"], refused(TRUNCATED, 95)),
        "cut, by default": (TWO_AND_A_PART, [], refused(TRUNCATED, 95)),
    }
    for number, (what, (data, words, wanted)) in enumerate(table.items()):
        store = new_store(trial, str(number), "depth=0")
        expect(f"an import {what}", store.import_car(data, *words), wanted)
        asked = [f"0 has 0 {cid}\n" for cid in (ABC, NOTHING)]
        answered = store.answers_to(*asked, get_line(ABC_BLOCK), get_line(NO_BYTES))
        expect(f"the blocks after it, {what}", answered, ["yes", "yes", "found 616263", "found -"])


# Inputs that are no CAR, with the kind by which they are refused at 0.
NO_CARS = {
    "no byte": (b"", TRUNCATED),
    "one byte of a length": (b"\x8a", TRUNCATED),
    "a header without its body": (TWO[:1], TRUNCATED),
    "a header that is cut": (TWO[:17], TRUNCATED),
    "version 2 in a header of version 1": (TWO[:17] + b"\x02" + TWO[18:], BAD_VERSION),
    "a length that is not the shortest": (b"\x80\0" + TWO, BAD_LENGTH),
    "a length of ten bytes": (b"\xff" * 9 + b"\x01", BAD_LENGTH),
    "nine bytes of a length": (b"\xff" * 9, BAD_LENGTH),
    "eight bytes of a length": (b"\xff" * 8, TRUNCATED),
    "a header of 0 bytes": (b"\0" + TWO[18:], BAD_HEADER),
    "a header that is too large, without its bytes": (varint(HEADER_BYTES + 1), TOO_LARGE),
    "the largest length": (varint((1 << 63) - 1), TOO_LARGE),
    "a large header without its bytes": (varint(HEADER_BYTES), TRUNCATED),
    "a gzip file": (gzip.compress(TWO * 9, mtime=0), BAD_HEADER),
    "a text": (b"a store of blocks\n" * 9, BAD_HEADER),
    "a short text": (b"a store\n", TRUNCATED),
    "a file of zeros": (bytes(1000), BAD_HEADER),
    "a CAR of version 2": (bytes.fromhex("0aa16776657273696f6e02") + bytes(40) + TWO, BAD_HEADER),
    "sections alone": (TWO[18:], BAD_HEADER),
}

# Headers that are none, or not of version 1: the pairs of their map.
NO_ROOTS = roots_pair([])
NO_HEADERS = {
    "no pair": ([], BAD_HEADER),
    "roots alone": ([NO_ROOTS], BAD_HEADER),
    "a version alone": ([version_pair(1)], BAD_HEADER),
    "a third pair": ([NO_ROOTS, version_pair(1), text("more") + ZERO], BAD_HEADER),
    "roots twice": ([NO_ROOTS, NO_ROOTS], BAD_HEADER),
    "roots twice, and a version": ([NO_ROOTS, NO_ROOTS, version_pair(1)], BAD_HEADER),
    "a version twice": ([version_pair(1), version_pair(1)], BAD_HEADER),
    "another key": ([NO_ROOTS, text("Version") + b"\x01"], BAD_HEADER),
    "a key that is bytes": ([NO_ROOTS, cbor_head(BYTES, 7) + b"version\x01"], BAD_HEADER),
    "a key that is a number": ([NO_ROOTS, b"\x01\x01"], BAD_HEADER),
    "roots that are a link": ([text("roots") + cbor_link(NOWHERE), version_pair(1)], BAD_HEADER),
    "roots that are a map": ([text("roots") + cbor_head(MAP, 0), version_pair(1)], BAD_HEADER),
    "a root that is a number": ([text("roots") + array([cbor_link(NOWHERE), ZERO]), version_pair(1)], BAD_HEADER),
    "a root that is the bytes of a CID": ([text("roots") + array([cbor_head(BYTES, 4) + NOWHERE]), version_pair(1)], BAD_HEADER),
    "a root in an array": ([text("roots") + array([array([cbor_link(NOWHERE)])]), version_pair(1)], BAD_HEADER),
    "a root with bytes behind its CID": ([text("roots") + array([cbor_link(NOWHERE + b"\0")]), version_pair(1)], BAD_HEADER),
    "a root of version 0": ([text("roots") + array([cbor_link(b"\x12\x20" + bytes(32))]), version_pair(1)], BAD_HEADER),
    "a version that is a text": ([NO_ROOTS, text("version") + text("1")], BAD_HEADER),
    "a version that is a float": ([NO_ROOTS, text("version") + bytes([FLOAT]) + bytes(8)], BAD_HEADER),
    "a version below 0": ([NO_ROOTS, text("version") + b"\x20"], BAD_HEADER),
    "a version in a longer form": ([NO_ROOTS, text("version") + b"\x18\x01"], BAD_HEADER),
    "bytes behind the map": ([NO_ROOTS, version_pair(1) + b"\0"], BAD_HEADER),
    "version 0": ([NO_ROOTS, version_pair(0)], BAD_VERSION),
    "version 2, in front of the roots": ([version_pair(2), NO_ROOTS], BAD_VERSION),
    "the largest version": ([NO_ROOTS, version_pair(2 ** 64 - 1)], BAD_VERSION),
    "version 2, and roots that are a map": ([text("roots") + cbor_head(MAP, 0), version_pair(2)], BAD_HEADER),
}


@check("an input that is no CAR is refused at 0 by its kind, and the store stays as it was")
def no_cars(trial):
    store = new_store(trial).put(*small_blocks(trial.random, 2))
    before = store.files()
    table = {**NO_CARS, **{f"a header with {what}": (header(*pairs) + TWO[18:], kind) for what, (pairs, kind) in NO_HEADERS.items()}}
    for what, (data, kind) in table.items():
        for words in ([], HEAD_NO):
            expect(f"an import of {what}", store.import_car(data, *words), refused(kind))
            expect(f"the model of {what}", import_into(Model(), data)[1], refused(kind).out)
    expect("the files", store.files(), before)
    return f"{len(table)} inputs"


def large_header(length):
    """A header whose body has so many bytes, by roots in identity CIDs."""
    link, rest = cbor_link(cid_of(RAW, IDENTITY, bytes(68))), length - len(version_pair(1)) - len(text("roots")) - 1
    # the head of an array of 256 to 65535 items has three bytes
    count = (rest - 3 - 200) // len(link)
    rest -= 3 + count * len(link)
    ends = {len(each): each for each in (cbor_link(cid_of(RAW, IDENTITY, bytes(size))) for size in range(69))}
    one, two, three = next((one, two, rest - one - two) for one in ends for two in ends if rest - one - two in ends)
    roots = cbor_head(4, count + 3) + link * count + ends[one] + ends[two] + ends[three]
    made = header(text("roots") + roots, version_pair(1))
    expect("the length of a header that a check makes", len(made), length + len(varint(length)))
    return made, count + 3


@check("a header of 1,048,576 bytes and a section of 8,388,608 are taken, and none that is longer by a byte")
def longest(trial):
    store = new_store(trial)
    largest, roots = large_header(HEADER_BYTES)
    expect("the largest header", store.import_car(largest + TWO[18:], *HEAD_NO), imported(2, 2))
    expect("the largest header, with its roots", store.import_car(largest), bad_head(f"tipset-too-many {roots}"))
    expect("a larger header", store.import_car(large_header(HEADER_BYTES + 1)[0] + TWO[18:], *HEAD_NO), refused(TOO_LARGE))
    most = random_block(trial.random, SECTION_BYTES - 36)
    expect("the largest section", store.import_car(car([most]), *HEAD_NO), imported(1, 1))
    larger = random_block(trial.random, SECTION_BYTES - 35)
    expect("a larger section", store.import_car(TWO + section(larger.cid, larger.data), *HEAD_NO), refused(TOO_LARGE, len(TWO)))
    store.expect_found("after the largest section", ABC_BLOCK, NO_BYTES, most)


def bad_sections(source):
    """Bytes in the place of a section, with the kind by which they are refused there."""
    valid, item = random_block(source, 50), array([cbor_link(NOWHERE)])
    short_digest = cid_of(RAW, SHA2_256, valid.cid[4:-1])
    return {
        "a length that ends": (b"\x80", TRUNCATED),
        "eight bytes of a length": (b"\xff" * 8, TRUNCATED),
        "a length without a section": (b"\x01", TRUNCATED),
        "a section without its last byte": (section(valid.cid, valid.data)[:-1], TRUNCATED),
        "a length that is not the shortest": (b"\xa7\0" + section(valid.cid, valid.data)[1:], BAD_LENGTH),
        "a length of ten bytes": (b"\xff" * 9 + b"\x01", BAD_LENGTH),
        "a length of 0": (b"\0", ZERO_SECTION),
        "a length that is too large": (varint(SECTION_BYTES + 1), TOO_LARGE),
        "the largest length": (varint((1 << 63) - 1), TOO_LARGE),
        "a CID that is cut": (framed(valid.cid[:-1]), BAD_CID),
        "one byte of a CID": (framed(b"\x01"), BAD_CID),
        "a CID of version 0": (framed(b"\x12\x20" + bytes(40)), BAD_CID),
        "a CID of version 2": (framed(b"\x02" + valid.cid[1:] + valid.data), BAD_CID),
        "a CID of 73 bytes": (framed(cid_of(RAW, IDENTITY, bytes(69))), BAD_CID),
        "a CID with a codec in a longer form": (framed(b"\x01\xd5\0" + valid.cid[2:] + valid.data), BAD_CID),
        "an unknown hash function": (section(cid_of(RAW, SHA2_512, valid.cid[4:]), valid.data), UNKNOWN_HASH),
        "a digest that is too short": (section(short_digest, valid.data), UNKNOWN_HASH),
        "a byte more than is hashed": (section(valid.cid, valid.data + b"\0"), MISMATCH),
        "no bytes under the CID of some": (section(valid.cid, b""), MISMATCH),
        "one bit that is another": (section(valid.cid, bytes([valid.data[0] ^ 1]) + valid.data[1:]), MISMATCH),
        "a digest of the other hash function": (section(cid_of(RAW, BLAKE2B_256, valid.cid[4:]), valid.data), MISMATCH),
        "an identity CID of other bytes": (section(cid_of(RAW, IDENTITY, b"a"), b"b"), MISMATCH),
        "an identity CID of more bytes": (section(cid_of(RAW, IDENTITY, b"a"), b""), MISMATCH),
        **{f"a dag-cbor block that is no item, {what}": (sections([block(data, DAG_CBOR, code)]), MALFORMED)
           for what, data, code in (("cut", item[:-1], SHA2_256), ("with a byte more", item + b"\0", BLAKE2B_256),
                                    ("of no bytes", b"", SHA2_256), ("in its CID", b"\x9f\xff", IDENTITY))},
    }


@check("a bad section is refused by its kind and its offset: the sections before it are kept, and none after it")
def bad_in_the_middle(trial):
    fresh, table = new_store(trial, "fresh"), bad_sections(trial.random)
    for at in (0, 3, GROUP - 1, GROUP, GROUP + 40):
        before, after = some_blocks(trial.random, at), small_blocks(trial.random, 3)
        front = car(before)
        for what, (data, kind) in table.items():
            # an input that ends is refused as ended only where nothing comes behind it
            more = b"" if kind == TRUNCATED else sections(after)
            store, model = copied(trial, fresh), Model()
            ended = expect_import(f"an import with {what} behind {at} sections", store, model, front + data + more, *HEAD_NO)
            expect(f"{what} behind {at} sections", ended, refused(kind, len(front)))
            expect(f"what is kept with {what} behind {at} sections", set(model.kept), {each.cid for each in before})
    return f"{len(table)} sections in 5 places"


def four_sections(source):
    """A CAR of four sections with a root, of which one is a header and one is in its CID."""
    top = header_block(5, [NOWHERE], b"t")
    blocks = [random_block(source, 9), block(b"abc", RAW, IDENTITY), top, random_block(source, 3)]
    return car(blocks, [top.cid]), len(car(blocks[:1], [top.cid]))


@check("a CAR that is cut at any byte, and one with any byte of its header and first section changed, ends as the grammar says")
def cut_and_changed(trial):
    fresh, (data, end) = new_store(trial, "fresh"), four_sections(trial.random)
    inputs = {f"cut after {at} bytes": data[:at] for at in range(len(data) + 1)}
    for at in range(end):
        for value in {data[at] ^ 1, data[at] ^ 128, *trial.random.sample(range(256), 4)} - {data[at]}:
            inputs[f"with {value:02x} in place of {data[at]:02x} at {at}"] = data[:at] + bytes([value]) + data[at + 1:]
    ends = set()
    for what, each in inputs.items():
        ended = expect_import(f"an import of a CAR {what}", copied(trial, fresh), Model(), each)
        ends.add(ended.out.rstrip(b"0123456789\n"))
    expect_that(len(ends) > 5, f"the inputs end in {len(ends)} ways")
    return f"{len(inputs)} inputs, {len(ends)} endings"


def puts_of(store):
    """How many pairs each put of a store's log has."""
    return list(map(len, puts(store.log())))


@check("sections are put 256 at a time, and as many as have 4,194,304 bytes together; a larger one is put alone")
def in_groups(trial):
    def sized(*lengths):
        return [random_block(trial.random, length - 36) for length in lengths]

    half = GROUP_BYTES // 2
    table = {
        "600 sections": (small_blocks(trial.random, 600), [256, 256, 88]),
        "256 sections": (small_blocks(trial.random, 256), [256]),
        "257 sections": (small_blocks(trial.random, 257), [256, 1]),
        "as many bytes as may be": (sized(half, half), [2]),
        "a byte more": (sized(half, half, 37), [2, 1]),
        "a byte too many in the second": (sized(half, half + 1, 37), [1, 2]),
        "a section of as many bytes": (sized(40, GROUP_BYTES, 40), [1, 1, 1]),
        "a section of more": (sized(40, 50, 5 * MIB, 60, 70), [2, 1, 2]),
        "two sections of more": (sized(5 * MIB, 6 * MIB), [1, 1]),
        "sections of a MiB": (sized(*[MIB] * 9), [4, 4, 1]),
        "sections of a MiB and a byte": (sized(*[MIB + 1] * 7), [3, 3, 1]),
    }
    for number, (what, (blocks, wanted)) in enumerate(table.items()):
        store = new_store(trial, str(number))
        expect_import(f"an import of {what}", store, Model(), car(blocks), *HEAD_NO)
        expect(f"the puts of {what}", puts_of(store), wanted)
        put = [pair for each in puts(store.log()) for pair in each]
        expect(f"the order of {what}", put, [(each.cid, each.data) for each in blocks])


@check("`new` counts the blocks that were not kept, each once; a second import of the same CAR finds none")
def new_blocks(trial):
    store, model = new_store(trial), Model()
    old, blocks = small_blocks(trial.random, 3), small_blocks(trial.random, 5)
    store.put(*old)
    model.keep({each.cid: each.data for each in old})
    identity = [block(random_bytes(trial.random, 10), codec, IDENTITY) for codec in (RAW, RAW)]
    data = car([*blocks, *identity, blocks[2], *old, identity[0], blocks[4]])
    expect("the first import", expect_import("the first import", store, model, data, *HEAD_NO), imported(13, 5))
    before = store.files()
    expect("the second import", expect_import("the second import", store, model, data, *HEAD_NO), imported(13, 0))
    expect("the files after the second import", store.files(), before)
    # a block that is twice in groups of their own, and one that only the last group has
    many = small_blocks(trial.random, 700)
    data = car([*blocks, *many[:300], many[0], *many[300:], many[300]])
    expect("an import of several groups", expect_import("groups", store, model, data, *HEAD_NO), imported(707, 700))
    store.blocks += blocks + many
    store.expect_found("after the imports")
    expect("a CAR without sections", expect_import("no sections", store, model, car(), *HEAD_NO), imported(0, 0))


class Tree:
    """Headers of a tipset and of others, and a block that is no header."""

    def __init__(self, source):
        self.low = header_block(3, (), b"r")
        self.tipset = [header_block(9, [self.low.cid], bytes([at])) for at in range(3)]
        self.higher, self.orphan, self.raw = header_block(10, [self.low.cid]), header_block(9), random_block(source, 40)
        self.absent = header_block(9, [self.low.cid], b"absent")
        self.blocks = [self.raw, *self.tipset, self.low, self.higher, self.orphan]

    def roots(self):
        """Roots, each with how an import of them ends."""
        one, two, three = (each.cid for each in self.tipset)
        in_cid = header_block(70, code=IDENTITY).cid
        return {
            "no root": ([], "tipset-empty"),
            "a root that is absent": ([self.absent.cid], "absent 0"),
            "a second root that is absent": ([one, self.absent.cid], "absent 1"),
            "the same root twice": ([one, two, one], "tipset-repeated 2"),
            "65 roots": ([one] * (HEADERS + 1), f"tipset-too-many {HEADERS + 1}"),
            "a root that is no header": ([self.raw.cid], "tipset-not-header 0"),
            "a second root that is no header": ([one, self.raw.cid], "tipset-not-header 1"),
            "roots of two heights": ([one, self.higher.cid], "tipset-height 1"),
            "roots of other parents": ([one, two, self.orphan.cid], "tipset-parents 2"),
            "a root under an identity CID": ([in_cid], 70),
            "one root": ([self.low.cid], 3),
            "a tipset": ([one, two, three], 9),
            "a tipset in another order": ([three, one], 9),
        }


@check("the roots are set as head if they are a tipset; if not, their refusal is said, the blocks stay, and so does the head")
def roots_as_head(trial):
    tree = Tree(trial.random)
    for number, (what, (roots, ending)) in enumerate(tree.roots().items()):
        for before in (False, True):
            store, model = new_store(trial, f"{number}-{before}"), Model()
            if before:
                old = header_block(1, code=IDENTITY)
                expect("a head that is set before", store.answers_to(head_line(old)), ["head 1"])
                model.keep(model.set_head((old.cid,))[1])
            data = car(tree.blocks, roots)
            wanted = imported(7, 7, ending) if isinstance(ending, int) else bad_head(ending)
            expect(f"an import of {what}", expect_import(f"an import of {what}", store, model, data), wanted)
            expect(f"info after {what}", store.info(), Ended(0, info_lines(model).encode("ascii"), b""))
            expect(f"an import of {what} without a head", store.import_car(data, *HEAD_NO), imported(7, 0))
            expect_state(f"after {what} without a head", store, model)


@check("a section that is refused leaves the head as it was, wherever it stands")
def refused_keeps_head(trial):
    tree, old = Tree(trial.random), header_block(1, code=IDENTITY)
    roots = [each.cid for each in tree.tipset]
    for number, (what, (data, kind)) in enumerate(bad_sections(trial.random).items()):
        store, model = new_store(trial, str(number)), Model()
        store.answers_to(head_line(old))
        model.keep(model.set_head((old.cid,))[1])
        front = car(tree.blocks, roots)
        expect(what, expect_import(f"an import that ends with {what}", store, model, front + data), refused(kind, len(front)))
        expect(f"info after {what}", store.info(), Ended(0, info_lines(model).encode("ascii"), b""))


@check("a head that was imported is there in the next run, and `info` tells it")
def imported_head(trial):
    tree = Tree(trial.random)
    store, model = new_store(trial, "store", "threshold=9", "depth=4", "batch=7", "rows=99", "limit=70000"), Model(99, 70_000, 9)
    settings = {"threshold": 9, "depth": 4, "batch": 7, "rows": 99, "limit": 70_000}
    for roots in ([tree.low], tree.tipset, [tree.low]):
        expect_import("an import", store, model, car(tree.blocks, [each.cid for each in roots]))
        expect("info after it", store.info(), Ended(0, info_lines(model, **settings).encode("ascii"), b""))
        expect("the counts that a script asks for", store.answers_to("0 info\n"), [model.info(None).replace("views 0", "views 1")])


@check("an import that passes `rows` or `limit` ends with the numbers of the put that is refused, and keeps the groups before it")
def full_stores(trial):
    blocks = small_blocks(trial.random, 600)
    last = header_block(2, code=IDENTITY)
    # the record of a group takes 8 bytes, and 60 for each of its blocks
    table = {
        "rows=255": ("error: table full 256", 0), "rows=256": ("error: table full 512", 256), "rows=511": ("error: table full 512", 256),
        "rows=599": ("error: table full 600", 512), "rows=600": ("imported 600 new 600 height 2", 600),
        "limit=65536": ("imported 600 new 600 height 2", 600),
    }
    for setting, (line, count) in table.items():
        name, value = setting.split("=")
        store, model = new_store(trial, setting, setting), Model(**{name: int(value)})
        ended = expect_import(f"an import with {setting}", store, model, car(blocks, [last.cid]))
        expect(f"the line with {setting}", ended.out, f"{line}\n".encode("ascii"))
        expect(f"the blocks with {setting}", list(model.kept), [each.cid for each in blocks[:count]])
    larger = [random_block(trial.random, 100) for _ in range(600)]
    store, model = new_store(trial, "larger", "limit=65536"), Model(limit=65_536)
    ended = expect_import("an import with limit=65536 of larger blocks", store, model, car(larger, [last.cid]))
    expect("its line", ended, Ended(11, b"error: log full 0 35848 29633\n", b""))
    expect("its blocks", list(model.kept), [each.cid for each in larger[:256]])
    # what is full stands before a section that is refused, and a section that is refused in the group before what is full
    for bad in (600, 300, 256, 255):
        data = car(larger[:bad], [last.cid]) + b"\0"
        store, model = new_store(trial, f"bad-{bad}", "limit=65536"), Model(limit=65_536)
        expect_import(f"an import with limit=65536 and a bad section behind {bad}", store, model, data)


@check("a log that has no room for the head ends an import with status 11 and its numbers, and keeps the blocks")
def no_room_for_head(trial):
    top = header_block(2, ticket=b"top")
    for room in (15 + len(top.cid) - 1, 15 + len(top.cid)):
        store, model = new_store(trial, f"room-{room}", "limit=65536"), Model(limit=65_536)
        blocks = [top, random_block(trial.random, 65_481 - room - 8 - 2 * 4 - len(top.cid) - len(top.data) - 36)]
        ended = expect_import(f"an import that leaves {room} bytes", store, model, car(blocks, [top.cid]))
        full = Ended(11, f"error: log full 0 {15 + len(top.cid)} {room}\n".encode("ascii"), b"")
        expect(f"the end with {room} bytes left", ended, imported(2, 2, 2) if room == 15 + len(top.cid) else full)


@check("wrong bytes under the CIDs of large blocks that are kept are refused as any others")
def wrong_bytes_of_large(trial):
    store, large = new_store(trial), [random_block(trial.random, 8 * MIB - 100) for _ in range(2)]
    expect("an import of large blocks", store.import_car(car(large), *HEAD_NO), imported(2, 2))
    small = small_blocks(trial.random, 2)
    front = car(small[:1])
    data = front + section(large[0].cid, b"1") + section(large[1].cid, b"2") + sections(small[1:])
    expect("an import of other bytes under their CIDs", store.import_car(data, *HEAD_NO), refused(MISMATCH, len(front)))
    store.expect_found("after it", *large, small[0])
    expect("a section after it", store.answers_to(get_line(small[1])), ["not-found"])


@cases({f"`{command}` without a store ends with status 7, with a damaged one with 8, and changes nothing": (command,)
        for command in ("import", "import head=no", "info")})
def not_opened(trial, command):
    store = Store(trial.program, new_folder(trial, "none"))
    expect(f"{command} in an empty folder", trial.program.run(store.folder, *command.split(), script=TWO), NO_STORE)
    expect("init in that folder", store.init().info().status, 0)
    store = new_store(trial).put(ABC_BLOCK)
    path = f"{store.folder}/hot-a.log"
    with open(path, "r+b") as file:
        file.seek(105)
        file.write(b"\xa5")
    before = store.files()
    for data in (TWO, TWO_AND_A_PART, b"", b"\x8a"):
        damaged = Ended(8, b"error: damaged 0 105\n", b"")
        expect(f"{command} of a damaged store", trial.program.run(store.folder, *command.split(), script=data), damaged)
    expect("the files of the damaged store", store.files(), before)


# Arguments that are refused, with the position of the first invalid one.
REFUSED = {
    "import x=1": 1, "import head=maybe": 1, "import head": 1, "import head=": 1, "import head=YES": 1, "import HEAD=yes": 1,
    "import head=yes head=yes": 2, "import head=no head=yes": 2, "import head=yes x=1": 2, "import x=1 head=maybe": 1, "import file.car": 1,
    "info x=1": 1, "info info": 1, "info head=yes": 1, "info mode=discard x": 1, "imports": 0, "Import": 0, "--help import": 0,
}


@check("the first invalid argument of `import` and `info` is named, and nothing is done")
def refused_arguments(trial):
    store, folder = new_store(trial), new_folder(trial, "empty")
    before = store.files()
    for words, position in REFUSED.items():
        for where in (store.folder, folder):
            ended = trial.program.run(where, *words.split(), script=TWO)
            expect(f"the arguments {words!r}", ended, Ended(2, f"error: usage {position}\n".encode("ascii"), b""))
    expect("the files of the store", store.files(), before)
    expect("the files of the folder", Store(trial.program, folder).files(), {})
    shown = trial.program.run(folder, "--help").out
    expect_that(b"splitstore import" in shown and b"splitstore info" in shown, "the help names import and info")


@check("`info` tells the settings and the counts of a new store, after an import, and after a script that leaves views open")
def told_counts(trial):
    settings = {"depth": 7, "threshold": 9, "batch": 11, "rows": 13, "limit": 1 << 20}
    store, model = new_store(trial, "store", *(f"{name}={value}" for name, value in settings.items())), Model(13, 1 << 20, 9)

    def expect_info(what):
        expect(f"info {what}", store.info(), Ended(0, info_lines(model, **settings).encode("ascii"), b""))

    before = store.files()
    expect_info("of a new store")
    expect("the files after it", store.files(), before)
    top = header_block(8)
    expect_import("an import", store, model, car([top, NO_BYTES], [top.cid]))
    expect_info("after an import")
    blocks = small_blocks(trial.random, 4)
    views = store.answers_to("0 open\n", "1 open\n", *map(put_line, blocks))
    expect("a script with open views", views, ["opened 1", "opened 2", *["stored 1"] * 4])
    model.keep({each.cid: each.data for each in blocks})
    expect_info("after it")
    higher = header_block(9, code=IDENTITY)
    store.answers_to(head_line(higher))
    model.keep(model.set_head((higher.cid,))[1])
    expect_info("with a head at the threshold")
    expect("info of a store as it comes", new_store(trial, "usual").info(), Ended(0, info_lines(Model()).encode("ascii"), b""))
