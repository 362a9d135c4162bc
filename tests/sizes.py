"""Large logs and records, and stores that are full to the last row and the last byte."""
import os

from checking import check, expect
from formats import BLAKE2B_256, CID_BYTES, IDENTITY, RAW, Block, block, cid_of, cid_text, digits, random_block, random_bytes
from model import BLOCK_BYTES, PUT_BYTES
from stores import HOT, answers, get_line, new_store, put_line

MIB = 1 << 20

# What a put counts, what its record takes of the log, and what either counts for each block, beside CIDs and data.
PUT, RECORD, EACH = 3, 8, 4

# A codec whose number takes nine bytes.
LONG_CODEC = 1 << 62


@check("logs of more than 4 MB with records of more than 64 KB are opened with every block, run after run")
def large_log(trial):
    store = new_store(trial)
    while os.path.getsize(os.path.join(store.folder, HOT)) < (40 if trial.is_long else 9) * MIB:
        sizes = [trial.random.choice([10, 65_500, 65_536, 70_000, 300_000, MIB, 2 * MIB]) for _ in range(3)]
        together = [random_block(trial.random, size) for size in sizes]
        store.put(random_block(trial.random, trial.random.randint(1, 200_000)))
        expect("a put of large blocks", store.answers_to(put_line(*together)), ["stored 3"])
        store.blocks += together
        store.expect_found("in a log that grows")
    return f"{len(store.blocks)} blocks in {os.path.getsize(os.path.join(store.folder, HOT)) / MIB:.1f} MiB"


@check("a store takes blocks up to its last row, and not one more, also after it is opened again")
def last_row(trial):
    for rows in (1, 2, 50):
        store = new_store(trial, f"rows-{rows}", f"rows={rows}")
        blocks = [random_block(trial.random, 20) for _ in range(rows)]
        more = random_block(trial.random, 20)
        full = f"table-full {rows + 1}"
        expect("a put of one block more than there are rows", store.answers_to(put_line(*blocks, more)), [full])
        expect("puts up to the last row", store.answers_to(*map(put_line, blocks), put_line(more), put_line(*blocks)),
               ["stored 1"] * rows + [full, "stored 0"])
        store.blocks = blocks
        store.expect_found("at the last row")
        expect("puts after opening again", store.answers_to(put_line(more), put_line(*blocks, more), put_line(*blocks), get_line(more)),
               [full, full, "stored 0", "not-found"])


def filling(source, room):
    """A block whose record takes exactly so much of a log."""
    return random_block(source, room - RECORD - EACH - len(random_block(source, 0).cid))


@check("a log takes records up to the last byte of its limit, and not one more, also after it is opened again")
def last_byte(trial):
    for limit in (65_536, 100_001, 3 * MIB):
        store = new_store(trial, f"limit-{limit}", f"limit={limit}")
        store.put(random_block(trial.random, 1000))
        room = limit - os.path.getsize(os.path.join(store.folder, HOT))
        exact, larger = filling(trial.random, room), filling(trial.random, room + 1)
        expect("a record that is one byte too large", store.answers_to(put_line(larger)), [f"log-full 0 {room + 1} {room}"])
        store.put(exact)
        expect("the length of the log", os.path.getsize(os.path.join(store.folder, HOT)), limit)
        store.expect_found("at the limit")
        small = random_block(trial.random, 0)
        expect("a put on a full log", store.answers_to(put_line(small), put_line(exact), get_line(small)),
               [f"log-full 0 {RECORD + EACH + len(small.cid)} 0", "stored 0", "not-found"])
        store.expect_found("after a put that found no room")


@check("a block of the largest size is kept, and one of a byte more is too-large")
def largest_block(trial):
    store = new_store(trial)
    # only under long CIDs do blocks of this size fit a script
    longest = cid_of(RAW, IDENTITY, bytes(68))
    expect("the length of the longest CID", len(longest), CID_BYTES)
    line = f"0 put 0 {cid_text(longest)} {'00' * (BLOCK_BYTES - CID_BYTES + 1)}\n"
    expect("a block of a byte too many", store.answers_to(line), ["too-large 0"])
    prefix = len(block(b"", LONG_CODEC, BLAKE2B_256).cid)
    store.blocks.append(block(random_bytes(trial.random, BLOCK_BYTES - prefix), LONG_CODEC, BLAKE2B_256))
    line = f"0 put 0 {cid_text(store.blocks[0].cid)} {digits(store.blocks[0].data)}\n"
    expect("the largest block", store.answers_to(line), ["stored 1"])
    store.expect_found("after the largest block was put")


@check("a put of the most bytes is judged pair by pair, and one of a byte more is too-big")
def most_bytes(trial):
    kept = random_block(trial.random, MIB)
    store = new_store(trial).put(kept)
    # a pair of a kept block counts as much as the block, whatever data is beside it
    each = len(kept.cid) + EACH + len(kept.data)
    pairs = [Block(kept.cid, b"")] * (PUT_BYTES // each)
    rest = PUT_BYTES - PUT - len(pairs) * each - len(kept.cid) - EACH
    for more, answer in ((0, "mismatch 0"), (1, f"too-big {PUT_BYTES + 1}")):
        last = random_block(trial.random, rest + more)
        expect(f"a put of {more} bytes more than the most", store.answers_to(put_line(*pairs, last)), [answer])
    store.expect_found("after puts that were refused")


@check("a script of the most bytes is run, and one of a byte more is refused")
def longest_script(trial):
    store = new_store(trial)
    head = "0 open\n#"
    longest = head + "x" * (16_777_216 - len(head))
    ended = store.trace(longest)
    expect("a script of the most bytes", (ended.status, answers(ended.out)), (0, ["opened 0"]))
    ended = store.trace(longest + "x")
    expect("a script of a byte more", (ended.status, ended.out), (13, b"error: too long\n"))
