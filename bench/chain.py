"""CARs to measure with: a chain of tipsets that a number determines, and blocks of random bytes.

    python3 bench/chain.py chain NUMBER TIPSETS > FILE    the chain, with its last header as root; 5 * TIPSETS + 1 blocks
    python3 bench/chain.py raw SEED COUNT > FILE          so many raw blocks of 4096 bytes, without a root

At each height of the chain stands a leaf of 16 to 64 bytes, raw under sha2-256, and behind it, dag-cbor under blake2b-256,
the state root, the AMT of the messages, the messages and the header, which has the header below for its parent.
"""
import hashlib
import os
import random
import sys

sys.path.append(os.path.join(os.path.dirname(os.path.abspath(__file__)), os.pardir, "tests"))

from formats import ARRAY, NUMBER, cbor_head, cbor_link, varint

RAW, DAG_CBOR = b"\x01\x55\x12\x20", b"\x01\x71\xa0\xe4\x02\x20"
RAW_LENGTH = 4096

# The step from the number of one height to that of the next.
FACTOR, ADDEND, MODULUS = 6_364_136_223_846_793_005, 1_442_695_040_888_963_407, 1 << 64

NO_BYTES, NO_ITEMS, ZERO = b"\x40", b"\x80", b"\x00"


def array(*items):
    return cbor_head(ARRAY, len(items)) + b"".join(items)


def raw(data):
    """A block: its CID and its data."""
    return RAW + hashlib.sha256(data).digest(), data


def node(*items):
    """A block that is an array."""
    data = array(*items)
    return DAG_CBOR + hashlib.blake2b(data, digest_size=32).digest(), data


def amt(*values):
    """The root of an AMT of height 0 of no link or one."""
    bitmap = b"\x41" + bytes([len(values)])
    return node(ZERO, cbor_head(NUMBER, len(values)), array(bitmap, NO_ITEMS, array(*map(cbor_link, values))))


def header(height, parents, state, receipts, messages):
    """A header, whose other items are empty."""
    return node(NO_BYTES, NO_ITEMS, NO_ITEMS, NO_ITEMS, NO_ITEMS, array(*map(cbor_link, parents)), NO_BYTES,
                cbor_head(NUMBER, height), cbor_link(state), cbor_link(receipts), cbor_link(messages),
                NO_BYTES, ZERO, NO_BYTES, ZERO, NO_BYTES)


def chain(number, tipsets):
    """The blocks of a chain, each a CID and its data; the last one is the header of the last height."""
    empty = amt()
    blocks, parents, leaves = [empty], [], []
    for height in range(tipsets):
        leaf = raw(height.to_bytes(8, "big") + number.to_bytes(8, "big") + bytes([height & 255]) * (number % 49))
        leaves = [leaf[0], *leaves[:1]]
        state, values = node(cbor_head(NUMBER, height), array(*map(cbor_link, leaves))), amt(leaf[0])
        messages = node(cbor_link(values[0]), cbor_link(empty[0]))
        top = header(height, parents, state[0], empty[0], messages[0])
        blocks += [leaf, state, values, messages, top]
        parents, number = [top[0]], (number * FACTOR + ADDEND) % MODULUS
    return blocks


def raw_blocks(seed, count):
    """So many raw blocks of random bytes."""
    source = random.Random(seed)
    return [raw(source.randbytes(RAW_LENGTH)) for _ in range(count)]


def write_car(file, blocks, roots=()):
    """Writes a CAR with these roots, of which there are fewer than 24, and a section for each block."""
    start = b"\xa2\x65roots" + array(*map(cbor_link, roots)) + b"\x67version\x01"
    file.write(varint(len(start)) + start)
    for cid, data in blocks:
        file.write(varint(len(cid) + len(data)) + cid + data)


def main(kind, number, count):
    blocks = {"chain": chain, "raw": raw_blocks}[kind](int(number), int(count))
    write_car(sys.stdout.buffer, blocks, [blocks[-1][0]] if kind == "chain" else [])


if __name__ == "__main__":
    if len(sys.argv) != 4 or sys.argv[1] not in ("chain", "raw"):
        sys.exit("usage: chain.py chain NUMBER TIPSETS, or chain.py raw SEED COUNT")
    main(*sys.argv[1:])
