"""Headers of a chain: how they are made, and which blocks are headers, by the rules of docs/FORMATS.md."""
import dataclasses

from formats import (ARRAY, BLAKE2B_256, BYTES, DAG_CBOR, MAP, NEGATIVE, NULL, NUMBER, TAG, TEXT, block, cbor_head, cbor_link, cid_parts,
                     dag_cbor_fault, head_at, items_in)

# The identity CID of no bytes, which is a block in every store.
NOWHERE = bytes.fromhex("01550000")

HEADER_ITEMS, HEIGHTS = 16, 1 << 63
PARENTS, HEIGHT, STATE, RECEIPTS, MESSAGES = 5, 7, 8, 9, 10

# The places of the items that may be anything.
UNREAD = [0, 1, 2, 3, 4, 6, 11, 12, 13, 14, 15]

NO_BYTES, NO_ITEMS, ZERO = cbor_head(BYTES, 0), cbor_head(ARRAY, 0), cbor_head(NUMBER, 0)


@dataclasses.dataclass(frozen=True)
class Header:
    """What a header says: its height and the CIDs of its parents."""
    height: int
    parents: tuple = ()


def array(items):
    return cbor_head(ARRAY, len(items)) + b"".join(items)


def header_items(height, parents=(), ticket=b"", links=(NOWHERE, NOWHERE, NOWHERE)):
    """The items of a header with these links to state root, receipts and messages. The ticket makes it differ from others."""
    miner, signature = NO_BYTES, NO_BYTES
    proofs = [array([cbor_head(BYTES, len(ticket)) + ticket] if ticket else []), NO_ITEMS, NO_ITEMS, NO_ITEMS]
    return [miner, *proofs, array([cbor_link(cid) for cid in parents]), NO_BYTES, cbor_head(NUMBER, height),
            *map(cbor_link, links), NO_BYTES, ZERO, signature, ZERO, NO_BYTES]


def header_block(height, parents=(), ticket=b"", links=(NOWHERE, NOWHERE, NOWHERE), code=BLAKE2B_256):
    """A header under its own CID."""
    return block(array(header_items(height, parents, ticket, links)), DAG_CBOR, code)


def with_item(at, item):
    """Puts an item in place of one of a header's."""
    return lambda items: [*items[:at], item, *items[at + 1:]]


# What turns the items of a header into those of a block that is none, by what is wrong with it.
NO_HEADERS = {
    "no items": lambda items: [],
    "15 items": lambda items: items[:-1],
    "17 items": lambda items: [*items, ZERO],
    "parents that are one link": with_item(PARENTS, cbor_link(NOWHERE)),
    "parents that are a map": with_item(PARENTS, cbor_head(MAP, 0)),
    "parents that are null": with_item(PARENTS, bytes([NULL])),
    "a parent that is a number": with_item(PARENTS, array([cbor_link(NOWHERE), ZERO])),
    "a parent that is the bytes of a CID": with_item(PARENTS, array([cbor_head(BYTES, len(NOWHERE)) + NOWHERE])),
    "a parent that is an array of a link": with_item(PARENTS, array([array([cbor_link(NOWHERE)])])),
    "the height 2^63": with_item(HEIGHT, cbor_head(NUMBER, HEIGHTS)),
    "the height 2^64 - 1": with_item(HEIGHT, cbor_head(NUMBER, 2 * HEIGHTS - 1)),
    "a height below 0": with_item(HEIGHT, cbor_head(NEGATIVE, 0)),
    "a height that is a text": with_item(HEIGHT, cbor_head(TEXT, 1) + b"0"),
    "a state root that is null": with_item(STATE, bytes([NULL])),
    "a state root that is an array of a link": with_item(STATE, array([cbor_link(NOWHERE)])),
    "receipts that are a number": with_item(RECEIPTS, ZERO),
    "messages that are the bytes of a CID": with_item(MESSAGES, cbor_head(BYTES, len(NOWHERE)) + NOWHERE),
}


def end_of(data, at):
    """Where the item at a place ends; bytes without a fault."""
    due = 1
    while due:
        major, number, at = head_at(data, at, due)[0]
        due += items_in(major, number) - (major != TAG)
    return at


def items_of(data):
    """The bytes of each item of an array, or None for what is no array; bytes without a fault."""
    major, count, at = head_at(data, 0, 1)[0]
    if major != ARRAY:
        return None
    items = []
    for _ in range(count):
        end = end_of(data, at)
        items.append(data[at:end])
        at = end
    return items


def link_of(item):
    """The CID of an item that is a link, or None."""
    if head_at(item, 0, 1)[0][0] != TAG:
        return None
    _, length, end = head_at(item, len(cbor_head(TAG, 42)), 1)[0]
    return item[end - length + 1:end]


def height_of(item):
    major, number, _ = head_at(item, 0, 1)[0]
    return number if major == NUMBER and number < HEIGHTS else None


def header_of(cid, data):
    """What a header says, or None for a block that is none."""
    items = items_of(data) if cid_parts(cid)[0] == DAG_CBOR and not dag_cbor_fault(data) else None
    if items is None or len(items) != HEADER_ITEMS:
        return None
    parents, height = items_of(items[PARENTS]), height_of(items[HEIGHT])
    links = [link_of(items[at]) for at in (STATE, RECEIPTS, MESSAGES)]
    if parents is None or height is None or None in links:
        return None
    parents = tuple(map(link_of, parents))
    return None if None in parents else Header(height, parents)
