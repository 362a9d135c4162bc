"""Blocks, their CIDs, and the faults of DAG-CBOR, by the rules of docs/FORMATS.md."""
import base64
import dataclasses
import hashlib

RAW, DAG_PB, DAG_CBOR, FIL_COMMITMENT_SEALED = 0x55, 0x70, 0x71, 0xF102
IDENTITY, SHA2_256, BLAKE2B_256 = 0x00, 0x12, 0xB220
CID_BYTES = 72

TRUNCATED, LONG_HEAD, INDEFINITE, OTHER_TAG, BAD_LINK, BAD_SIMPLE, TRAILING, COUNT_TOO_LARGE = range(1, 9)
NUMBER, NEGATIVE, BYTES, TEXT, ARRAY, MAP, TAG, SIMPLE = range(8)
FALSE, TRUE, NULL, FLOAT = 0xF4, 0xF5, 0xF6, 0xFB


@dataclasses.dataclass(frozen=True)
class Block:
    """Bytes under a CID, for which they need not be valid."""
    cid: bytes
    data: bytes


def block(data, codec=RAW, code=SHA2_256):
    """A block under its own CID."""
    return Block(cid_of(codec, code, digest_of(code, data)), data)


def random_bytes(source, length):
    return source.getrandbits(8 * length).to_bytes(length, "little") if length else b""


def random_block(source, length):
    """A raw block of random bytes."""
    return block(random_bytes(source, length))


def digest_of(code, data):
    if code == SHA2_256:
        return hashlib.sha256(data).digest()
    if code == BLAKE2B_256:
        return hashlib.blake2b(data, digest_size=32).digest()
    return data


def cid_of(codec, code, digest):
    """The bytes of a CID."""
    return varint(1) + varint(codec) + varint(code) + varint(len(digest)) + digest


def cid_text(cid):
    """The text of a CID."""
    return "b" + base64.b32encode(cid).decode("ascii").rstrip("=").lower()


def digits(data):
    """Bytes in hexadecimal, as scripts and answers have them."""
    return data.hex() or "-"


def varint(number):
    groups = []
    while number >= 128:
        groups.append(number & 127 | 128)
        number >>= 7
    return bytes([*groups, number])


def varint_at(data, at):
    """The number of the varint at a place, and where it ends. ValueError or IndexError where there is none."""
    number = 0
    for place in range(9):
        byte = data[at + place]
        number |= (byte & 127) << 7 * place
        if byte < 128:
            if byte == 0 and place > 0:
                break
            return number, at + place + 1
    raise ValueError("a varint that is not the shortest")


def cid_parts(data):
    """The codec, the hash code, the digest and the length of the CID that bytes begin with. Errors as of a varint."""
    version, at = varint_at(data, 0)
    codec, at = varint_at(data, at)
    code, at = varint_at(data, at)
    length, at = varint_at(data, at)
    if version != 1 or at + length > min(CID_BYTES, len(data)):
        raise ValueError("no CID")
    return codec, code, data[at:at + length], at + length


def is_link(content):
    """Whether the content of a byte string is that of a link."""
    try:
        return content[:1] == b"\0" and cid_parts(content[1:])[3] == len(content) - 1
    except (ValueError, IndexError):
        return False


def cbor_head(major, number):
    """The head of an item in its shortest form."""
    if number < 24:
        return bytes([major << 5 | number])
    size = next(it for it in (1, 2, 4, 8) if number < 1 << 8 * it)
    return bytes([major << 5 | 23 + size.bit_length()]) + number.to_bytes(size, "big")


def cbor_link(cid):
    return cbor_head(TAG, 42) + cbor_head(BYTES, 1 + len(cid)) + b"\0" + cid


def head_at(data, at, due):
    """Major type, argument and end of the head at a place, with its content; and the kind and place of its fault, or None."""
    if at == len(data):
        return None, (TRUNCATED, at)
    major, low = data[at] >> 5, data[at] & 31
    more = 1 << low - 24 if 24 <= low <= 27 else 0
    start = at + 1 + more
    number = int.from_bytes(data[at + 1:start], "big") if more else low
    end = start + (number if major in (BYTES, TEXT) else 0)
    for is_so, kind, place in (
            (major == SIMPLE and data[at] not in (FALSE, TRUE, NULL, FLOAT), BAD_SIMPLE, at),
            (low == 31 and BYTES <= major <= MAP, INDEFINITE, at),
            (low >= 28, LONG_HEAD, at),
            (start > len(data), TRUNCATED, len(data)),
            (major != SIMPLE and more and len(cbor_head(major, number)) <= more, LONG_HEAD, at),
            (major == TAG and number != 42, OTHER_TAG, at),
            (end > len(data), TRUNCATED, len(data)),
            (due - 1 + items_in(major, number) >= 1 << 63, COUNT_TOO_LARGE, at)):
        if is_so:
            return None, (kind, place)
    return (major, number, end), None


def items_in(major, number):
    return {ARRAY: number, MAP: 2 * number}.get(major, 0)


def dag_cbor_fault(data):
    """The kind and place of the first fault of bytes that are to be one item, or None."""
    at, due = 0, 1
    while due:
        head, fault = head_at(data, at, due)
        if fault:
            return fault
        major, number, end = head
        if major == TAG:
            link, fault = head_at(data, end, due)
            if fault:
                return fault
            if link[0] != BYTES or not is_link(data[link[2] - link[1]:link[2]]):
                return BAD_LINK, at
            end = link[2]
        at, due = end, due - 1 + items_in(major, number)
    return (TRAILING, at) if at < len(data) else None
