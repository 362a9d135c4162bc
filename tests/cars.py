"""CARs of version 1: how they are written, what they say, and what an import makes of them, by the rules of docs/FORMATS.md.

The writer and the reader follow the IPLD specification CARv1 and know nothing of each other.
"""
import dataclasses

from formats import ARRAY, MAP, NUMBER, TEXT, cbor_head, cbor_link, cid_parts, dag_cbor_fault, head_at, varint, varint_at
from headers import array, end_of, items_of, link_of
from model import Model

HEADER_BYTES, SECTION_BYTES = 1_048_576, 8_388_608

# The most sections and bytes that an import puts at once, if not one larger section.
GROUP, GROUP_BYTES = 256, 4_194_304

TRUNCATED, BAD_HEADER, BAD_VERSION, ZERO_SECTION, TOO_LARGE, BAD_CID = range(2, 8)
BAD_LENGTH, UNKNOWN_HASH, MISMATCH, MALFORMED = range(9, 13)

# What a put says of a pair whose bytes it refuses.
PUT_REFUSALS = {"unknown-hash": UNKNOWN_HASH, "mismatch": MISMATCH, "malformed": MALFORMED}


def framed(body):
    """A length and as many bytes."""
    return varint(len(body)) + body


def text(word):
    return cbor_head(TEXT, len(word)) + word.encode("ascii")


def roots_pair(roots):
    return text("roots") + array([cbor_link(cid) for cid in roots])


def version_pair(version):
    return text("version") + cbor_head(NUMBER, version)


def header(*pairs):
    """The header of a CAR with these pairs, each a key and its value."""
    return framed(cbor_head(MAP, len(pairs)) + b"".join(pairs))


def section(cid, data):
    return framed(cid + data)


def sections(blocks):
    return b"".join(section(each.cid, each.data) for each in blocks)


def car(blocks=(), roots=()):
    """A CAR with the roots of these CIDs and a section for each block."""
    return header(roots_pair(roots), version_pair(1)) + sections(blocks)


@dataclasses.dataclass(frozen=True)
class Section:
    """A section, with the offset of its length."""
    offset: int
    cid: bytes
    data: bytes


@dataclasses.dataclass(frozen=True)
class Car:
    """What bytes say as a CAR: its roots, the sections before the first refusal, and the kind and offset of that, or None."""
    roots: tuple
    sections: list
    refusal: tuple


class Refused(Exception):
    """A refusal, with its kind."""


def frame_at(data, at, most):
    """The body of a header or a section whose length is at an offset, and its end."""
    try:
        length, start = varint_at(data, at)
    except IndexError:
        raise Refused(TRUNCATED) from None
    except ValueError:
        raise Refused(BAD_LENGTH) from None
    if length > most:
        raise Refused(TOO_LARGE)
    if length > len(data) - start:
        raise Refused(TRUNCATED)
    return data[start:start + length], start + length


def header_parts(body):
    """The roots and the version of a header's bytes, or None if they are no header of any version."""
    if dag_cbor_fault(body) or head_at(body, 0, 1)[0] != (MAP, 2, 1):
        return None
    parts, at = [], 1
    for _ in range(4):
        end = end_of(body, at)
        parts.append(body[at:end])
        at = end
    values = dict(zip(parts[::2], parts[1::2]))
    roots, version = (values.get(text(key), b"\xf6") for key in ("roots", "version"))
    links = list(map(link_of, items_of(roots))) if head_at(roots, 0, 1)[0][0] == ARRAY else [None]
    major, number, _ = head_at(version, 0, 1)[0]
    return None if None in links or major != NUMBER else (tuple(links), number)


def read_header(data):
    """The roots of a CAR, and where its sections begin."""
    body, end = frame_at(data, 0, HEADER_BYTES)
    parts = header_parts(body)
    if parts is None:
        raise Refused(BAD_HEADER)
    roots, version = parts
    if version != 1:
        raise Refused(BAD_VERSION)
    return roots, end


def read_section(data, at):
    """The section at an offset, and its end."""
    body, end = frame_at(data, at, SECTION_BYTES)
    if not body:
        raise Refused(ZERO_SECTION)
    try:
        length = cid_parts(body)[3]
    except (ValueError, IndexError):
        raise Refused(BAD_CID) from None
    return Section(at, body[:length], body[length:]), end


def read_car(data):
    """What bytes say as a CAR."""
    roots, found, at = (), [], 0
    try:
        roots, end = read_header(data)
        while end < len(data):
            at = end
            each, end = read_section(data, at)
            found.append(each)
    except Refused as why:
        return Car(roots, found, (why.args[0], at))
    return Car(roots, found, None)


def groups(found):
    """The sections in the groups that an import puts at once."""
    group, size = [], 0
    for each in found:
        more = len(each.cid) + len(each.data)
        if group and (len(group) == GROUP or size + more > GROUP_BYTES):
            yield group
            group, size = [], 0
        group.append(each)
        size += more
    if group:
        yield group


class Ending(Exception):
    """The end of an import before all is done, with its status and the words of its line."""


def put_group(model, group):
    """Puts a group into a model, up to the first section whose bytes a put refuses, and gives how many blocks were new."""
    faults = [Model.pair_fault(at, each.cid, each.data) for at, each in enumerate(group)]
    good = next((at for at, fault in enumerate(faults) if fault), len(group))
    answer, new = model.put([(each.cid, each.data) for each in group[:good]])
    end_if_full(answer)
    model.keep(new)
    if good < len(group):
        raise Ending(10, f"car {PUT_REFUSALS[faults[good].split()[0]]} {group[good].offset}")
    return len(new)


def end_if_full(answer):
    name, *numbers = answer.split()
    if name == "log-full":
        raise Ending(11, " ".join(["log full", *numbers]))
    if name == "table-full":
        raise Ending(12, " ".join(["table full", *numbers]))


def set_roots(model, roots):
    """Sets the roots as head of a model, and gives the height."""
    answer, head = model.set_head(tuple(roots))
    end_if_full(answer)
    if not head:
        raise Ending(16, f"head {answer}")
    model.keep(head)
    return head.height


def import_into(model, data, sets_head=True):
    """Imports a CAR into a model, and gives the status and the line of it."""
    found = read_car(data)
    try:
        new = sum(put_group(model, group) for group in groups(found.sections))
        if found.refusal:
            raise Ending(10, "car {} {}".format(*found.refusal))
        height = set_roots(model, found.roots) if sets_head else "-"
    except Ending as why:
        status, words = why.args
        return status, f"error: {words}\n".encode("ascii")
    return 0, f"imported {len(found.sections)} new {new} height {height}\n".encode("ascii")
