"""What a hot log holds: its records, and the blocks and the head that they leave, by the rules of docs/FORMATS.md."""
from formats import cid_parts

RECORD_HEADER, OPEN = 5, 0xA5
GENERATION, CONFIG, PUT, DROP, HEAD, BASE = 2, 1, 3, 4, 5, 6


def records(log):
    """The bodies of the records before the first closed commit byte."""
    bodies, at = [], 0
    while log[at] == OPEN:
        end = at + RECORD_HEADER + int.from_bytes(log[at + 1:at + RECORD_HEADER], "big")
        bodies.append(log[at + RECORD_HEADER:end])
        at = end
    return bodies


def pairs(body):
    """The pairs of the body of a put, each a CID and its data."""
    found, at = [], 3
    for _ in range(int.from_bytes(body[1:at], "big")):
        data = at + cid_parts(body[at:])[3] + 4
        end = data + int.from_bytes(body[data - 4:data], "big")
        found.append((body[at:data - 4], body[data:end]))
        at = end
    if at != len(body):
        raise ValueError("bytes behind the last pair of a put")
    return found


def puts(log):
    """The pairs of each put of a log, in order."""
    return [pairs(body) for body in records(log) if body[0] == PUT]


def kept(log):
    """The blocks of a log that has no drop, by their CIDs."""
    return {cid: data for put in puts(log) for cid, data in put}


def heads(log):
    """The height of each head of a log, in order."""
    return [int.from_bytes(body[2:10], "big") for body in records(log) if body[0] == HEAD]
