"""Random scripts, whose printed lines are compared with what a store that is a dictionary answers."""
import collections

from checking import check, expect
from formats import (ARRAY, BLAKE2B_256, BYTES, DAG_CBOR, DAG_PB, FALSE, FIL_COMMITMENT_SEALED, FLOAT, IDENTITY, MAP, NEGATIVE, NULL,
                     NUMBER, RAW, SHA2_256, TEXT, TRUE, Block, block, cbor_head, cbor_link, cid_of, cid_text, digest_of, digits,
                     random_block, random_bytes)
from headers import HEIGHTS, NO_HEADERS, NOWHERE, UNREAD, array, header_items
from model import HEADERS, OF_BLOCK, PAIRS, UNDER_VIEW, VIEWS, Call, Model
from stores import new_store

STORES, LONG_STORES, SCRIPTS = 60, 1200, 5

# The most calls of a script, without those that open its first views.
CALLS = 30

# The heights of the headers of a store, below and above the least threshold.
SOME_HEIGHTS = [0, 1, 23, 24, 25, 256, 4500, HEIGHTS - 1]

# The clients that a script opens views for at its begin, and one that it does not.
CLIENTS, LAST_CLIENT = range(3), 7

# The name of a hash function that the store does not know, and the count of a view that no client reaches.
SHA2_512, NO_VIEW = 0x13, 4_294_967_295


class Writer:
    """Writes random scripts for one store. A script is a list of lines, each with its call, or None if it holds none."""

    def __init__(self, source):
        self.source = source
        # blocks of earlier puts, which may or may not be kept
        self.seen = [random_block(source, 5)]
        # heights with parents, and the headers of earlier puts that have them
        heights, parents = source.sample(SOME_HEIGHTS, 2), [(), (NOWHERE,), (NOWHERE, self.seen[0].cid), (self.seen[0].cid, NOWHERE)]
        self.headers = {(height, each): [] for height in heights for each in source.sample(parents, 2)}

    def chance(self, share):
        return self.source.random() < share

    def script(self):
        calls = [Call(client, "open") for client in CLIENTS for _ in range(self.source.choice([0, 1, 1, 1, 2]))]
        calls += [self.call() for _ in range(self.source.randint(1, CALLS))]
        if self.chance(0.02):
            calls += [Call(LAST_CLIENT, "open")] * (VIEWS + 1)
            calls += [Call(LAST_CLIENT, "get", VIEWS - back, cid=self.cid()) for back in range(20)]
            calls += [Call(LAST_CLIENT, "close", self.source.randrange(VIEWS)) for _ in range(5)]
            calls += [Call(LAST_CLIENT, "open"), Call(LAST_CLIENT, "info")] * 7
        lines = []
        for call in calls:
            if self.chance(0.1):
                lines.append((self.source.choice(["", "#", "# 0 open", "#\t\x7f"]), None))
            lines.append((self.line(call), call))
        return lines

    def line(self, call):
        fields = [str(call.client), call.name]
        if call.name in UNDER_VIEW:
            fields.append(str(call.view))
        for cid, data in call.pairs:
            fields += [self.spelled(cid), self.cased(digits(data))]
        if call.name in OF_BLOCK:
            fields.append(self.spelled(call.cid))
        fields += map(self.spelled, call.cids)
        return " ".join(fields)

    def spelled(self, cid):
        return cid_text(cid) if self.chance(0.5) else self.cased(cid.hex())

    def cased(self, text):
        return text.upper() if self.chance(0.2) else text

    def call(self):
        client, view = self.source.choice(CLIENTS), self.source.choice([0] * 12 + [1, 2, NO_VIEW])
        kind = self.source.random()
        if kind < 0.06:
            return Call(client, self.source.choice(["open", "open", "info"]))
        if kind < 0.08:
            return Call(client, "close", view)
        if kind < 0.2:
            return Call(client, "head", cids=tuple(self.tipset()))
        if kind < 0.55:
            return Call(client, self.source.choice(OF_BLOCK), view, cid=self.cid())
        return Call(client, "put", view, tuple((each.cid, each.data) for each in self.parcel()))

    def cid(self):
        return (self.source.choice(self.seen) if self.chance(0.9) else self.block()).cid

    def tipset(self):
        """The CIDs of a head: headers of one height with the same parents, and now and then one that does not fit."""
        kinds = [each for each in self.headers.values() if each] or [self.seen]
        headers = self.source.choice(kinds)
        cids = [each.cid for each in self.source.sample(headers, self.source.randint(1, min(4, len(headers))))]
        if self.chance(0.04):
            return cids[:1] * self.source.choice([0, HEADERS, HEADERS + 1])
        if self.chance(0.3):
            other = self.source.choice(self.source.choice([*kinds, self.seen]))
            cids.insert(self.source.randint(0, len(cids)), other.cid)
        if self.chance(0.05):
            cids.append(self.source.choice([*cids, self.header().cid]))
        return cids

    def parcel(self):
        """The pairs of a put: most of them new, some of an earlier put, and now and then one with a fault."""
        if self.chance(0.01):
            return [block(b"", RAW, IDENTITY)] * self.source.choice([PAIRS, PAIRS + 1])
        pairs = [self.block() if self.chance(0.7) else self.source.choice(self.seen) for _ in range(self.source.randint(0, 5))]
        self.seen += pairs
        if self.chance(0.25):
            pairs.insert(self.source.randint(0, len(pairs)), self.bad_pair())
        return pairs

    def header(self):
        """A header, or now and then what is none for one of its items."""
        height, parents = self.source.choice(list(self.headers))
        links = [self.source.choice([NOWHERE, self.source.choice(self.seen).cid]) for _ in range(3)]
        items = header_items(height, parents, random_bytes(self.source, self.source.choice([0, 1, 4])), links)
        if self.chance(0.3):
            items[self.source.choice(UNREAD)] = self.item(2)
        if self.chance(0.08):
            items = self.source.choice(list(NO_HEADERS.values()))(items)
        data = array(items)
        each = block(data, DAG_CBOR, self.source.choice([SHA2_256, BLAKE2B_256, IDENTITY] if len(data) <= 60 else [SHA2_256, BLAKE2B_256]))
        if each not in self.headers[height, parents]:
            self.headers[height, parents].append(each)
        return each

    def block(self):
        if self.chance(0.3):
            return self.header()
        codec = self.source.choice([RAW, RAW, DAG_CBOR, DAG_CBOR, DAG_PB, FIL_COMMITMENT_SEALED, 0])
        code = self.source.choice([SHA2_256, SHA2_256, BLAKE2B_256, BLAKE2B_256, IDENTITY])
        data = self.item(3) if codec == DAG_CBOR else random_bytes(self.source, self.length())
        return block(data, codec, SHA2_256 if code == IDENTITY and len(data) > 60 else code)

    def length(self):
        least, most = self.source.choice([(0, 0), (1, 60), (1, 60), (60, 3000), (3000, 40_000)])
        return self.source.randint(least, most)

    def item(self, depth):
        """The bytes of one item of DAG-CBOR, nested at most so deep."""
        major = self.source.randint(NUMBER, MAP + 2 if depth else TEXT)
        if major in (NUMBER, NEGATIVE):
            return cbor_head(major, self.source.getrandbits(self.source.choice([4, 8, 16, 32, 64])))
        if major in (BYTES, TEXT):
            content = random_bytes(self.source, self.source.choice([0, 5, 23, 24, 300]))
            return cbor_head(major, len(content)) + content
        if major in (ARRAY, MAP):
            count = self.source.randint(0, 3)
            return cbor_head(major, count) + b"".join(self.item(depth - 1) for _ in range(count if major == ARRAY else 2 * count))
        if self.chance(0.6):
            return cbor_link(self.source.choice(self.seen).cid)
        simple = self.source.choice([FALSE, TRUE, NULL, FLOAT])
        return bytes([simple]) + (random_bytes(self.source, 8) if simple == FLOAT else b"")

    def bad_pair(self):
        """A pair that is not valid, or whose data may not be one item."""
        each, kind = self.block(), self.source.randint(0, 4)
        if kind == 0:
            return Block(each.cid, each.data + b"x")
        if kind == 1:
            return Block(cid_of(RAW, SHA2_512, random_bytes(self.source, 4)), each.data)
        if kind == 2:
            return Block(cid_of(RAW, SHA2_256, digest_of(SHA2_256, each.data)[:31]), each.data)
        return block(self.broken(self.item(4)), DAG_CBOR)

    def broken(self, data):
        """An item with one change: another byte, an early end, or a byte too many."""
        at, byte = self.source.randrange(len(data)), random_bytes(self.source, 1)
        return self.source.choice([data[:at] + byte + data[at + 1:], data[:at], data + byte])


def view_text(model, call):
    """The number of the view of a call, as a line has it before the call is made."""
    number = model.view(call)
    return "" if call.name not in UNDER_VIEW else " -" if number is None else f" {number}"


def printed(model, script):
    """The lines that a script prints on the store of the model, which keeps what is stored."""
    lines = []
    for number, (_, call) in enumerate(script, 1):
        if call is None:
            continue
        view = view_text(model, call)
        answer, new = model.answer(call)
        model.keep(new)
        lines.append(f"{len(lines) + 1} {call.client} {number} {call.name}{view} = {answer}")
    return lines


def run(what, store, model, script):
    """Runs a script on the store and on the model, compares what is printed line by line, and gives it."""
    model.reopen()
    wanted = printed(model, script)
    ended = store.trace("".join(line + "\n" for line, _ in script))
    lines = ended.out.decode("ascii").splitlines()
    for line, other in zip(lines, wanted):
        number = int(other.split()[2])
        expect(f"{what}, line {number} of its script, {script[number - 1][0][:200]!r}", line, other)
    expect(f"{what}: its lines, its status and standard error", (len(lines), ended.status, ended.err), (len(wanted), 0, b""))
    return wanted


def gets_of(model):
    """A script that gets every block of the model, and asks for its head."""
    gets = [(f"0 get 0 {cid.hex()}", Call(0, "get", 0, cid=cid)) for cid in model.kept]
    return [("0 info", Call(0, "info")), ("0 open", Call(0, "open")), *gets]


def random_store(trial, name):
    """A new store with random settings, and its model."""
    source = trial.random
    rows, limit = source.choice([None, source.randint(1, 60)]), source.choice([None, source.randint(65_536, 300_000)])
    threshold = source.choice([1, 24, 256, 4500])
    settings = [f"batch={source.randint(1, 4096)}", f"threshold={threshold}", f"depth={source.randint(0, 9)}"]
    if rows:
        settings.append(f"rows={rows}")
    if limit:
        settings.append(f"limit={limit}")
    model = Model(rows or 2 ** 32 - 1, limit or 2 ** 40, threshold)
    return new_store(trial, name, *source.sample(settings, len(settings))), model


@check(f"random scripts, {SCRIPTS} on each store, print what a store that is a dictionary answers")
def random_scripts(trial):
    counts, stores = collections.Counter(), LONG_STORES if trial.is_long else STORES
    for turn in range(stores):
        writer = Writer(trial.random)
        store, model = random_store(trial, str(turn))
        for number in range(SCRIPTS):
            lines = run(f"script {number} on store {turn}", store, model, writer.script())
            counts.update(line.split(" = ")[1].split()[0] for line in lines)
        run(f"the gets of all blocks of store {turn}", store, model, gets_of(model))
        expect(f"the length of the log of store {turn}", len(store.log()), model.end + 1)
    return f"{stores * SCRIPTS} scripts: " + ", ".join(f"{counts[each]} {each}" for each in sorted(counts))
