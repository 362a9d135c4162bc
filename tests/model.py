"""The store as a dictionary: what each call is answered, by the rules of docs/MODEL.md and docs/FORMATS.md."""
import dataclasses

from formats import BLAKE2B_256, DAG_CBOR, IDENTITY, SHA2_256, cid_parts, dag_cbor_fault, digest_of, digits
from headers import header_of

VIEWS, PAIRS, PUT_BYTES, BLOCK_BYTES, HEADERS = 1024, 1024, 15_728_640, 8_388_608, 64

# The calls that are made under a view, and those of them that name one block.
UNDER_VIEW = ("close", "put", "get", "has", "size")
OF_BLOCK = ("get", "has", "size")


@dataclasses.dataclass(frozen=True)
class Call:
    """A call of a script. A call under a view has the count of the client's view, a put has pairs of a CID and data."""
    client: int
    name: str
    view: int = 0
    pairs: tuple = ()
    cid: bytes = b""
    cids: tuple = ()


@dataclasses.dataclass(frozen=True)
class Head:
    """A tipset that is set as head."""
    height: int
    cids: tuple


class Model:
    """A store: its kept blocks by their CIDs, its head, its settings, and the place of its log's last gate."""

    def __init__(self, rows=2 ** 32 - 1, limit=2 ** 40, threshold=4500):
        self.kept, self.head = {}, None
        self.rows, self.limit, self.threshold, self.end = rows, limit, threshold, 54
        self.reopen()

    def reopen(self):
        """Begins another run: no view is open."""
        self.opened, self.views = set(), {}

    def answer(self, call):
        """The answer to a call, and what its record adds, blocks or a head; `keep` adds it."""
        if call.name in UNDER_VIEW and self.view(call) is None:
            return "bad-view", {}
        if call.name == "put":
            return self.put(call.pairs)
        if call.name == "head":
            return self.set_head(call.cids)
        return {"open": self.open, "close": self.close, "info": self.info}.get(call.name, self.look)(call), {}

    def keep(self, new):
        if new:
            self.end += self.need(new)
        if isinstance(new, Head):
            self.head = new
        else:
            self.kept.update(new)

    def open(self, call):
        view = next((number for number in range(VIEWS) if number not in self.opened), None)
        self.views.setdefault(call.client, []).append(view)
        if view is None:
            return "too-many-views"
        self.opened.add(view)
        return f"opened {view}"

    def close(self, call):
        self.opened.remove(self.view(call))
        self.views[call.client][call.view] = None
        return "closed"

    def view(self, call):
        """The store's number of the view that a call names, or None."""
        views = self.views.get(call.client, [])
        return views[call.view] if call.view < len(views) else None

    def put(self, pairs):
        if len(pairs) > PAIRS:
            return f"too-many {len(pairs)}", {}
        size = 3 + sum(len(cid) + 4 + max(len(data), len(self.kept.get(cid, b""))) for cid, data in pairs)
        if size > PUT_BYTES:
            return f"too-big {size}", {}
        for at, (cid, data) in enumerate(pairs):
            fault = self.pair_fault(at, cid, data)
            if fault:
                return fault, {}
        new = {cid: data for cid, data in pairs if cid not in self.kept and cid_parts(cid)[1] != IDENTITY}
        if new and len(self.kept) + len(new) > self.rows:
            return f"table-full {len(self.kept) + len(new)}", {}
        if new and self.need(new) > self.room():
            return f"log-full 0 {self.need(new)} {self.room()}", {}
        return f"stored {len(new)}", new

    @staticmethod
    def pair_fault(at, cid, data):
        codec, code, digest, _ = cid_parts(cid)
        if len(cid) + len(data) > BLOCK_BYTES:
            return f"too-large {at}"
        if code != IDENTITY and (code not in (SHA2_256, BLAKE2B_256) or len(digest) != 32):
            return f"unknown-hash {at}"
        if digest != digest_of(code, data):
            return f"mismatch {at}"
        fault = dag_cbor_fault(data) if codec == DAG_CBOR else None
        return f"malformed {at} {fault[0]} {fault[1]}" if fault else None

    @staticmethod
    def need(new):
        """The bytes of the log that the record of new blocks or of a head takes."""
        if isinstance(new, Head):
            return 15 + sum(map(len, new.cids))
        return 8 + sum(len(cid) + 4 + len(data) for cid, data in new.items())

    def room(self):
        return self.limit - 1 - self.end

    def block(self, cid):
        """The bytes that a CID stands for, or None."""
        _, code, digest, _ = cid_parts(cid)
        return digest if code == IDENTITY else self.kept.get(cid)

    def look(self, call):
        data = self.block(call.cid)
        if call.name == "has":
            return "no" if data is None else "yes"
        if data is None:
            return "not-found"
        return f"size {len(data)}" if call.name == "size" else f"found {digits(data)}"

    def set_head(self, cids):
        fault = self.cids_fault(cids)
        headers = [] if fault else [header_of(cid, self.block(cid)) for cid in cids]
        fault = fault or self.headers_fault(headers)
        if fault:
            return fault, {}
        head = Head(headers[0].height, cids)
        if self.need(head) > self.room():
            return f"log-full 0 {self.need(head)} {self.room()}", {}
        return f"head {head.height}", head

    def cids_fault(self, cids):
        """What is refused before a block is read."""
        if not cids:
            return "tipset-empty"
        if len(cids) > HEADERS:
            return f"tipset-too-many {len(cids)}"
        faults = [f"tipset-repeated {at}" for at, cid in enumerate(cids) if cid in cids[:at]]
        faults += [f"absent {at}" for at, cid in enumerate(cids) if self.block(cid) is None]
        return next(iter(faults), None)

    @staticmethod
    def headers_fault(headers):
        """What is refused of the blocks, of which those that are no headers are None."""
        for at, each in enumerate(headers):
            if each is None:
                return f"tipset-not-header {at}"
            if each.height != headers[0].height:
                return f"tipset-height {at}"
            if each.parents != headers[0].parents:
                return f"tipset-parents {at}"
        return None

    def info(self, _):
        height = "-" if self.head is None else self.head.height
        is_due = self.head is not None and self.head.height >= self.threshold
        return (f"info height {height} base 0 ended 0 hot {len(self.kept)} kept {len(self.kept)} views {len(self.opened)} "
                f"running 0 due {int(is_due)}")
