"""What standard error says in words of a run whose last line says in numbers why it ended."""
import os

from cars import HEADER_BYTES, SECTION_BYTES, car, framed, header, roots_pair, section, sections, version_pair
from checking import check, expect
from formats import DAG_CBOR, RAW, SHA2_256, block, cid_of, cid_text, random_block, varint
from headers import header_block
from imports import HEAD_NO, SHA2_512
from stores import HOT, INIT, Store, finish, new_folder, new_store, put_line, script_of, written

MOST = 4_611_686_018_427_387_904

USAGE = {
    "": "no command; see splitstore --help",
    "help": "help: no such command; see splitstore --help",
    "--help x": "--help takes no arguments",
    "--version x": "--version takes no arguments",
    "trace x=1": "trace takes no arguments",
    "trace first.script": "first.script: trace reads its standard input: splitstore trace < first.script",
    "info x": "info takes no arguments",
    "import head=maybe": "head=maybe: head is yes or no",
    "import ./chain.car": "./chain.car: import reads its standard input: splitstore import < ./chain.car",
    "import head=no -": "-: import reads its standard input: splitstore import < -",
    "import head=no again": "again: import takes head=yes or head=no, and no more",
    "init": "init: mode is missing; it is mode=discard",
    "init depth=5": "init: mode is missing; it is mode=discard",
    "init warm": "warm: init takes KEY=VALUE; see splitstore --help",
    "init warm=1": "warm=1: init has no key warm; see splitstore --help",
    "init mode=warm": "mode=warm: mode is discard",
    "init rows=1 mode=discard rows=2": "rows=2: rows stands there twice",
    "init depth=-1": f"depth=-1: depth is a number from 0 to {MOST}",
    "init threshold=0": f"threshold=0: threshold is a number from 1 to {MOST}",
    "init batch=5000": "batch=5000: batch is a number from 1 to 4096",
    "init rows=x": "rows=x: rows is a number from 1 to 4294967295",
    "init limit=1024": "limit=1024: limit is a number from 65536 to 1099511627776",
}

SCRIPTS = {
    "0 open\n8 open": "line 2: the client is no digit from 0 to 7",
    "0 nothing": "line 1: no such call",
    "0 close": "line 1: a field is missing, empty or one too many",
    "0 close x": "line 1: a view is no decimal number below 2^32",
    "0 get 0 bafkqaab": "line 1: not a CID",
    "0 put 0 bafkqaaa 6": "line 1: a block is neither hexadecimal nor -",
    "\n" * 100_001: "line 100001: the script has more than 100000 lines",
    "0 begin": "line 1: begin and step are not there yet",
    "#" * 16_777_217: "the script has more than 16777216 bytes",
}

HEADERS = {
    "": "the input ends inside it, or is no CAR",
    framed(b"\x80"): "no map of roots and version: the input is no CAR, or a compressed one",
    header(roots_pair([]), version_pair(2)): "its version is not 1",
    varint(HEADER_BYTES + 1): "its length is above 1048576: the input is no CAR",
    b"\x80\x00": "its length is in no shortest form: the input is no CAR",
}


def expect_why(what, ended, status, text):
    """Expects the status of a run and the reason that standard error has of its last line."""
    wanted = f"splitstore: {text}\n".encode("utf-8") if text else b""
    expect(what, (ended.status, ended.why, ended.err), (status, wanted, b""))


@check("standard error names the argument that is invalid, and what is expected in its place")
def usage(trial):
    for words, text in USAGE.items():
        expect_why(f"splitstore {words}", trial.program.run(trial.folder, *words.split()), 2, text)
    expect_why("an argument that is no text", trial.program.run(trial.folder, b"\xff"), 2, "the arguments are not text")


@check("standard error has the number of a bad line of a script and what is wrong with it, in words")
def scripts(trial):
    store = new_store(trial)
    for script, text in SCRIPTS.items():
        expect_why(f"a script of {script[:20]!r}", store.trace(script), 13 if "#" in script else 9, text)


def bad_sections(good):
    """Sections that an import refuses, by what is wrong with each: whether its block is, and the text."""
    unknown, wrong, malformed = cid_of(RAW, SHA2_512, bytes(64)), cid_of(RAW, SHA2_256, bytes(32)), block(b"\xff", DAG_CBOR)
    return {
        section(good.cid, good.data)[:-1]: (None, "ends before its length says"),
        b"\0": (None, "its length is 0"),
        varint(SECTION_BYTES + 1): (None, "its length is above 8388608"),
        framed(b"\x12\x20" + bytes(32)): (None, "does not begin with a CID of version 1"),
        b"\x80\x00": (None, "its length is in no shortest form"),
        section(unknown, b"abc"): (unknown, "the hash function of its CID is not known"),
        section(wrong, good.data): (wrong, "its bytes are not those that its CID names"),
        sections([malformed]): (malformed.cid, "its bytes are not one DAG-CBOR item"),
    }


@check("standard error has the offset of a bad section of a CAR and what is wrong with it, and the CID of a block if the CAR is a file")
def bad_cars(trial):
    store, good = new_store(trial), random_block(trial.random, 30)
    for data, text in HEADERS.items():
        expect_why(f"a CAR that begins with {data[:9]!r}", store.import_car(data), 10, f"CAR: header: {text}")
    front = car([good])
    for data, (cid, text) in bad_sections(good).items():
        wanted = f"CAR: section at {len(front)}: {text}"
        expect_why(f"a section of {data[:9]!r}", store.import_car(front + data), 10, wanted)
        named = f"{wanted}: {cid_text(cid)}" if cid else wanted
        ended = store.program.run_on(written(trial, front + data), store.folder, "import")
        expect_why(f"a section of {data[:9]!r} of a file", ended, 10, named)
        with open(written(trial, b"ahead" + front + data), "rb") as file:
            os.lseek(file.fileno(), len(b"ahead"), os.SEEK_SET)
            ended = store.program.finish_on(file, store.folder, "import")
        expect_why(f"a section of {data[:9]!r} of a file that is read from its middle on", ended, 10, named)


@check("standard error says why the roots of a CAR are not set as head")
def bad_heads(trial):
    store, low = new_store(trial), header_block(3, (), b"r")
    one, two, raw = header_block(9, [low.cid]), header_block(9, [low.cid], b"2"), random_block(trial.random, 20)
    higher, orphan = header_block(10, [low.cid]), header_block(9, (), b"o")
    blocks = [low, one, two, raw, higher, orphan]
    table = {
        "the CAR has no roots": [],
        "the CAR has 65 roots, and a head at most 64": [one.cid] * 65,
        "root 1 stands there before": [one.cid, one.cid],
        "the block of root 1 is not kept": [one.cid, header_block(9, [low.cid], b"absent").cid],
        "root 0 is no block header": [raw.cid],
        "root 1 has another height than root 0": [one.cid, higher.cid],
        "root 1 has other parents than root 0": [one.cid, orphan.cid],
    }
    for text, roots in table.items():
        expect_why(f"roots of which is said: {text}", store.import_car(car(blocks, roots)), 16,
                   f"all blocks are kept, and the head stays: {text}")


@check("standard error names the folder that has no store, or has one, the file that is damaged, and what a full store needs")
def stores(trial):
    folder = os.path.realpath(new_folder(trial, "store"))
    store = Store(trial.program, folder)
    for command in ("trace", "import", "info"):
        expect_why(f"{command} in an empty folder", trial.program.run(folder, command), 7, f"{folder}: no store; splitstore init makes one")
    store.init("limit=65536", "rows=1")
    expect_why("init on a store", trial.program.run(folder, *INIT), 7, f"{folder}: there is a store already")
    large, two = random_block(trial.random, 70_000), [random_block(trial.random, 9) for _ in range(2)]
    expect_why("an import for which the log has no room", store.import_car(car([large]), *HEAD_NO), 11,
               f"{HOT}: the next record needs 70048 bytes, and 65481 are free")
    expect_why("an import of more blocks than may be kept", store.import_car(car(two), *HEAD_NO), 12,
               "2 CIDs would be kept, more than the setting rows")
    expect_why("a run that ends well", store.trace(script_of(put_line(two[0]))), 0, "")
    with open(os.path.join(folder, HOT), "r+b") as file:
        file.seek(5)
        file.write(b"\xff")
    expect_why("a store that is damaged", store.info(), 8, f"{HOT}: damaged at 0")


@check("where standard output is closed, standard error still says which argument is invalid")
def closed_output(trial):
    with open("/dev/full", "wb") as full:
        process = trial.program.start(trial.folder, "nonsense", stdout=full)
    expect("an invalid argument on a full output", finish(process).why, b"splitstore: nonsense: no such command; see splitstore --help\n")
