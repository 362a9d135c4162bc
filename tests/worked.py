"""Worked examples: scripts with what they print, arguments with what becomes of them, and the bytes of files.

Digests and CIDs here were computed by other programs (`sha256sum`, `b2sum` and Python's `base64`).
"""
from checking import check, expect
from stores import EXISTS, HOT, INIT, MADE, NO_STORE, Ended, Store, answers, new_folder, new_store

ABC = "01551220ba7816bf8f01cfea414140de5dae2223b00361a396177a9cb410ff61f20015ad"
ABC_TEXT = "bafkreif2pall7dybz7vecqka3zo24irdwabwdi4wc55jznaq75q7eaavvu"
ABC_BLAKE2B = "bafk2bzacec653aj4mnbds4rrohxt73uyk6nzjfsohoy4wpscojrmrqdi2urrs"
NOTHING = "01551220e3b0c44298fc1c149afbf4c8996fb92427ae41e4649b934ca495991b7852b855"
# An array of one link, to the block of no bytes.
LINK = "01711220e23ea7332f00f1a1e026c0c4628d7dbebe36dfd743c84a1e564c0efc387a97d8"
LINK_BYTES = "81d82a58250001551220e3b0c44298fc1c149afbf4c8996fb92427ae41e4649b934ca495991b7852b855"
# An array of two links: to a commitment, and to a dag-cbor block.
TWO_LINKS = "017112208833b1642b3146aa9032465363dbd8095e9ba90ea259ece50cda5c305435faf0"
TWO_LINKS_BYTES = "82d82a5828000181e203922020" + "00" * 32 + "d82a5827000171a0e40220" + "00" * 32
# Identity CIDs of headers without parents, of the heights 0 and 7.
HEADER = "01710026904080808080804000d82a450001550000d82a450001550000d82a4500015500004000400040"
HEADER_7 = "01710026904080808080804007d82a450001550000d82a450001550000d82a4500015500004000400040"

# Scripts, each on a new store, with what they print.
TRACES = {
    "a block is put and read": (
        f"0 open\n0 put 0 {ABC} 616263\n0 get 0 {ABC}\n",
        "1 0 1 open = opened 0\n2 0 2 put 0 = stored 1\n3 0 3 get 0 = found 616263\n"),
    "a wrong digest is refused, and nothing is kept": (
        f"0 open\n0 put 0 {ABC} 616264\n0 get 0 {ABC}\n",
        "1 0 1 open = opened 0\n2 0 2 put 0 = mismatch 0\n3 0 3 get 0 = not-found\n"),
    "each client has views of its own, and comments and blank lines are counted": (
        f"1 open\n\n# c\n0 get 0 {ABC}\n0 open\n0 get 0 {ABC}\n1 get 1 {ABC}",
        "1 1 1 open = opened 0\n2 0 4 get - = bad-view\n3 0 5 open = opened 1\n4 0 6 get 1 = not-found\n5 1 7 get - = bad-view\n"),
    "a CID is one block, under its text and under its bytes": (
        f"0 open\n0 put 0 {ABC} 616263 {ABC_TEXT} 616263\n0 put 0 {ABC} 616263\n0 get 0 {ABC_TEXT}\n",
        "1 0 1 open = opened 0\n2 0 2 put 0 = stored 1\n3 0 3 put 0 = stored 0\n4 0 4 get 0 = found 616263\n"),
    "the first invalid pair is named, and no pair of its put is kept": (
        f"0 open\n0 put 0 {NOTHING} - {ABC} 616264\n0 get 0 {NOTHING}\n0 put 0\n",
        "1 0 1 open = opened 0\n2 0 2 put 0 = mismatch 1\n3 0 3 get 0 = not-found\n4 0 4 put 0 = stored 0\n"),
    "an identity CID is its own block and is never stored": (
        "0 open\n0 get 0 bafkqaaa\n0 put 0 bafkqaaa -\n0 put 0 0155000161 61\n",
        "1 0 1 open = opened 0\n2 0 2 get 0 = found -\n3 0 3 put 0 = stored 0\n4 0 4 put 0 = stored 0\n"),
    "blocks that are no items, and a hash function that is not known": (
        "0 open\n0 put 0 017100028201 8201\n0 put 0 017100029fff 9fff\n0 put 0 0155130161 61\n",
        "1 0 1 open = opened 0\n2 0 2 put 0 = malformed 0 1 2\n3 0 3 put 0 = malformed 0 3 0\n4 0 4 put 0 = unknown-hash 0\n"),
    "has and size answer without the block, and 0 bytes are a block": (
        f"0 open\n0 put 0 {NOTHING} -\n0 size 0 {NOTHING}\n0 get 0 {NOTHING}\n0 get 0 {ABC}\n0 has 0 {ABC}\n",
        "1 0 1 open = opened 0\n2 0 2 put 0 = stored 1\n3 0 3 size 0 = size 0\n4 0 4 get 0 = found -\n5 0 5 get 0 = not-found\n"
        "6 0 6 has 0 = no\n"),
    "a block of a put that was refused is not there": (
        f"0 open\n0 put 0 {NOTHING} - {ABC} 616264\n0 has 0 {NOTHING}\n0 size 0 {NOTHING}\n",
        "1 0 1 open = opened 0\n2 0 2 put 0 = mismatch 1\n3 0 3 has 0 = no\n4 0 4 size 0 = not-found\n"),
    "the counts of a store that keeps nothing": (
        "0 open\n0 get 0 bafkqaaa\n0 put 0 bafkqaaa -\n0 info\n",
        "1 0 1 open = opened 0\n2 0 2 get 0 = found -\n3 0 3 put 0 = stored 0\n"
        "4 0 4 info = info height - base 0 ended 0 hot 0 kept 0 views 1 running 0 due 0\n"),
    "a block of two links, to blocks that are not there": (
        f"0 open\n0 put 0 {TWO_LINKS} {TWO_LINKS_BYTES}\n0 size 0 {TWO_LINKS}\n0 info\n",
        "1 0 1 open = opened 0\n2 0 2 put 0 = stored 1\n3 0 3 size 0 = size 88\n"
        "4 0 4 info = info height - base 0 ended 0 hot 1 kept 1 views 1 running 0 due 0\n"),
    "all views open, one closed, and what it was": (
        "0 open\n" * 1025 + f"0 close 0\n0 get 0 {ABC}\n",
        "".join(f"{line} 0 {line} open = opened {line - 1}\n" for line in range(1, 1025)) + "1025 0 1025 open = too-many-views\n"
        "1026 0 1026 close 0 = closed\n1027 0 1027 get - = bad-view\n"),
    "a view is closed once, by its client, and its number is given again": (
        f"0 open\n0 open\n1 close 0\n0 close 0\n0 close 0\n1 open\n0 has 0 {ABC}\n1 has 0 {ABC}\n0 has 1 {ABC}\n",
        "1 0 1 open = opened 0\n2 0 2 open = opened 1\n3 1 3 close - = bad-view\n4 0 4 close 0 = closed\n5 0 5 close - = bad-view\n"
        "6 1 6 open = opened 0\n7 0 7 has - = bad-view\n8 1 8 has 0 = no\n9 0 9 has 1 = no\n"),
    "heads that are refused": (
        f"0 head\n0 head {ABC}\n0 open\n0 put 0 {ABC} 616263\n0 head {ABC}\n0 head {HEADER} {HEADER}\n0 info\n",
        "1 0 1 head = tipset-empty\n2 0 2 head = absent 0\n3 0 3 open = opened 0\n4 0 4 put 0 = stored 1\n"
        "5 0 5 head = tipset-not-header 0\n6 0 6 head = tipset-repeated 1\n"
        "7 0 7 info = info height - base 0 ended 0 hot 1 kept 1 views 1 running 0 due 0\n"),
    "headers under identity CIDs are set as head, without a view": (
        f"3 head {HEADER}\n3 info\n0 head {HEADER_7}\n0 head {HEADER} {HEADER_7}\n0 info\n",
        "1 3 1 head = head 0\n2 3 2 info = info height 0 base 0 ended 0 hot 0 kept 0 views 0 running 0 due 0\n3 0 3 head = head 7\n"
        "4 0 4 head = tipset-height 1\n5 0 5 info = info height 7 base 0 ended 0 hot 0 kept 0 views 0 running 0 due 0\n"),
    "BLAKE2b of `abc`, and an array of one link": (
        f"0 open\n0 put 0 {ABC_BLAKE2B} 616263 {LINK} {LINK_BYTES}\n",
        "1 0 1 open = opened 0\n2 0 2 put 0 = stored 2\n"),
}

# Arguments that are refused, with the position of the first invalid one.
REFUSED = {
    "": 0, "start": 0, "trace x=1": 1, "--help x": 0, "init": 1, "init mode": 1, "init mode=": 1, "init mode=warm": 1,
    "init mode=universal": 1, "init depth=1 rows=2": 3, "init mode=discard depth=00": 2, "init mode=discard depth=+1": 2,
    "init mode=discard depth=4611686018427387905": 2, "init mode=discard depth=18446744073709551616": 2,
    "init depth=2 mode=discard depth=3": 3, "init mode=discard threshold=0": 2,
    "init mode=discard threshold=4611686018427387905": 2, "init mode=discard batch=0": 2, "init mode=discard batch=4097": 2,
    "init mode=discard rows=0": 2, "init mode=discard rows=4294967296": 2, "init limit=65535 mode=discard": 1,
    "init mode=discard limit=1099511627777": 2,
}

# The settings of a new store, with the names that `init` takes: default, and bytes in the record.
SETTINGS = {"depth": (3600, 8), "threshold": (4500, 8), "batch": (256, 4), "rows": (4_294_967_295, 4), "limit": (1 << 40, 8)}

# Settings that are taken, at their bounds.
TAKEN = [{}, {"depth": 0}, {"depth": 1 << 62}, {"threshold": 1}, {"threshold": 1 << 62}, {"batch": 1}, {"batch": 4096}, {"rows": 1},
         {"rows": 4_294_967_295}, {"limit": 65_536}, {"limit": 1 << 40},
         {"limit": 65_536, "rows": 1, "batch": 4096, "threshold": 1, "depth": 7}]


def log_of(settings):
    """The bytes of `hot-a.log` of a new store: its generation, its settings, and a closed gate."""
    body = b"\x01\x01\0" + b"".join(settings.get(name, usual).to_bytes(size, "big") for name, (usual, size) in SETTINGS.items())
    return b"\xa5\0\0\0\x09\x02\0\0\0\0\0\0\0\x01" + b"\xa5" + len(body).to_bytes(4, "big") + body + b"\0"


@check("the worked examples of a script print what they are to print")
def traces(trial):
    for number, (what, (script, printed)) in enumerate(TRACES.items()):
        store = new_store(trial, str(number), "depth=0")
        expect(what, store.trace(script), Ended(0, printed.encode("ascii"), b""))


@check("the first invalid argument is named, and nothing is done")
def refused_arguments(trial):
    folder = new_folder(trial, "no store")
    for words, position in REFUSED.items():
        ended = trial.program.run(folder, *words.split(), script="0 open\n")
        expect(f"the arguments {words!r}", ended, Ended(2, f"error: usage {position}\n".encode("ascii"), b""))
    expect("the folder", Store(trial.program, folder).files(), {})


@check("a new store has the settings that were asked for, and the help names the defaults and bounds")
def settings_asked_for(trial):
    for number, settings in enumerate(TAKEN):
        words = [f"{name}={value}" for name, value in settings.items()]
        store = new_store(trial, str(number), *words)
        expect(f"the log of init with {words}", store.log(), log_of(settings))
        expect("the other files", {each for name, each in store.files().items() if name != HOT}, {b"\0"})
    shown = trial.program.run(trial.folder, "--help")
    expect("help", (shown.status, shown.err), (0, b""))
    for number in ("3600", "4500", "256", "4096", "65536", "4294967295", "2^40", "2^62"):
        expect(f"{number} is in the help", number.encode("ascii") in shown.out, True)


@check("a store is made once, and help and version touch no folder")
def made_once(trial):
    store = Store(trial.program, new_folder(trial, "store"))
    for words, wanted in ((["trace"], NO_STORE), (INIT, MADE), (INIT, EXISTS), ([*INIT, "rows=1"], EXISTS), (["trace"], Ended(0, b"", b""))):
        expect(f"{' '.join(words)}", trial.program.run(store.folder, *words), wanted)
    expect("the log", store.log(), log_of({}))
    folder = new_folder(trial, "untouched")
    for word, start in (("--help", b"splitstore - "), ("--version", b"splitstore 0.1.0\n")):
        ended = trial.program.run(folder, word)
        expect(word, (ended.status, ended.out[:len(start)], ended.err), (0, start, b""))
    expect("the folder", Store(trial.program, folder).files(), {})


@check("a put is one record of the blocks that are new")
def one_record(trial):
    table = {f"{ABC} 616263": ("stored 1", 46), f"{ABC} 616263 {ABC} 616263 {NOTHING} - bafkqaaa -": ("stored 2", 86)}
    for number, (pairs, (answer, length)) in enumerate(table.items()):
        store = new_store(trial, str(number), "depth=0")
        expect(f"a put of {pairs}", store.answers_to(f"0 put 0 {pairs}\n"), [answer])
        log = store.log()
        expect("the record", (len(log), log[54:59], log[-1:]), (60 + length, b"\xa5\0\0\0" + bytes([length]), b"\0"))


@check("1024 views are open at most, and a put has 1024 pairs at most")
def most_views_and_pairs(trial):
    store = new_store(trial)
    opened = answers(store.trace("0 open\n" * 1026).out)
    expect("the views", opened, [f"opened {view}" for view in range(1024)] + ["too-many-views"] * 2)
    pair = " bafkqaaa -"
    expect("the pairs", store.answers_to(f"0 put 0{pair * 1024}\n", f"0 put 0{pair * 1025}\n"), ["stored 0", "too-many 1025"])
