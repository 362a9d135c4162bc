"""Lines of a script that have none of the forms: each is named with what is wrong with its first field at fault."""
import base64
import collections
import re

from checking import check, expect
from formats import cid_parts, cid_text
from stores import Ended, Store, answers, new_folder, new_store

BAD_CLIENT, UNKNOWN_CALL, BAD_FIELDS, BAD_NUMBER, BAD_CID, BAD_HEX, TOO_MANY_LINES, NOT_YET = 1, 2, 3, 4, 5, 6, 8, 9

# The most lines of a script.
LINES = 100_000

# Lines with their first field at fault, by what is wrong with it.
BAD_LINES = {
    BAD_CLIENT: ["8 open", "9", "x open", "00 open", "-1 info", "open", "8 nothing", "8 begin", "8 get x y z", "\t0 open", "0,open"],
    UNKNOWN_CALL: ["0 nothing", "0 opened", "0 OPEN", "0 open\r", "0 take", "0 nothing x bafkqaab", "0 heads bafkqaab", "0 0 open"],
    BAD_FIELDS: [
        " open", " ", "0", "0 ", "0  open", "0 open ", "0 open x", "0 info ", "0 info 0",
        "0 close", "0 close ", "0 close 0 ", "0 close 0 0", "0 close  0",
        "0 put", "0 put ", "0 put  bafkqaaa -", "0 put 0 ", "0 put 0  -", "0 put 0 bafkqaaa", "0 put 0 bafkqaaa ",
        "0 put 0 bafkqaaa - ", "0 put 0 bafkqaaa - bafkqaaa", "0 put 0 bafkqaaa  616",
        "0 head ", "0 head  bafkqaab", "0 head bafkqaaa "],
    BAD_NUMBER: [
        "0 put x", "0 put 0x0 bafkqaab 6", "0 put -", "0 close x", "0 close 00", "0 close 01", "0 close -1", "0 close +1",
        "0 close 4294967296", "0 close 18446744073709551616", "0 close 0\r", "0 close x y"],
    BAD_CID: [
        "0 put 0 bafkqaab", "0 put 0 bafkqaab 6", "0 put 0 - bafkqaaa", "0 put 0 bafkqaaa - bafkqaab 6", "0 put 0 bafkqaaa - x",
        "0 head x", "0 head bafkqaab ", "0 head bafkqaaa bafkqaab", "0 head -", "0 head 0"],
    BAD_HEX: [
        "0 put 0 bafkqaaa 6", "0 put 0 bafkqaaa 616", "0 put 0 bafkqaaa 6g", "0 put 0 bafkqaaa --", "0 put 0 bafkqaaa -00",
        "0 put 0 bafkqaaa 0x", "0 put 0 bafkqaaa - bafkqaaa x", "0 put 0 bafkqaaa 6 bafkqaab 6", "0 put 0 bafkqaaa 61\r"],
    NOT_YET: ["0 begin", "0 step", "7 begin x", "0 step ", "0 begin  x"],
}

# The calls that take a view and a CID, and what of these is wrong.
ASKING = ("get", "has", "size")
BAD_ASKING = {
    BAD_FIELDS: ["", " ", " 0", " 0 ", "  bafkqaaa", " 0  bafkqaab", " 0 bafkqaaa ", " 0 bafkqaaa x"],
    BAD_NUMBER: [" 01 bafkqaaa", " 4294967296 bafkqaaa", " bafkqaaa", " x bafkqaab x"],
    BAD_CID: [*(f" 0 {cid}" for cid in ("bafkqaab", "bafkqaa", "BAFKQAAA", "-", "x", "bafkqaab x", "015500000", "0155000g", "01550001",
                                        "0155000000", "00550000", "01550045" + "00" * 69))],
}


def bad_script(line, kind):
    """How a run ends whose script has this bad line first."""
    return Ended(9, f"error: script {line} {kind}\n".encode("ascii"), b"")


@check("a line that has none of the forms is named, with what is wrong with its first field at fault, and nothing is done")
def bad_lines(trial):
    folder, count = new_folder(trial, "no store"), 0
    for kind, some in BAD_LINES.items():
        for line in [*some, *(f"0 {name}{rest}" for name in ASKING for rest in BAD_ASKING.get(kind, []))]:
            ended = trial.program.run(folder, "trace", script=f"# first\n0 open\n{line}\n")
            expect(f"a script with the line {line!r}", ended, bad_script(3, kind))
            count += 1
    ended = trial.program.run(folder, "trace", script="\n0 close x\n8 open\n0 nothing\n")
    expect("a script of three bad lines", ended, bad_script(2, BAD_NUMBER))
    expect("the folder", Store(trial.program, folder).files(), {})
    return f"{count} lines"


@check("a script has 100,000 lines at most, and the next one is named whatever it holds")
def most_lines(trial):
    store = new_store(trial)
    most = "#\n" * (LINES - 1) + "0 open\n"
    expect("a script of the most lines", answers(store.trace(most).out), ["opened 0"])
    for more in ("0 info", "8 open", "#", "\n", "0 info\n0 info\n"):
        expect(f"the line {more!r} after the most", store.trace(most + more), bad_script(LINES + 1, TOO_MANY_LINES))
    expect("a bad line before that", store.trace("x\n" + most), bad_script(1, BAD_CLIENT))
    expect("the last line that may be there is bad", store.trace("#\n" * (LINES - 1) + "x\nx\n"), bad_script(LINES, BAD_CLIENT))


class Bad(Exception):
    """A field is at fault; the number says what is wrong with it."""


class Fields:
    """The fields of a line, which are taken from the left."""

    def __init__(self, line):
        self.left = line.split(" ")

    def take(self, kind, is_good):
        if not self.left or not self.left[0]:
            raise Bad(BAD_FIELDS)
        if not is_good(self.left[0]):
            raise Bad(kind)
        return self.left.pop(0)

    def end(self):
        if self.left:
            raise Bad(BAD_FIELDS)


def is_client(field):
    return re.fullmatch("[0-7]", field)


def is_number(field):
    return re.fullmatch("0|[1-9][0-9]*", field) and int(field) < 1 << 32


def is_data(field):
    return re.fullmatch("-|([0-9a-fA-F]{2})+", field)


def is_cid(field):
    try:
        if field.startswith("0"):
            data = bytes.fromhex(field)
        else:
            data = base64.b32decode(field[1:].upper() + "=" * (-len(field[1:]) % 8))
            if cid_text(data) != field:
                return False
        return cid_parts(data)[3] == len(data)
    except (ValueError, IndexError):
        return False


def judge(line):
    """Raises `Bad` for the first field at fault of a line that holds a call."""
    fields = Fields(line)
    fields.take(BAD_CLIENT, is_client)
    name = fields.take(UNKNOWN_CALL, ("open", "close", "put", "get", "has", "size", "head", "info", "begin", "step").__contains__)
    if name in ("begin", "step"):
        raise Bad(NOT_YET)
    if name in ("close", "put", *ASKING):
        fields.take(BAD_NUMBER, is_number)
    if name in ASKING:
        fields.take(BAD_CID, is_cid)
    while name in ("put", "head") and fields.left:
        fields.take(BAD_CID, is_cid)
        if name == "put":
            fields.take(BAD_HEX, is_data)
    fields.end()


# The fields that a random line has: mostly one of those that may stand there.
ANY_FIELDS = ["", "0", "7", "8", "x", "00", "open", "put", "info", "begin", "nothing", "bafkqaaa", "bafkqaab", "01550000", "0155000",
              "-", "61", "6", "4294967295", "4294967296", "BAFKQAAA", "0155000161", "01550001", "bafkqaa"]
NUMBERS, CIDS, DATAS = ["0", "7", "4294967295"], ["bafkqaaa", "01550000", "0155000161"], ["-", "61", "0aFf"]
FORMS = {"open": [], "info": [], "close": [NUMBERS], "put": [NUMBERS, CIDS, DATAS, CIDS, DATAS], "head": [CIDS, CIDS],
         **{name: [NUMBERS, CIDS] for name in ASKING}}


def random_line(source):
    """A line of one of the forms, in which some field may be another, missing or one too many."""
    name = source.choice(list(FORMS))
    fields = [source.choice("0123456"), name, *map(source.choice, FORMS[name])]
    for _ in range(source.choice([0, 1, 1, 2])):
        at = source.randrange(len(fields) + 1)
        fields[at:at + source.randint(0, 1)] = source.choices(ANY_FIELDS, k=source.randint(0, 1))
    return " ".join(fields)


@check("random lines are taken, or named with what is wrong with their first field at fault")
def random_lines(trial):
    store, kinds = new_store(trial), collections.Counter()
    for _ in range(6000 if trial.is_long else 600):
        line = random_line(trial.random) or "0"
        ended, wanted = store.trace(f"{line}\n"), 0
        try:
            judge(line)
            expect(f"the status of a script of the line {line!r}", (ended.status, ended.err), (0, b""))
        except Bad as fault:
            wanted = fault.args[0]
            expect(f"a script of the line {line!r}", ended, bad_script(1, wanted))
        kinds[wanted] += 1
    return ", ".join(f"{kinds[kind]} of kind {kind}" if kind else f"{kinds[kind]} good" for kind in sorted(kinds))
