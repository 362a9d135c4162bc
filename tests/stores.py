"""Runs of the program, stores in folders, and scripts."""
import dataclasses
import os
import re
import shutil
import subprocess

from checking import Failed, expect, expect_that
from formats import digits

# The most seconds that one run of the program may take.
SECONDS = 60

INIT = ["init", "mode=discard"]

# The files of a store, in the order of their numbers.
FILES = ["hot-a.log", "hot-b.log", "cold-a.log", "cold-b.log", "meta.log", "move.log"]
HOT = FILES[0]


# The lines of standard error that say which call of the system failed, or that the store is in use.
FAILURE = re.compile(rb"splitstore: (\.|[a-z-]+\.log|standard (input|output)): (open|lock|size|read|write|sync|flush): "
                     rb"|splitstore: ([a-z-]+\.log: )?another program uses this (store|file)$")


@dataclasses.dataclass(frozen=True)
class Ended:
    """How a run ended: its status, negative for a signal, and what it wrote. `why` is what standard error says of the last
    line of standard output, which tests/reasons.py tries; `err` is the rest."""
    status: int
    out: bytes
    err: bytes
    why: bytes = dataclasses.field(default=b"", compare=False)


MADE = Ended(0, b"store made\n", b"")
EXISTS = Ended(7, b"error: store exists\n", b"")
NO_STORE = Ended(7, b"error: no store\n", b"")


class Program:
    """The built program. Its runs say in words on standard error what their last line says in numbers."""
    says_why = True

    def __init__(self, path, environment=None):
        self.path = path
        self.environment = environment or {**os.environ, "LC_ALL": "C"}

    def with_environment(self, **variables):
        """The same program, with these environment variables too."""
        return type(self)(self.path, {**self.environment, **variables})

    def start(self, folder, *arguments, before=(), **streams):
        """Starts a run in a folder. `before` has what the new process does just before the program begins."""
        def prepare():
            for each in before:
                each()
        streams = {"stdin": subprocess.DEVNULL, "stdout": subprocess.PIPE, "stderr": subprocess.PIPE, **streams}
        process = subprocess.Popen([self.path, *arguments], cwd=folder, env=self.environment, preexec_fn=prepare, **streams)
        process.says_why = self.says_why
        return process

    def run(self, folder, *arguments, script="", before=()):
        """Runs the program in a folder, with a script, or bytes, as its standard input."""
        return finish(self.start(folder, *arguments, before=before, stdin=subprocess.PIPE), script)

    def run_on(self, path, folder, *arguments):
        """Runs the program in a folder, with a file as its standard input."""
        with open(path, "rb") as file:
            return self.finish_on(file, folder, *arguments)

    def finish_on(self, file, folder, *arguments):
        """Runs the program in a folder, with an open file as its standard input, from where that stands."""
        return finish(self.start(folder, *arguments, stdin=file))


def as_bytes(text):
    return text if isinstance(text, bytes) else text.encode("ascii")


def finish(process, script=""):
    """Gives a run its input, reads what it writes, and waits for its end."""
    given = as_bytes(script) if process.stdin else None
    try:
        out, err = process.communicate(given, timeout=SECONDS)
    except subprocess.TimeoutExpired:
        process.kill()
        process.communicate()
        raise Failed(f"{process.args} had not ended after {SECONDS} seconds") from None
    lines = (err or b"").splitlines(keepends=True)
    says_why = getattr(process, "says_why", True)
    reasons = [line for line in lines if says_why and line.startswith(b"splitstore: ") and not FAILURE.match(line.rstrip(b"\n"))]
    rest = [line for line in lines if line not in reasons]
    return Ended(process.returncode, out or b"", b"".join(rest), b"".join(reasons))


def closing(*descriptors):
    """Closes descriptors, in a new process."""
    def close():
        for descriptor in descriptors:
            os.close(descriptor)
    return close


def put_line(*blocks):
    """The line that puts these blocks at once, by client 0 under its first view."""
    return " ".join(["0 put 0", *(f"{each.cid.hex()} {digits(each.data)}" for each in blocks)]) + "\n"


def get_line(each):
    return f"0 get 0 {each.cid.hex()}\n"


def head_line(*blocks):
    """The line that sets these blocks as head."""
    return " ".join(["0 head", *(each.cid.hex() for each in blocks)]) + "\n"


def script_of(*lines):
    """A script that opens a view for client 0, and then has these lines."""
    return "".join(["0 open\n", *lines])


def puts_and_gets(blocks):
    """A script that puts each block and gets it."""
    return script_of(*(line(each) for each in blocks for line in (put_line, get_line)))


def found(each):
    """The answer to a get of a block that is kept."""
    return f"found {digits(each.data)}"


def answers(out):
    """The answers that a run of a script printed, in order; not that of a last line which is not whole."""
    return [line.split(b" = ", 1)[1].decode("ascii") for line in out.split(b"\n")[:-1] if b" = " in line]


class Store:
    """A store in a folder of its own, with the blocks that it is known to keep."""

    def __init__(self, program, folder, blocks=()):
        self.program = program
        self.folder = folder
        self.blocks = list(blocks)

    def init(self, *settings):
        """Makes the store."""
        expect("init", self.program.run(self.folder, *INIT, *settings), MADE)
        return self

    def trace(self, script, before=()):
        return self.program.run(self.folder, "trace", script=script, before=before)

    def import_car(self, data, *words, before=()):
        return self.program.run(self.folder, "import", *words, script=data, before=before)

    def info(self, before=()):
        return self.program.run(self.folder, "info", before=before)

    def answers_to(self, *lines):
        """The answers to these lines after an `open`, in a run that ends well."""
        ended = self.trace(script_of(*lines))
        expect("the status and standard error of a run", (ended.status, ended.err), (0, b""))
        return answers(ended.out)[1:]

    def put(self, *blocks):
        """Puts new blocks, each by a put of its own."""
        expect("puts of new blocks", self.answers_to(*map(put_line, blocks)), ["stored 1"] * len(blocks))
        self.blocks += blocks
        return self

    def expect_found(self, when, *blocks):
        """Expects that these blocks, or else all that the store is known to keep, are found with their bytes."""
        blocks = blocks or self.blocks
        expect(f"gets of what was stored, {when}", self.answers_to(*map(get_line, blocks)), list(map(found, blocks)))

    def files(self):
        return files_in(self.folder)

    def log(self):
        """The bytes of the hot log."""
        return self.files()[HOT]


def files_in(folder):
    """The bytes of each file in a folder, by its name; None for what is no file."""
    files = {}
    for name in sorted(os.listdir(folder)):
        path = os.path.join(folder, name)
        files[name] = None
        if os.path.isfile(path):
            with open(path, "rb") as file:
                files[name] = file.read()
    return files


def new_folder(trial, name):
    """A new folder inside that of the check."""
    path = os.path.join(trial.folder, name)
    os.mkdir(path)
    return path


def new_store(trial, name="store", *settings):
    """A new store in a folder of its own."""
    return Store(trial.program, new_folder(trial, name)).init(*settings)


def copied(trial, store):
    """A copy of a store, in place of the last one."""
    folder = os.path.join(trial.folder, "copy")
    shutil.rmtree(folder, ignore_errors=True)
    shutil.copytree(store.folder, folder)
    return Store(trial.program, folder, store.blocks)


def written(trial, text, name="script"):
    """The path of a file with this text, or these bytes."""
    path = os.path.join(trial.folder, name)
    with open(path, "wb") as file:
        file.write(as_bytes(text))
    return path


def expect_log_kept(what, before, after):
    """Expects that no byte of a log has changed before its old end, which is the place of its closed gate."""
    end = len(before) - 1
    expect_that(before[end:] == b"\0", f"{what}: the log did not end with a closed gate")
    expect(f"{what}: the bytes of the log before its old end", after[:end], before[:end])
