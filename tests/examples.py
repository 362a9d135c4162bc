"""The examples and the sessions in the documents, compared byte by byte with what the program prints.

A session is an indented block that begins with `$`. A line with `$` is typed into `sh`, at the top of the repository; the
lines below it are all that it prints, on standard output and on standard error.
"""
import glob
import os
import re
import shutil
import subprocess

from checking import check, expect, expect_that
from stores import HOT, SECONDS, Ended, Store, new_folder, new_store, written

TOP = os.path.dirname(os.path.dirname(os.path.abspath(__file__)))
BUILT = os.path.join("crates", "splitstore", "out", "splitstore")
DOCUMENTS = ["README.md", "docs/*.md", "examples/README.md"]

# The hot log of a store that was just made, which the interpreter of examples/run is given.
EMPTY = "empty.store"

# The examples that need the store of others, and these.
AFTER = {"twice": ["first"]}

INDENT = "    "


def read(path):
    with open(os.path.join(TOP, path), encoding="utf-8") as file:
        return file.read()


def top_for(trial):
    """The top of the repository. If another program is tried, a folder that looks like it."""
    if os.path.realpath(trial.program.path) == os.path.realpath(os.path.join(TOP, BUILT)):
        return TOP
    top = os.path.join(trial.folder, "top")
    shutil.copytree(os.path.join(TOP, "examples"), os.path.join(top, "examples"))
    os.makedirs(os.path.dirname(os.path.join(top, BUILT)))
    for path in ("splitstore", BUILT):
        os.symlink(trial.program.path, os.path.join(top, path))
    return top


def at_top(trial, top, *command):
    """What a command prints on both streams, and its status. Its temporary files go to the check's folder."""
    done = subprocess.run(command, cwd=top, env={**trial.program.environment, "TMPDIR": trial.folder}, stdin=subprocess.DEVNULL,
                          stdout=subprocess.PIPE, stderr=subprocess.STDOUT, timeout=SECONDS, check=False)
    return done.stdout.decode("utf-8", errors="replace"), done.returncode


def sessions(text):
    """The sessions of a document: the number of the first line, and the lines without their indent."""
    lines = text.splitlines()
    begins = [at for at, line in enumerate(lines) if line.startswith(INDENT + "$ ") and not (at and lines[at - 1].startswith(INDENT))]
    for begin in begins:
        end = next((at for at in range(begin, len(lines)) if not lines[at].startswith(INDENT)), len(lines))
        yield begin + 1, [line[len(INDENT):] for line in lines[begin:end]]


def script_for(lines):
    """A script that prints each typed line of a session, and then does what it says."""
    script = ""
    for line in lines:
        if line.startswith("$ "):
            quoted = line.replace("'", "'\\''")
            script += f"printf '%s\\n' '{quoted}'\n{line[2:]}\n"
    return script


@check("every session in the documents prints what stands there, byte by byte")
def documents(trial):
    top, count = top_for(trial), 0
    for path in sorted(path for pattern in DOCUMENTS for path in glob.glob(os.path.join(TOP, pattern))):
        for number, lines in sessions(read(path)):
            came, _ = at_top(trial, top, "sh", "-c", script_for(lines))
            expect(f"the session at line {number} of {os.path.relpath(path, TOP)}", came, "".join(line + "\n" for line in lines))
            count += 1
    expect_that(count > 5, "the documents have sessions")
    return f"{count} sessions"


def names_of_examples():
    return sorted(name[:-len(".script")] for name in os.listdir(os.path.join(TOP, "examples")) if name.endswith(".script"))


@check("every example prints what stands beside it, byte by byte")
def examples(trial):
    names = names_of_examples()
    for name in names:
        store = new_store(trial, name)
        for each in [*AFTER.get(name, []), name]:
            ended = store.trace(read(f"examples/{each}.script"))
            expect(f"the example {each}", ended, Ended(0, read(f"examples/{each}.out").encode("utf-8"), b""))
    files = {"README.md", "run", "chain.car", EMPTY, *(f"{name}.{kind}" for name in names for kind in ("script", "out"))}
    expect("the files of examples/", sorted(os.listdir(os.path.join(TOP, "examples"))), sorted(files))
    return f"{len(names)} examples"


@check("the store that stands in examples/ is, byte by byte, the hot log that `init` makes, and each example prints the same on it alone")
def empty_store(trial):
    with open(os.path.join(TOP, "examples", EMPTY), "rb") as file:
        log = file.read()
    expect(f"the bytes of examples/{EMPTY}", log, new_store(trial).log())
    for name in names_of_examples():
        if name not in AFTER:
            store = Store(trial.program, new_folder(trial, name))
            written(trial, log, os.path.join(name, HOT))
            expect(f"the example {name} on it", store.trace(read(f"examples/{name}.script")).out, read(f"examples/{name}.out").encode("utf-8"))


@check("examples/run prints `store made` and what its examples print")
def examples_run(trial):
    top = top_for(trial)
    for names in ([], ["first"], ["first", "twice"], ["links"], ["chain"]):
        wanted = "store made\n" + "".join(read(f"examples/{name}.out") for name in names or ["first"])
        expect(f"examples/run {' '.join(names)}", at_top(trial, top, "examples/run", *names), (wanted, 0))


def commands_of(text):
    """The commands in the last column of the guide's table of statuses, each with the status of its row."""
    for status, cell in re.findall(r"^\| (\d+) \|.*\| ([^|]*) \|$", text.replace(r"\|", "\0"), re.MULTILINE):
        if cell.startswith("`"):
            yield int(status), cell.split("`")[1].replace("\0", "|")


@check("every command in the guide's table of statuses ends with its status")
def statuses(trial):
    top, commands = top_for(trial), list(commands_of(read("docs/GUIDE.md")))
    for status, command in commands:
        expect(f"the status of {command}", at_top(trial, top, "sh", "-c", command)[1], status)
    expect_that(len(commands) > 3, "the table of statuses has commands")
    return f"{len(commands)} commands"
