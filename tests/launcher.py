"""The launcher, in a small repository whose toolchain is a script that prints what the real one prints."""
import dataclasses
import os
import re
import shutil
import time

from checking import check, expect, expect_that
from examples import TOP
from stores import SECONDS, Ended, Program, closing, finish

# A program that prints its folder, its arguments and its input, notes which streams are open, and ends with status 7.
PROGRAM = """#!/bin/sh
streams=
for stream in 0 1 2; do
    if [ -e "/proc/$$/fd/$stream" ]; then streams="$streams$stream"; fi
done
echo "$streams" >"$0.streams"
echo "in $PWD: $*: $(cat)"
exit 7
"""

# A toolchain that builds this program. A file beside it can have it fail, change a source meanwhile, or take its time.
TOOLCHAIN = """#!/bin/sh
tools=$(dirname "$0")
echo "$*" >>"$tools/calls"
prove() {
    mkdir -p "../$1/out/rlib"
    touch "../$1/out/rlib"
}
case $1 in
all)
    sleep 0.1
    prove low
    prove other
    if [ -e "$tools/fails" ]; then
        echo '== low'
        echo './src/lib.rt:3:1: error: it is not so' >&2
        exit 1
    fi
    if [ -e "$tools/waits" ]; then
        touch "$tools/waiting"
        while [ -e "$tools/waits" ]; do sleep 0.1; done
    fi
    prove middle
    printf '== %s\\n' low other middle splitstore
    ;;
run)
    if [ -e "$tools/changes" ]; then
        sleep 0.1
        touch ../low/src/lib.rt
    fi
    if [ -e "$tools/breaks" ]; then
        echo './src/main.rt:5:1: error: it does not link' >&2
        exit 2
    fi
    cp "$tools/program" out/splitstore
    echo 'the program is run, and prints this'
    ;;
try)
    if [ -e "$tools/tries not" ]; then
        echo 'it tries nothing'
        exit 2
    fi
    shift
    echo "tried in $PWD with $*: $(cat)"
    echo 'proved=no' >&2
    ;;
esac
"""

# The lines of a build, but for its time, which is cut off.
BEGIN = b"splitstore: proving and building the program; the first time this takes minutes\n"
LIBRARIES = b"""splitstore: proving low, 1 of 4
splitstore: proving other, 2 of 4
splitstore: proving middle, 3 of 4
"""
END = b"""splitstore: proving and building splitstore, 4 of 4
splitstore: the program is built; it took"""
PROGRESS = BEGIN + LIBRARIES + END
TIME = re.compile(rb"(?<=; it took) [0-9]+ min [0-5]?[0-9] s\n")

# The lowest crate stands last, `kit` is no crate of the repository, and `tests` is none of the program.
CRATES = """# crates
splitstore: middle low  # the program
middle: kit other low
other:
tests: splitstore
low: kit
"""

# Seconds after which a file that is written is newer: the clock of files is coarse.
TICK = 0.05


class Launcher(Program):
    """The launcher, whose lines on standard error are its own."""
    says_why = False


class Repository:
    """A repository with a launcher, examples, four crates that the program needs, one that it does not, and a toolchain."""

    def __init__(self, trial, name="a repository"):
        self.top = os.path.join(trial.folder, name)
        self.tools = os.path.join(trial.folder, f"tools of {name}")
        self.launcher = os.path.join(self.top, "splitstore")
        self.program = os.path.join(self.top, "crates", "splitstore", "out", "splitstore")
        self.log = os.path.join(self.top, "crates", "splitstore", "out", "build.log")
        for part in ("low/src/lib.rt", "low/specs/Lib.antt", "low/proofs/echo/Answers.antt", "other/src/lib.rt", "middle/src/lib.rt",
                     "splitstore/src/main.rt", "tests/src/lib.rt"):
            self.write(os.path.join("crates", part), "")
        self.write("crates.txt", CRATES)
        shutil.copy(os.path.join(TOP, "splitstore"), self.launcher)
        shutil.copytree(os.path.join(TOP, "examples"), os.path.join(self.top, "examples"))
        os.makedirs(self.tools)
        for each, text in {"rt": TOOLCHAIN, "program": PROGRAM}.items():
            self.tool(each, text)
            os.chmod(os.path.join(self.tools, each), 0o755)

    def write(self, name, text):
        path = os.path.join(self.top, name)
        os.makedirs(os.path.dirname(path), exist_ok=True)
        with open(path, "w", encoding="utf-8") as file:
            file.write(text)

    def run(self, *arguments, launcher=None, folder=None, script="", path=None, before=()):
        """Runs the launcher, or another command in its place."""
        program = Launcher(launcher or self.launcher, self.environment(path))
        ended = program.run(folder or self.top, *arguments, script=script, before=before)
        return dataclasses.replace(ended, err=TIME.sub(b"", ended.err))

    def environment(self, path=None):
        return {**os.environ, "PATH": path or f"{self.tools}:{os.environ['PATH']}"}

    def calls(self):
        """The calls of the toolchain, in order."""
        path = os.path.join(self.tools, "calls")
        if not os.path.exists(path):
            return []
        with open(path, encoding="utf-8") as file:
            return file.read().splitlines()

    def builds(self):
        """How often the program was built."""
        return self.calls().count("run -- --version")

    def tool(self, name, text=""):
        """Puts a file beside the toolchain, and gives its path."""
        path = os.path.join(self.tools, name)
        with open(path, "w", encoding="utf-8") as file:
            file.write(text)
        return path


def printed(folder, arguments="", script=""):
    """How a run of the built program ends."""
    return Ended(7, f"in {folder}: {arguments}: {script}\n".encode("utf-8"), b"")


def read_bytes(path):
    with open(path, "rb") as file:
        return file.read()


def built(folder, arguments="", script=""):
    """How a run ends for which the program is built."""
    return dataclasses.replace(printed(folder, arguments, script), err=PROGRESS)


@check("the launcher builds the program once, with its progress on standard error, and passes on arguments, input, folder and status")
def first_build(trial):
    repository = Repository(trial)
    ended = repository.run("trace", "a b", folder=trial.folder, script="some input")
    expect("the first run", ended, built(trial.folder, "trace a b", "some input"))
    expect("the second run", repository.run("init", folder=trial.folder), printed(trial.folder, "init"))
    expect("how often the program was built", repository.builds(), 1)
    with open(repository.log, encoding="utf-8") as file:
        expect("the log", file.read(), "== low\n== other\n== middle\n== splitstore\nthe program is run, and prints this\n")
    files = sorted(os.listdir(os.path.dirname(repository.program)))
    expect("the files beside the program", files, ["build.log", "splitstore", "splitstore.streams"])


@check("the launcher works through symbolic links, from any folder, and by its name on the path")
def links(trial):
    repository = Repository(trial)
    repository.run()
    links = os.path.join(trial.folder, "links")
    os.makedirs(os.path.join(links, "deep"))
    for name, target in {"absolute": repository.launcher, "relative": "../a repository/splitstore", "deep/chain": "../relative",
                         "-odd name": "absolute", "folder": repository.top}.items():
        os.symlink(target, os.path.join(links, name))
    for name in ("absolute", "relative", "deep/chain", "-odd name", "folder/splitstore", "deep/../relative"):
        expect(f"the launcher through {name}", repository.run(launcher=os.path.join(links, name), folder="/"), printed("/"))
    for launcher, folder in (("./relative", links), ("../relative", os.path.join(links, "deep")), ("./deep/chain", links)):
        expect(f"the launcher as {launcher}", repository.run(launcher=launcher, folder=folder), printed(folder))
    path = f"{links}:{repository.tools}:{os.environ['PATH']}"
    expect("the launcher on the path", repository.run("-c", "cd / && relative trace", launcher="sh", path=path), printed("/", "trace"))
    expect("how often the program was built", repository.builds(), 1)


def expect_build(repository, change, what):
    """Expects that after a change the next run builds the program, and the one after it does not."""
    time.sleep(TICK)
    change()
    builds = repository.builds()
    expect(f"a run {what}", repository.run(), built(repository.top))
    expect(f"the run after a run {what}", repository.run(), printed(repository.top))
    expect(f"the builds {what}", repository.builds(), builds + 1)


@check("the launcher builds again if a source, a specification, a proof, crates.txt or the toolchain is newer, or a file is gone")
def newer(trial):
    repository = Repository(trial)
    repository.run()
    parts = ["crates.txt", "crates/low/src/lib.rt", "crates/low/specs/Lib.antt", "crates/low/proofs/echo/Answers.antt"]
    paths = [os.path.join(repository.top, part) for part in parts]
    for path in paths:
        expect_build(repository, lambda it=path: os.utime(it), f"with a newer {path}")
    # the files of a toolchain that is unpacked have their old times, except that of their change
    expect_build(repository, lambda: os.utime(os.path.join(repository.tools, "rt"), (0, 0)), "with another toolchain")
    expect_build(repository, lambda: os.remove(paths[2]), "without a file that was there")
    expect_build(repository, lambda: os.remove(repository.program), "without the program")
    time.sleep(TICK)
    repository.write("docs/GUIDE.md", "")
    expect("a run with a newer document", repository.run(), printed(repository.top))


@check("the launcher builds again if a source changed while it built")
def changed_meanwhile(trial):
    repository = Repository(trial)
    changes = repository.tool("changes")
    repository.run()
    os.remove(changes)
    expect("the run after a file changed", repository.run(), built(repository.top))
    expect("the run after it", repository.run(), printed(repository.top))


@check("if the program is not proved or built, the launcher ends with status 1 and the place in the log, and tries again the next time")
def failing_build(trial):
    repository = Repository(trial)
    begun = {"fails": BEGIN + b"".join(LIBRARIES.splitlines(keepends=True)[:2]), "breaks": BEGIN + LIBRARIES + END.splitlines(keepends=True)[0]}
    for what, line in (("fails", 2), ("breaks", 5), ("fails", 2)):
        path = repository.tool(what)
        wanted = begun[what] + f"splitstore: the program was not built; the log says why: {repository.log}:{line}\n".encode("utf-8")
        expect(f"a run whose build {what}", repository.run("trace", script="0 open\n"), Ended(1, b"", wanted))
        files = os.listdir(os.path.dirname(repository.program))
        expect_that(not any("begun" in name or "proving" in name for name in files), f"the files beside the program are {files}")
        os.remove(path)
        expect("a run that is proved", repository.run(), built(repository.top))
        time.sleep(TICK)
        os.utime(os.path.join(repository.top, "crates.txt"))


@check("the launcher names each crate as it begins, with its number and how many there are, and in the end the time that it took")
def progress(trial):
    repository = Repository(trial)
    waits = repository.tool("waits")
    path = os.path.join(trial.folder, "progress")
    with open(path, "wb") as err:
        process = Launcher(repository.launcher, repository.environment()).start(repository.top, stderr=err)
        wanted = BEGIN + b"".join(LIBRARIES.splitlines(keepends=True)[:2])
        until = time.monotonic() + SECONDS
        while read_bytes(path) != wanted and time.monotonic() < until:
            time.sleep(TICK)
        came = read_bytes(path)
        os.remove(waits)
        ended = finish(process)
    expect("the progress while the third crate has not begun", came, wanted)
    expect("the status", ended.status, 7)
    came = read_bytes(path)
    expect_that(TIME.search(came), f"the progress ends with the time that it took: {came!r}")
    expect("the progress of all", TIME.sub(b"", came), PROGRESS)


@check("the launcher proves as many crates at once as there are processors that it may use, where there is memory for them")
def processors(trial):
    repository = Repository(trial)
    most = len(os.sched_getaffinity(0))
    with open("/proc/meminfo", encoding="ascii") as file:
        free = int(re.search(r"MemAvailable: +([0-9]+) kB", file.read())[1])
    for count in sorted({1, most}):
        used = sorted(os.sched_getaffinity(0))[:count]
        repository.run(before=[lambda it=used: os.sched_setaffinity(0, it)])
        jobs = int(re.fullmatch(r"all check --jobs ([0-9]+)", repository.calls()[-2])[1])
        # what others take meanwhile is left out of account
        is_ample = free > 2 * 2_000_000 * count
        expect_that(jobs == count if is_ample else 1 <= jobs <= count, f"{jobs} crates at once on {count} processors")
        os.remove(repository.program)
    return f"{most} processors"


@check("if it cannot write its log, the launcher ends with status 1, and runs no program that is older than its sources")
def no_log(trial):
    repository = Repository(trial)
    repository.run()
    os.remove(repository.log)
    os.mkdir(repository.log)
    time.sleep(TICK)
    os.utime(os.path.join(repository.top, "crates.txt"))
    for _ in range(2):
        ended = repository.run("trace")
        expect("the status and the output without a log", (ended.status, ended.out), (1, b""))
        wanted = f"splitstore: no file can be written in {os.path.dirname(repository.program)}\n".encode("utf-8")
        expect_that(ended.err.endswith(wanted), f"standard error without a log is {ended.err!r}")
    expect("how often the program was built", repository.builds(), 1)


def bare_folder(trial, *names):
    """A folder for the path that has no toolchain, but the tools that the launcher needs to run what is built, and these."""
    bare = os.path.join(trial.folder, "bare")
    os.mkdir(bare)
    for name in ("sh", "cat", "dirname", "find", "readlink", "env", *names):
        os.symlink(shutil.which(name), os.path.join(bare, name))
    return bare


@check("without a toolchain the launcher runs a program that is built, and otherwise says that the toolchain is missing")
def no_toolchain(trial):
    repository = Repository(trial)
    bare = bare_folder(trial)
    expect("a run without a toolchain", repository.run(path=bare),
           Ended(1, b"", b"splitstore: the toolchain is missing: there is no rt on the PATH\n"))
    repository.run()
    expect("a run of what is built", repository.run(path=bare), printed(repository.top))


@check("the launcher builds and runs with streams closed, and they are closed for the program too")
def closed_descriptors(trial):
    for number, closed in enumerate([(0,), (1,), (2,), (0, 1), (0, 2), (1, 2), (0, 1, 2)]):
        repository = Repository(trial, f"with {number} closed")
        for what in ("first", "second"):
            ended = repository.run(before=[closing(*closed)])
            expect(f"the status of the {what} run with {closed} closed", ended.status, 7)
            with open(f"{repository.program}.streams", encoding="ascii") as file:
                streams = "".join(str(each) for each in range(3) if each not in closed)
                expect(f"the open streams of the program with {closed} closed", file.read(), f"{streams}\n")
            if 1 not in closed:
                expect(f"standard output of the {what} run with {closed} closed", ended.out, printed(repository.top).out)
            if 2 not in closed and what == "first":
                expect_that(ended.err.startswith(PROGRESS), f"standard error with {closed} closed is {ended.err!r}")
        expect("how often the program was built", repository.builds(), 1)


@check("examples/run shows an example on standard error before the program is built, and the built program's lines alone on standard output")
def examples_before(trial):
    repository = Repository(trial, "a=repository")
    run = os.path.join(repository.top, "examples", "run")
    folder = os.path.dirname(os.path.dirname(repository.program))
    script = {name: read_bytes(os.path.join(TOP, "examples", f"{name}.script")).decode("ascii") for name in ("first", "links")}
    shown = f"tried in {folder} with --data hot-a.log={repository.top}/examples/empty.store -- trace: "
    first = (b"examples/run: running %s in the toolchain's interpreter, which takes half a minute\n",
             b"examples/run: this was the interpreter, and nothing is proved yet; now the program is proved and built, and then runs\n")
    for names, example in (([], "first"), (["links", "first"], "links")):
        ended = repository.run(*names, launcher=run, folder="/")
        lines = first[0] % example.encode("ascii") + f"{shown}{script[example].rstrip()}\n".encode("ascii") + first[1]
        expect(f"standard error of a first run of {names}", ended.err, lines + PROGRESS)
        # this program ends with a status that is not 0, so nothing is run after `init`
        expect(f"status and standard output of a first run of {names}", (ended.status, ended.out[-22:]), (7, b": init mode=discard: \n"))
        ended = repository.run(*names, launcher=run, folder="/")
        expect(f"status and standard error of a later run of {names}", (ended.status, ended.err), (7, b""))
        os.remove(repository.program)
    expect("the calls of the interpreter", [each.split()[0] for each in repository.calls()], ["try", "all", "run"] * 2)


@check("where the interpreter runs nothing, or there is no toolchain, examples/run goes on to the launcher")
def examples_without(trial):
    repository = Repository(trial)
    run = os.path.join(repository.top, "examples", "run")
    repository.tool("tries not")
    ended = repository.run(launcher=run)
    shows = b"examples/run: running first in the toolchain's interpreter, which takes half a minute\n"
    expect("a run that the interpreter refuses", (ended.status, ended.err), (7, shows + PROGRESS))
    os.remove(repository.program)
    bare = bare_folder(trial, "mktemp", "rm")
    ended = repository.run(launcher=run, path=bare)
    expect("a run without a toolchain", ended, Ended(1, b"", b"splitstore: the toolchain is missing: there is no rt on the PATH\n"))
