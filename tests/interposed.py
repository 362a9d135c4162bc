"""Runs of the program with the library of `interposed.c`, which makes chosen calls of the system fail and writes down all.

The library is built where there is a C compiler; else the checks that need it are skipped.
"""
import dataclasses
import functools
import os
import shlex
import shutil
import subprocess
import tempfile

from checking import Skipped
from stores import written

SOURCE = os.path.join(os.path.dirname(os.path.abspath(__file__)), "interposed.c")

# The errors by which a call moves one byte alone, and none.
ONE_BYTE, NO_BYTE = 0, 4096


@dataclasses.dataclass(frozen=True)
class Made:
    """A call that was made: on which file, at which offset, for how many bytes, and its result, an error below 0."""
    call: str
    file: str
    at: int
    length: int
    result: int


@functools.lru_cache(maxsize=None)
def library():
    """The path of the library, which is built once and removed when this program ends."""
    compiler = shlex.split(os.environ.get("CC", "cc"))
    if not shutil.which(compiler[0]):
        raise Skipped(f"there is no C compiler {compiler[0]}")
    folder = tempfile.TemporaryDirectory(prefix="splitstore-interposed-")
    path = os.path.join(folder.name, "interposed.so")
    command = [*compiler, "-shared", "-fPIC", "-O2", "-o", path, SOURCE]
    built = subprocess.run(command, stdin=subprocess.DEVNULL, stdout=subprocess.PIPE, stderr=subprocess.STDOUT, check=False)
    if built.returncode != 0:
        raise Skipped(f"interposed.c does not compile: {built.stdout.decode(errors='replace')[:500]}")
    library.folder = folder
    return path


def run(trial, folder, *arguments, script="", rules=()):
    """Runs the program with the library, and gives how it ended and the calls that it made.

    A rule is a call, a file, the number of the call on that file from 1, and the error that it is to end with.
    """
    log = os.path.join(trial.folder, "calls")
    program = trial.program.with_environment(
        LD_PRELOAD=library(), INTERPOSED_LOG=log, INTERPOSED_FAIL=",".join(" ".join(map(str, rule)) for rule in rules))
    # each run reads the same pieces of a file, which is not so of a pipe
    ended = program.run_on(written(trial, script), folder, *arguments)
    with open(log, encoding="utf-8") as file:
        made = [Made(call, name, *map(int, numbers)) for call, name, *numbers in map(str.split, file)]
    os.remove(log)
    return ended, made


def on(made, file, *calls):
    """Those of the calls that were made on a file."""
    return [each for each in made if each.file == file and each.call in calls]
