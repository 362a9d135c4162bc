"""Times commands against each other, in turns, and keeps the best run of each."""
import os
import subprocess
import sys
import time

RUNS = int(os.environ.get("RUNS", "20"))

TOP = os.path.dirname(os.path.dirname(os.path.abspath(__file__)))
LAUNCHER = os.path.join(TOP, "splitstore")
PROGRAM = os.path.join(TOP, "crates", "splitstore", "out", "splitstore")


def run(words, source, folder):
    """What the command prints in a folder, given a file as its input."""
    with open(source, "rb") as file:
        done = subprocess.run(words, stdin=file, stdout=subprocess.PIPE, cwd=folder, check=False)
    if done.returncode != 0:
        sys.exit(f"{words[0]} ended with status {done.returncode}: {done.stdout[:200]!r}")
    return done.stdout


def seconds(words, source, folder, status=0):
    """How long one run of the command takes, which is to end with this status."""
    with open(source, "rb") as file:
        start = time.perf_counter()
        done = subprocess.run(words, stdin=file, stdout=subprocess.DEVNULL, cwd=folder, check=False)
        took = time.perf_counter() - start
    if done.returncode != status:
        sys.exit(f"{words[0]} ended with status {done.returncode} on {source}")
    return took


def best(commands):
    """The best of RUNS runs of each command: its words, its input, the folder that it runs in, and perhaps its status."""
    times = [float("inf")] * len(commands)
    for _ in range(RUNS):
        for place, command in enumerate(commands):
            times[place] = min(times[place], seconds(*command))
    return times


def new_store(folder):
    """Makes a folder with a store in which nothing is kept."""
    os.mkdir(folder)
    # the launcher builds the program where it is not built yet
    run([LAUNCHER, "init", "mode=discard"], os.devnull, folder)
    return folder


def put_line(pairs):
    """The line that puts these pairs of a CID and data."""
    fields = [f"{cid.hex()} {data.hex() or '-'}" for cid, data in pairs]
    return " ".join(["0 put 0", *fields]) + "\n"


def put_script(path, pairs, store, answer):
    """Writes a script that puts these pairs at once, and sees to it that the store gives this answer to the put."""
    with open(path, "w", encoding="ascii") as file:
        file.write("0 open\n" + put_line(pairs))
    wanted = f"1 0 1 open = opened 0\n2 0 2 put 0 = {answer}\n".encode("ascii")
    if run([PROGRAM, "trace"], path, store) != wanted:
        sys.exit(f"{path}: the store does not answer {answer}")


def trace(path, store, status=0):
    """The command that runs a script on a store; without the launcher, whose time would count."""
    return ([PROGRAM, "trace"], path, store, status)


def shown(time_of):
    return f"{1000 * time_of:.2f} ms"
