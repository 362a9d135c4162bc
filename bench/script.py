"""Reading a script, against a program that splits the same text and decodes the same hexadecimal, and does no more.

The script puts blocks, 256 at a time; its last line is bad, so the store reads and judges all of it and ends before it
opens anything. Starting the program is subtracted, by a script of the bad line alone. The other program is compiled from
`peers/script.cc`; an empty script is subtracted of its time.

Run by `bench/run script`.
"""
import os
import shutil
import subprocess
import sys

from store import BAD, BAD_STATUS, HERE, in_batches, made
from timing import best, new_store, put_line, shown, trace

BLOCKS, BATCH = 15_000, 256
MOST = 2.5


def write(path, text):
    with open(path, "w", encoding="ascii") as file:
        file.write(text)
    return path


def main(folder):
    if not shutil.which("g++"):
        sys.exit("script needs g++")
    program = os.path.join(folder, "script")
    subprocess.run(["g++", "-O2", "-std=c++17", "-o", program, os.path.join(HERE, "peers", "script.cc")], check=True)
    store = new_store(os.path.join(folder, "scripts"))
    lines = "".join(map(put_line, in_batches(made(BLOCKS), BATCH)))
    puts = write(os.path.join(folder, "script-puts"), "0 open\n" + lines)
    judged = write(os.path.join(folder, "script-judged"), "0 open\n" + lines + BAD)
    start = write(os.path.join(folder, "script-start"), BAD)
    ours, ours_start, theirs, theirs_start = best([
        trace(judged, store, BAD_STATUS), trace(start, store, BAD_STATUS),
        ([program, puts], os.devnull, folder), ([program, os.devnull], os.devnull, folder)])
    print(f"a script of {os.path.getsize(puts):,} bytes read: {shown(ours - ours_start)}; the other program "
          f"{shown(theirs - theirs_start)}; ratio {(ours - ours_start) / (theirs - theirs_start):.2f} "
          f"(wanted: at most {MOST})")


if __name__ == "__main__":
    main(sys.argv[1])
