"""The wrong bodies of tests/bodies, as far as no prover is needed."""
import os
import re
import subprocess

from checking import Failed, check, expect_that
from examples import TOP
from stores import SECONDS


@check("each wrong body of tests/bodies applies to the sources")
def wrong_bodies(trial):
    done = subprocess.run([os.path.join(TOP, "tests", "bodies", "run"), "--check"], stdin=subprocess.DEVNULL, stdout=subprocess.PIPE,
                          stderr=subprocess.STDOUT, timeout=SECONDS, cwd=trial.folder, check=False)
    printed = done.stdout.decode("utf-8", errors="replace")
    if done.returncode:
        raise Failed(printed)
    count = re.fullmatch(r"([0-9]+) wrong bodies in [0-9]+ crates\n", printed)
    expect_that(count and int(count[1]) > 0, f"tests/bodies/run --check printed {printed!r}")
    return f"{count[1]} bodies"
