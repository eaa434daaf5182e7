#!/usr/bin/env python3
"""Times how long a function takes whose loop has 60,000 turns: the program of crates/nt_call_show, which `rt ci` or `rt run`
in that crate's folder leaves in its out/, on 20 calls of `sum` with so many turns and on 20 with none."""

import pathlib
import subprocess
import sys
import time

PROGRAM = pathlib.Path(__file__).resolve().parent.parent / "crates/nt_call_show/out/nt_call_show"
CALLS = 20


def seconds(turns):
    """The least of five runs, for one call."""
    text = f"sum {turns}\n" * CALLS
    least = None
    for _ in range(5):
        begun = time.perf_counter()
        done = subprocess.run([PROGRAM], input=text, capture_output=True, text=True, check=True)
        took = time.perf_counter() - begun
        least = took if least is None else min(least, took)
    wanted = f"sum {turns} => {turns * (turns - 1) // 2}"
    if done.stdout.splitlines() != [wanted] * CALLS:
        sys.exit(f"not {wanted}")
    return least / CALLS


if not PROGRAM.exists():
    sys.exit(f"{PROGRAM} is not there")
none = seconds(0)
for turns in (15000, 30000, 60000):
    print(f"{turns} turns: {1000 * (seconds(turns) - none):.1f} ms")
