#!/usr/bin/env python3
"""Times the program on modules of 1,024, 4,096 and 16,384 nets, each with an assignment, in random order.

    bench/times.py [PROGRAM]

PROGRAM is crates/nettype_sim/out/nettype_sim where none is named: `rt ci` leaves it, and so does `rt run` in its crate.
It prints one line a size: nets, bytes of the text, seconds (the best of three), and seconds for each net and power of
two. It is no test.
"""
import itertools
import math
import os
import random
import subprocess
import sys
import tempfile
import time

RESERVED = set("bit buf do end for if int nor or ref reg tri var wor".split())
LETTERS = "abcdefghijklmnopqrstuvwxyzABCDEFGHIJKLMNOPQRSTUVWXYZ"


def names(count):
    """Names of three characters, none reserved and none the nettype's."""
    found = []
    for name in itertools.product(LETTERS, LETTERS, LETTERS + "0123456789"):
        name = "".join(name)
        if name not in RESERVED:
            found.append(name)
        if len(found) == count:
            return found


def text(count, rng):
    nets = names(count)
    rng.shuffle(nets)
    items = ["N %s;" % net for net in nets]
    rng.shuffle(nets)
    items += ["assign %s = %d;" % (net, rng.randrange(10 ** 9)) for net in nets]
    return "module top;\nnettype int N;\n%s\nendmodule\n" % "\n".join(items)


def best(program, folder):
    words = [program, "run", "a.sv", "--top", "top", "--until", "0", "--workers", "1"]
    times = []
    for _ in range(3):
        start = time.perf_counter()
        subprocess.run(words, cwd=folder, stdout=subprocess.DEVNULL, check=True)
        times.append(time.perf_counter() - start)
    return min(times)


def main():
    here = os.path.dirname(os.path.abspath(__file__))
    program = os.path.abspath(sys.argv[1] if len(sys.argv) > 1
                              else os.path.join(here, "../crates/nettype_sim/out/nettype_sim"))
    print("%8s %10s %10s %22s" % ("nets", "bytes", "seconds", "ns for each n log2 n"))
    for count in (1024, 4096, 16384):
        with tempfile.TemporaryDirectory() as folder:
            source = text(count, random.Random(count))
            with open(os.path.join(folder, "a.sv"), "w") as f:
                f.write(source)
            seconds = best(program, folder)
        print("%8d %10d %10.3f %22.1f" % (count, len(source), seconds, seconds * 1e9 / (count * math.log2(count))))


main()
