#!/usr/bin/env python3
"""Measures items from one thread to another, with the program in lanes.rs, which it builds in a copy of the crates: lanes.py [RUNS]

Prints for a lane of a duplex and for a bounded channel of crossbeam_channel, each with 64 places, how many items a second
went through: the most of the runs, 15 if no number is given, and the middle one. The two take turns. A run's time is the
whole program's, from its start to its end.
"""

import os
import shutil
import statistics
import subprocess
import sys
import tempfile
import time

ROOT = os.path.dirname(os.path.dirname(os.path.abspath(__file__)))
ITEMS = 5_000_000
WORK = {
    "lane": "a lane of a duplex",
    "channel": "a channel",
}


def built(room):
    """The program, built in a folder of its own."""
    for name in ("crates", "crates.txt", "HANDLES"):
        source = os.path.join(ROOT, name)
        copy = shutil.copytree if os.path.isdir(source) else shutil.copy
        copy(source, os.path.join(room, name))
    crate = os.path.join(room, "crates", "lanes")
    os.makedirs(os.path.join(crate, "src"))
    shutil.copy(os.path.join(ROOT, "tools", "lanes.rs"), os.path.join(crate, "src", "main.rt"))
    with open(os.path.join(room, "crates.txt"), "a") as crates:
        crates.write("lanes: anyhow duplex crossbeam_channel\n")
    subprocess.run(["rt", "run", "--", "lane"], cwd=crate, check=True, stdout=subprocess.DEVNULL)
    return os.path.join(crate, "out", "lanes")


def run(program, work):
    """Items a second of one run."""
    start = time.perf_counter()
    status = subprocess.run([program, work]).returncode
    if status != 0:
        sys.exit(f"{work} ended with {status}")
    return ITEMS / (time.perf_counter() - start)


def main():
    runs = int(sys.argv[1]) if len(sys.argv) > 1 else 15
    with tempfile.TemporaryDirectory() as room:
        program = built(room)
        rates = {work: [] for work in WORK}
        for _ in range(runs):
            for work in WORK:
                rates[work].append(run(program, work))
        for work, words in WORK.items():
            most, middle = max(rates[work]), statistics.median(rates[work])
            print(f"{words}: {most / 1e6:.2f} million items a second at most, {middle / 1e6:.2f} in the middle run")


main()
