#!/usr/bin/env python3
"""Measures the crates under the cores, with the program in costs.rs, which it builds in a copy of the crates: costs.py [RUNS]

Prints for each work the least and the median processor time (user and system) of the runs, 15 if no number is given, and
the peak of resident memory. That is told from some 15 MB on, which this script takes itself.
"""

import os
import shutil
import statistics
import subprocess
import sys
import tempfile

ROOT = os.path.dirname(os.path.dirname(os.path.abspath(__file__)))
WORK = {
    "flat": "17 trees of 4,080 contexts, all in one",
    "deep": "17 trees of 4,080 contexts, each in the one before",
    "spread": "17 trees of 4,080 contexts, in 17 top-level ones in turn",
    "list": "100,000 overlays over 4,080 contexts, in a list",
    "slab": "100,000 overlays over 4,080 contexts, in a slab",
}


def built(room):
    """The program, built in a folder of its own."""
    for name in ("crates", "crates.txt", "HANDLES"):
        source = os.path.join(ROOT, name)
        copy = shutil.copytree if os.path.isdir(source) else shutil.copy
        copy(source, os.path.join(room, name))
    crate = os.path.join(room, "crates", "costs")
    os.makedirs(os.path.join(crate, "src"))
    shutil.copy(os.path.join(ROOT, "tools", "costs.rs"), os.path.join(crate, "src", "main.rt"))
    with open(os.path.join(room, "crates.txt"), "a") as crates:
        crates.write("costs: anyhow fission_ids field_table transaction context_tree context_store\n")
    subprocess.run(["rt", "run", "--", "flat"], cwd=crate, check=True, stdout=subprocess.DEVNULL)
    return os.path.join(crate, "out", "costs")


def run(program, work):
    """The processor time of one run in ms, and its peak memory in MB."""
    child = os.fork()
    if child == 0:
        os.execv(program, [program, work])
    _, status, used = os.wait4(child, 0)
    if status != 0:
        sys.exit(f"{work} ended with {os.waitstatus_to_exitcode(status)}")
    return (used.ru_utime + used.ru_stime) * 1000, used.ru_maxrss / 1024


def main():
    runs = int(sys.argv[1]) if len(sys.argv) > 1 else 15
    with tempfile.TemporaryDirectory() as room:
        program = built(room)
        for work, words in WORK.items():
            times, peaks = zip(*(run(program, work) for _ in range(runs)))
            print(f"{words}: {min(times):.0f} ms, median {statistics.median(times):.0f} ms, {max(peaks):.0f} MB")


main()
