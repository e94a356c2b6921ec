#!/usr/bin/env python3
"""Measures a built player on long scenarios: measure.py PLAYER [RUNS]

16 processes hold each tab. In the first kind of scenario every step is a set, so that each bundle waits at the end;
in the second the first 70 of 100 steps are a set, then come takes and some shows; in the third processes and the parent
write in turn, and all is settled after every ten writes. Prints the least processor time
(user and system) of the runs, 15 if no number is given, and the peak of resident memory. That is told from some 15 MB
on, which this script takes itself.

Then each process makes frames below its four of 64 tabs, as many as the table says, and all is settled, so that each side has
all of them; in turn in the tabs, or each in the frame before. Where all is shown, it is shown once, behind the settling, and
the table tells how many bytes are written.
"""

import json
import os
import sys
import tempfile

PROCESSES = 16
TABS = 64
VALUES = [
    {"Muted": True},
    {"Name": "a page"},
    {"DisplayMode": 2},
    {"SandboxFlags": 7, "Loading": True},
]


def set_step(i, tabs):
    return {"at": "parent", "do": "set", "context": f"c0.{i % tabs + 1}", "fields": VALUES[i % len(VALUES)]}


def mixed_step(i, tabs):
    if i % 100 < 70:
        return set_step(i, tabs)
    if i % 10 < 8:
        return {"at": i % PROCESSES, "do": "take"}
    return {"at": i % PROCESSES, "do": "show", "context": f"c0.{i % tabs + 1}", "field": "Name"}


def writers_step(i, tabs):
    if i % 11 == 10:
        return {"do": "settle"}
    at = "parent" if i % 2 else i % PROCESSES
    return {"at": at, "do": "set", "context": f"c0.{i % tabs + 1}", "fields": {"DisplayMode": i % 4}}


def others(owner):
    return [p for p in range(PROCESSES) if p != owner]


def scenario(step, count, tabs):
    return json.dumps({
        "version": 1,
        "processes": ["web"] * PROCESSES,
        "tabs": [{"owner": 0, "also": others(0)}] * tabs,
        "steps": [step(i, tabs) for i in range(count)],
    })


def frame_step(p, i, is_deep):
    """Frame number i of a process, from 0 on: in one of its tabs, in turn, or in its frame before."""
    above = f"c{p + 1}.{i}" if is_deep and i > 0 else f"c0.{p + 1 + i % (TABS // PROCESSES) * PROCESSES}"
    return {"at": p, "do": "frame", "context": above}


def frames(each, is_deep, is_shown):
    steps = [frame_step(p, i, is_deep) for i in range(each) for p in range(PROCESSES)]
    steps.append({"do": "settle"})
    if is_shown:
        steps.append({"do": "show"})
    return json.dumps({
        "version": 1,
        "processes": ["web"] * PROCESSES,
        "tabs": [{"owner": i % PROCESSES, "also": others(i % PROCESSES)} for i in range(TABS)],
        "steps": steps,
    })


def run(player, path, written=os.devnull):
    """The processor time of one run in ms, and its peak memory in MB."""
    child = os.fork()
    if child == 0:
        os.dup2(os.open(path, os.O_RDONLY), 0)
        os.dup2(os.open(written, os.O_WRONLY), 1)
        os.execv(player, [player, "play"])
    _, status, used = os.wait4(child, 0)
    if status != 0:
        sys.exit(f"{player} ended with {os.waitstatus_to_exitcode(status)}")
    return (used.ru_utime + used.ru_stime) * 1000, used.ru_maxrss / 1024


def least(player, runs, text):
    with tempfile.NamedTemporaryFile("w", suffix=".json") as file:
        file.write(text)
        file.flush()
        figures = [run(player, file.name) for _ in range(runs)]
    return f"{min(time for time, _ in figures):.0f} ms, {max(memory for _, memory in figures):.0f} MB"


def bytes_written(player, text):
    with tempfile.NamedTemporaryFile("w", suffix=".json") as file, tempfile.NamedTemporaryFile() as written:
        file.write(text)
        file.flush()
        run(player, file.name, written.name)
        return os.path.getsize(written.name)


def main():
    if len(sys.argv) < 2:
        sys.exit("usage: measure.py PLAYER [RUNS]")
    player = sys.argv[1]
    runs = int(sys.argv[2]) if len(sys.argv) > 2 else 15
    print("| steps | tabs | sets alone | most bundles wait long | writers, settled |")
    print("|---|---|---|---|---|")
    for tabs in (1, 64):
        for count in (5000, 10000, 20000):
            texts = [scenario(step, count, tabs) for step in (set_step, mixed_step, writers_step)]
            print(f"| {count:,} | {tabs} | {' | '.join(least(player, runs, text) for text in texts)} |", flush=True)
    print()
    print("| frames of each process | contexts | in the tabs | each in the one before | and all shown | bytes written |")
    print("|---|---|---|---|---|---|")
    for each in (60, 120, 240):
        shown = frames(each, False, True)
        texts = [frames(each, False, False), frames(each, True, False), shown]
        cells = " | ".join(least(player, runs, text) for text in texts)
        count = TABS + PROCESSES * each
        print(f"| {each} | {count:,} | {cells} | {bytes_written(player, shown):,} |", flush=True)


main()
