#!/usr/bin/env python3
"""What the gate costs, crate by crate. Runs `rt ci`, and adds up the processor seconds of the provers that it starts: of
each crate's proof, of the proof of its tests, and of its edits that must fail. (The log of `rt ci` tells no times, and its
crates run side by side, so that the clock would tell little.)

    bench/gate.py [--write] [NAME..]

It passes on what `rt ci NAME..` says, then prints a table, and ends with the status of `rt ci`. A crate that `rt ci` keeps
of an earlier run has no row. With --write the rows go into docs/SPEED.md, where those of other crates stay as they are.
"""

import datetime
import os
import pathlib
import re
import subprocess
import sys
import threading

TOP = pathlib.Path(__file__).resolve().parent.parent
PAGE = TOP / "docs/SPEED.md"
TICKS = os.sysconf("SC_CLK_TCK")
HEAD = "| Crate | Lines of `src/` | Proof | Tests | Edits | Measured |\n|---|---|---|---|---|---|\n"


def processes():
    """Returns the parent and the processor seconds of each process that there is."""
    found = {}
    for name in os.listdir("/proc"):
        if name.isdigit():
            try:
                stat = pathlib.Path(f"/proc/{name}/stat").read_text().rpartition(")")[2].split()
            except OSError:
                continue
            found[int(name)] = int(stat[1]), (int(stat[11]) + int(stat[12])) / TICKS
    return found


def work_of(pid):
    """Returns the crate and the part of the gate at which a process works, or None if it is no prover."""
    try:
        words = pathlib.Path(f"/proc/{pid}/cmdline").read_bytes().decode(errors="replace").split("\0")
        folder = os.readlink(f"/proc/{pid}/cwd")
    except OSError:
        return None
    if "--crate-name" not in words:
        return None
    crate = words[words.index("--crate-name") + 1]
    if "--test" in words:
        return crate, "tests"
    if "/rt-edit" in folder or any("/rt-edit" in it for it in words):
        return crate, "edits"
    return crate, "proof"


class Meter:
    """Adds up what the processes below one cost, by looking twice a second."""

    def __init__(self, root):
        self.root, self.works, self.seconds, self.ended = root, {}, {}, threading.Event()
        self.thread = threading.Thread(target=self.look_often)
        self.thread.start()

    def look_often(self):
        while not self.ended.wait(0.5):
            found = processes()
            below = {self.root}
            while True:
                more = {pid for pid, (parent, _) in found.items() if parent in below and pid not in below}
                if not more:
                    break
                below |= more
            for pid in below & found.keys():
                if not self.works.get(pid):
                    self.works[pid] = work_of(pid)
                self.seconds[pid] = found[pid][1]

    def stop(self):
        """Returns the seconds of each crate's parts."""
        self.ended.set()
        self.thread.join()
        costs = {}
        for pid, work in self.works.items():
            if work:
                part = costs.setdefault(work[0], {"proof": 0, "tests": 0, "edits": 0})
                part[work[1]] += self.seconds[pid]
        return costs


def crates():
    """Returns the names of crates.txt, lowest first."""
    lines = (it.partition("#")[0] for it in (TOP / "crates.txt").read_text().splitlines())
    return [it.partition(":")[0].split()[0] for it in lines if ":" in it]


def row_of(name, cost):
    lines = sum(it.read_text().count("\n") for it in (TOP / f"crates/{name}/src").glob("**/*.rt"))
    parts = " | ".join(f"{cost[it]:.0f}" if cost[it] else "" for it in ("proof", "tests", "edits"))
    return f"| `{name}` | {lines} | {parts} | {datetime.date.today()} |\n"


def table_of(rows):
    """Returns the table, with the sums of what stands in it."""
    sums = [sum(int(it.split("|")[at].strip() or 0) for it in rows) for at in (2, 3, 4, 5)]
    return f"{HEAD}{''.join(rows)}| all | {' | '.join(map(str, sums))} | |\n"


def main():
    names = [it for it in sys.argv[1:] if it != "--write"]
    gate = subprocess.Popen(["rt", "ci", *names], cwd=TOP, stdin=subprocess.DEVNULL)
    meter = Meter(gate.pid)
    status = gate.wait()
    costs = {name: cost for name, cost in meter.stop().items() if cost["proof"]}
    rows = {name: row_of(name, costs[name]) for name in crates() if name in costs}
    print("processor seconds:\n" + table_of(list(rows.values())), flush=True)
    if "--write" in sys.argv[1:]:
        page = PAGE.read_text()
        front, old, rest = re.fullmatch(r"(.*<!-- gate -->\n)(.*)(<!-- /gate -->.*)", page, re.S).groups()
        kept = {it[1]: it[0] for it in re.finditer(r"^\| `(\w+)` .*\n", old, re.M)}
        rows = {**kept, **rows}
        PAGE.write_text(front + table_of([rows[it] for it in crates() if it in rows]) + rest)
    return status


sys.exit(main())
