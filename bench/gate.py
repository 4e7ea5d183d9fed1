#!/usr/bin/env python3
"""Runs the whole gate from nothing and prints, for each crate, the processor minutes of its proof, its tests' proof and
its wrong bodies, as a table for docs/PERFORMANCE.md.

    bench/gate.py [LOG]         runs `rt ci` at the top, its output into LOG (gate.log if left out)
    bench/gate.py --watch PID   watches a gate that runs already

The prover's processes are looked at once a second under /proc; a process counts with its children, up to the last look.
"""
import os
import re
import subprocess
import sys
import time

TICKS = os.sysconf("SC_CLK_TCK")
PARTS = ("proof", "tests", "wrong bodies")


def processes():
    for name in os.listdir("/proc"):
        if name.isdigit():
            try:
                with open(f"/proc/{name}/stat") as file:
                    fields = file.read().rpartition(")")[2].split()
                with open(f"/proc/{name}/cmdline", "rb") as file:
                    words = file.read().decode(errors="replace").split("\0")
                folder = os.readlink(f"/proc/{name}/cwd")
            except OSError:
                continue
            # the parent; user and system time, also of the children that have ended; the start
            yield int(name), int(fields[1]), sum(map(int, fields[11:15])), fields[19], words, folder


def part_of(words, folder):
    if "--test" in words:
        return "tests"
    return "wrong bodies" if "/rt-edit-" in folder or "--incremental" in words else "proof"


def is_below(pid, top, parents):
    while pid and pid != top:
        pid = parents.get(pid, 0)
    return pid == top


def look(top, seen):
    rows = list(processes())
    parents = {pid: parent for pid, parent, *_ in rows}
    for pid, _, ticks, start, words, folder in rows:
        if not is_below(pid, top, parents) or not words[0].endswith(("/rattle", "/antt")):
            continue
        found = re.search(r"--crate-name (\w+)", " ".join(words))
        if found:
            seen[pid, start] = found[1], part_of(words, folder), ticks / TICKS / 60


def watch(top, is_over):
    seen = {}
    while not is_over():
        look(top, seen)
        time.sleep(1)
    return seen


def print_table(seen, elapsed):
    table, longest = {}, {}
    for crate, part, minutes in seen.values():
        row = table.setdefault(crate, dict.fromkeys(PARTS, 0.0))
        row[part] += minutes
        longest[crate] = max(longest.get(crate, 0.0), minutes)
    print("| Crate | Proof | Tests | Wrong bodies | Together | Longest process |\n|---|---|---|---|---|---|")
    for crate, row in sorted(table.items(), key=lambda it: -sum(it[1].values())):
        print(f"| `{crate}` |", " | ".join(f"{row[it]:.1f}" for it in PARTS), f"| {sum(row.values()):.1f} | {longest[crate]:.1f} |")
    sums = [sum(row[it] for row in table.values()) for it in PARTS]
    print("| all |", " | ".join(f"{it:.1f}" for it in sums), f"| {sum(sums):.1f} | {max(longest.values(), default=0):.1f} |")
    print(f"\n{elapsed / 60:.1f} minutes by the clock, {os.cpu_count()} processors")


def main():
    began = time.time()
    if sys.argv[1:2] == ["--watch"]:
        top = int(sys.argv[2])
        seen = watch(top, lambda: not os.path.exists(f"/proc/{top}"))
        status = 0
    else:
        with open(sys.argv[1] if sys.argv[1:] else "gate.log", "w") as log:
            gate = subprocess.Popen(["rt", "ci"], stdout=log, stderr=subprocess.STDOUT)
            seen = watch(gate.pid, lambda: gate.poll() is not None)
            status = gate.returncode
    print_table(seen, time.time() - began)
    return status


if __name__ == "__main__":
    sys.exit(main())
