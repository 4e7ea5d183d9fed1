#!/usr/bin/python3
"""Times steps along each axis from all nodes of documents, each beside a document that is four times as long, and the root's
descendants beside a plain loop over the records: bench/axes_ratios.py [RUNS], five runs of each document if no number is given.

It writes the documents itself and runs the proved program `speed_axes` on each in turn, and prints the least time of the runs, in
milliseconds of the processor: `cc` makes a library that gives the program the processor's time where it asks for the clock's.
The kinds: flat (a million empty elements in one), deep (elements 250 deep), wide (20 attributes in each tag), mixed (texts beside
elements and in them), inside (an `xmlns` on each tenth element), plain (700,000 names without prefixes), beside (the same under 1,000
declarations in the root element) and prefixed (as many with prefixes under those).
"""
import os
import re
import subprocess
import sys
import tempfile

UNITS = {"s": 1e3, "ms": 1.0, "µs": 1e-3, "ns": 1e-6}
# memory that was written once is kept, so that long lists pay for the first touch of their pages no more often than short ones
SURROUNDINGS = {**os.environ, "MALLOC_MMAP_MAX_": "0", "MALLOC_TRIM_THRESHOLD_": "8589934592"}
PROCESSOR_CLOCK = """#include <sys/syscall.h>
#include <time.h>
#include <unistd.h>
int clock_gettime(clockid_t clock, struct timespec *now) {
    (void)clock;
    return syscall(SYS_clock_gettime, CLOCK_PROCESS_CPUTIME_ID, now);
}
"""
DECLARATIONS = "".join(f' xmlns:p{i}="urn:{i}"' for i in range(1, 1001))


def deep(elements):
    return "<r>" + "<a>" * 250 + ("</a>" * 240 + "<a>" * 240) * ((elements - 250) // 240) + "</a>" * 250 + "</r>"


def wide(tags):
    attributes = "".join(f' a{i}="{i}"' for i in range(20))
    return "<rows>" + f"<row{attributes}/>" * tags + "</rows>"


def flat(piece, count, opening="<r>"):
    return opening + piece * count + "</r>"


# each kind: the document of so many quarters
STEPS = {
    "flat": lambda n: flat("<b/>", 250_000 * n),
    "deep": lambda n: deep(250_000 * n),
    "wide": lambda n: wide(6_000 * n),
    "mixed": lambda n: flat("<p>one <b>two</b> and <i>three <b>four</b> five</i> six</p>", 25_000 * n),
}
NAMES = {
    "inside": lambda: flat('<item xmlns="u"/>' + "<item/>" * 9, 70_000),
    "plain": lambda: flat("<item/>", 700_000),
    "beside": lambda: flat("<item/>", 700_000, f"<r{DECLARATIONS}>"),
    "prefixed": lambda: flat("<p1000:item/>", 700_000, f"<r{DECLARATIONS}>"),
}


def one_run(program, file):
    """What one run tells: the milliseconds of each line."""
    told = subprocess.run([program, file], check=True, stdout=subprocess.DEVNULL, stderr=subprocess.PIPE, env=SURROUNDINGS, encoding="utf-8").stderr
    return {what: float(number) * UNITS[unit] for what, number, unit in re.findall(r"^(.*?): ([\d.]+)([mµn]?s)\b", told, re.M)}


def least(program, files, runs):
    """The least times of the runs of files, taken in turn."""
    best = [{} for _ in files]
    for _ in range(runs):
        for file, times in zip(files, best):
            for what, took in one_run(program, file).items():
                times[what] = min(took, times.get(what, took))
    return best


def write(folder, name, text):
    file = os.path.join(folder, name)
    with open(file, "w", encoding="ascii") as out:
        out.write(text)
    return file


def main():
    runs = int(sys.argv[1]) if len(sys.argv) > 1 else 5
    top = os.path.dirname(os.path.dirname(os.path.abspath(__file__)))
    crate = os.path.join(top, "crates", "speed_axes")
    subprocess.run(["rt", "run", "--", "data/doc.xml"], cwd=crate, check=True, stdout=subprocess.DEVNULL)
    program = os.path.join(crate, "out", "speed_axes")
    with tempfile.TemporaryDirectory() as folder:
        clock = os.path.join(folder, "clock.so")
        subprocess.run(["cc", "-O2", "-shared", "-fPIC", "-o", clock, write(folder, "clock.c", PROCESSOR_CLOCK)], check=True)
        SURROUNDINGS["LD_PRELOAD"] = clock
        for kind, make in STEPS.items():
            files = [write(folder, f"{kind}{n}", make(n)) for n in (1, 4)]
            once, four = least(program, files, runs)
            for what in once:
                if what.endswith(" from all nodes"):
                    print(f"{kind}: {what}: {once[what]:.2f} and {four[what]:.2f}, {four[what] / once[what]:.2f} times")
            loop = four["plain loop"]
            for what in ("node()", "*", "none"):
                print(f"{kind}: {what}: {four[what]:.2f}, {four[what] / loop:.2f} of the plain loop")
        files = [write(folder, kind, make()) for kind, make in NAMES.items()]
        for kind, times in zip(NAMES, least(program, files, runs)):
            for what in ("plain loop", "node()", "*", "item", "none"):
                print(f"{kind}: {what}: {times[what]:.2f}, {times[what] / times['plain loop']:.2f} of the plain loop")


if __name__ == "__main__":
    main()
