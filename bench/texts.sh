#!/usr/bin/env bash
# Times `append_to` of the texts of four generated documents, beside a plain copy of as many bytes, both in one run, and a count of
# their code points by `Chars`, and prints the best of three runs: bench/texts.sh [MEGABYTES], 50 if no number is given
set -eu
top=$(cd "$(dirname "$0")/.." && pwd)
megabytes=${1:-50}
folder=$(mktemp -d)
trap 'rm -rf "$folder"' EXIT
(cd "$top/crates/speed" && rt run -- texts data/doc.xml > /dev/null)
for kind in text single references returns; do
    "$top/bench/document.sh" "$kind" "$megabytes" > "$folder/document.xml"
    python3 - "$top/crates/speed/out/speed" "$folder/document.xml" "$kind" <<'PY'
import re, subprocess, sys

program, document, kind = sys.argv[1:]
UNITS = {"ns": 1e-9, "µs": 1e-6, "ms": 1e-3, "s": 1}


def measured():
    """The bytes and the seconds of one run, a pair of append and copy for each kind of memory."""
    run = subprocess.run([program, "texts", document], capture_output=True, text=True, check=True)
    lengths = re.findall(r"(\w+) memory: bytes (\d+), same true", run.stdout)
    times = re.findall(r"(\w+) memory: append ([0-9.]+)(ns|µs|ms|s), copy ([0-9.]+)(ns|µs|ms|s)", run.stderr)
    seconds = {memory: (float(append) * UNITS[one], float(copy) * UNITS[other]) for memory, append, one, copy, other in times}
    counted = re.search(r"counted: ([0-9.]+)(ns|µs|ms|s)", run.stderr)
    return {memory: int(length) for memory, length in lengths}, seconds, float(counted[1]) * UNITS[counted[2]]


runs = [measured() for _ in range(3)]
for memory, length in runs[0][0].items():
    append, copy = (min(times) for times in zip(*(seconds[memory] for _, seconds, _ in runs)))
    print(f"{kind}, {memory} memory: append {length / append / 1e6:.0f} MB/s, copy {length / copy / 1e6:.0f} MB/s: "
          f"{copy / append:.2f} of the copy's speed")
least = min(counted for _, _, counted in runs)
print(f"{kind}: counted in {least:.3f} s, {max(runs[0][0].values()) / least / 1e6:.0f} MB/s")
PY
done
