#!/usr/bin/env bash
# Times XPath's values by the proved program `speed_values`, and prints the best of five runs each: `=` of two node-sets of
# texts of 20 bytes at four sizes, each twice the one before it, and at one of them of texts of one hash; the sum of a million numbers
# beside a loop over the same records that adds their digits; and functions on a text of a megabyte beside `append_to`: bench/values.sh
set -eu
top=$(cd "$(dirname "$0")/.." && pwd)
(cd "$top/crates/speed_values" && rt run -- all 3 200 > /dev/null)
folder=$(mktemp -d)
trap 'rm -rf "$folder"' EXIT
"$top/bench/equal_hashes.py" 100000 > "$folder/equal.xml"
python3 - "$top/crates/speed_values/out/speed_values" "$folder/equal.xml" <<'PY'
import re, subprocess, sys

program, equal_hashes = sys.argv[1:]
UNITS = {"ns": 1e-9, "µs": 1e-6, "ms": 1e-3, "s": 1}
TIME = r"([0-9.]+)(ns|µs|ms|s)\b"


def best(words, patterns):
    """The least seconds of five runs for each of the patterns."""
    least = [float("inf")] * len(patterns)
    for _ in range(5):
        run = subprocess.run([program, *words], capture_output=True, text=True, check=True)
        for index, pattern in enumerate(patterns):
            number, unit = re.search(pattern + TIME, run.stderr).groups()
            least[index] = min(least[index], float(number) * UNITS[unit])
    return least


before = None
for count in (50_000, 100_000, 200_000, 400_000):
    [equal] = best(["sets", str(count)], ["sets: "])
    grown = f", {equal / before:.2f} times as long" if before else ""
    print(f"= of two sets of {count} texts: {equal:.4f} s{grown}")
    before = equal
[equal] = best(["halves", equal_hashes], ["sets: "])
print(f"= of two sets of 100000 texts, all of one hash: {equal:.4f} s")
total, looped = best(["sums", "1000000"], ["sum ", "loop "])
print(f"sum of a million numbers: {total:.4f} s, the loop {looped:.4f} s: {total / looped:.2f} times as long")
functions = ["append_to", "normalize_space", "translate", "substring_before"]
times = best(["texts", "1000000"], [f"texts: {function} " for function in functions])
for function, seconds in zip(functions, times):
    print(f"{function}: {20e6 / seconds / 1e6:.0f} MB/s, {times[0] / seconds:.2f} of append_to's speed")
PY
