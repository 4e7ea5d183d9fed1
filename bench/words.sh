#!/usr/bin/env bash
# Times a scan of the records of a generated document in memory and in borrowed bytes, both in one run, and prints the best of
# three runs: bench/words.sh [MEGABYTES], 25 if no number is given, which is 10 million records
set -eu
top=$(cd "$(dirname "$0")/.." && pwd)
megabytes=${1:-25}
folder=$(mktemp -d)
trap 'rm -rf "$folder"' EXIT
(cd "$top/crates/speed" && rt run -- words data/doc.xml > /dev/null)
"$top/bench/document.sh" records "$megabytes" > "$folder/document.xml"
python3 - "$top/crates/speed/out/speed" "$folder/document.xml" <<'PY'
import re, subprocess, sys

program, document = sys.argv[1:]
UNITS = {"ns": 1e-9, "µs": 1e-6, "ms": 1e-3, "s": 1}


def measured():
    """The records, and the seconds of both scans of one run."""
    run = subprocess.run([program, "words", document], capture_output=True, text=True, check=True)
    count = int(re.search(r"words (\d+), same true", run.stdout)[1])
    times = re.findall(r"(?:memory|bytes) ([0-9.]+)(ns|µs|ms|s)", run.stderr)
    return count, [float(number) * UNITS[unit] for number, unit in times]


runs = [measured() for _ in range(3)]
held, lent = (min(times) for times in zip(*(seconds for _, seconds in runs)))
print(f"{runs[0][0]} records: in memory {held / runs[0][0] * 1e9:.2f} ns, in borrowed bytes {lent / runs[0][0] * 1e9:.2f} ns a word: {lent / held:.2f}")
PY
