#!/usr/bin/env bash
# Times `next_item` to the end of three generated documents and `check` of them, beside a plain sum of their bytes, a count of
# their `<` by memchr and a check of UTF-8, all in one run, and prints the best of three runs: bench/items.sh [MEGABYTES]
set -eu
top=$(cd "$(dirname "$0")/.." && pwd)
megabytes=${1:-100}
folder=$(mktemp -d)
trap 'rm -rf "$folder"' EXIT
(cd "$top/crates/speed" && rt run -- items data/doc.xml > /dev/null)
for kind in text orders accented; do
    "$top/bench/document.sh" "$kind" "$megabytes" > "$folder/document.xml"
    python3 - "$top/crates/speed/out/speed" "$folder/document.xml" "$kind" <<'PY'
import os, re, subprocess, sys

program, document, kind = sys.argv[1:]


def seconds(line):
    """The times of one run: the sum, the count, the check of UTF-8, the items and `check`."""
    units = {"ns": 1e-9, "µs": 1e-6, "ms": 1e-3, "s": 1}
    return [float(number) * units[unit] for number, unit in re.findall(r"([0-9.]+)(ns|µs|ms|s)", line)]


runs = [seconds(subprocess.run([program, "items", document], capture_output=True, text=True, check=True).stderr) for _ in range(3)]
total, count, utf8, items, check = (min(times) for times in zip(*runs))
rate = os.path.getsize(document) / 1e6
print(f"{kind}: sum {rate / total:.0f} MB/s, count {rate / count:.0f} MB/s, UTF-8 {rate / utf8:.0f} MB/s, "
      f"items {rate / items:.0f} MB/s: 1/{items / total:.1f} of the sum, 1/{items / count:.1f} of the count, "
      f"check {rate / check:.0f} MB/s: 1/{check / total:.1f} of the sum, 1/{check / count:.1f} of the count")
PY
done
