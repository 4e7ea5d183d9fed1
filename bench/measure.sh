#!/usr/bin/env bash
# Times the program on generated documents, each beside xmllint (Debian's libxml2-utils; skipped where it is missing), in one
# run, and tells the program's peak memory: bench/measure.sh [MEGABYTES [RUNS [KIND..]]]
set -eu
top=$(cd "$(dirname "$0")/.." && pwd)
megabytes=${1:-100}
runs=${2:-3}
kinds=${*:3}
kinds=${kinds:-orders text attributes accented elements records}
folder=$(mktemp -d)
trap 'rm -rf "$folder"' EXIT
: > "$folder/empty"
printf 'elements\n' > "$folder/listing"
printf '<a/>' > "$folder/small.xml"
"$top/vtd" "$folder/small.xml" < /dev/null
for kind in $kinds; do
    "$top/bench/document.sh" "$kind" "$megabytes" > "$folder/$kind.xml"
    python3 - "$top/crates/vtd_program/out/vtd_program" "$folder" "$kind" "$runs" <<'PY'
import os, shutil, subprocess, sys, time
program, folder, kind, runs = sys.argv[1:]
document = f"{folder}/{kind}.xml"
size = os.path.getsize(document)

def best(command, script):
    """The least seconds of the runs, the status and the peak memory in bytes."""
    least, peak, status = None, 0, None
    for _ in range(int(runs)):
        start = time.monotonic()
        child = subprocess.Popen(command, stdin=open(script), stdout=subprocess.DEVNULL)
        _, wait_status, usage = os.wait4(child.pid, 0)
        seconds = time.monotonic() - start
        status = os.waitstatus_to_exitcode(wait_status)
        least = seconds if least is None else min(least, seconds)
        peak = max(peak, usage.ru_maxrss * 1024)
    return least, status, peak

plain, status, peak = best([program, document], f"{folder}/empty")
listing, _, listing_peak = best([program, document], f"{folder}/listing")
line = (f"{kind}: {size} bytes, status {status}, empty script {plain:.2f} s ({size / plain / 1e6:.0f} MB/s, {peak / size:.1f} bytes a byte), "
        f"elements {listing:.2f} s ({listing_peak / size:.1f} bytes a byte)")
if shutil.which("xmllint"):
    other, other_status, _ = best(["xmllint", "--noout", "--huge", document], f"{folder}/empty")
    line += f", xmllint {other:.2f} s (status {other_status}, {other / plain:.1f} times as long)"
print(line)
PY
    rm -f "$folder/$kind.xml"
done
