#!/usr/bin/env bash
# Runs the program on the longest document that it takes, of 1,073,741,823 bytes, which is one element around one text, and
# on one with a byte more, which is refused as `file-long`; it prints the status, the time and the peak memory of both:
# bench/longest.sh [PROGRAM], the proved one if none is given. It wants 3 GB on the disk and 4 GB of memory.
set -eu
top=$(cd "$(dirname "$0")/.." && pwd)
folder=$(mktemp -d)
trap 'rm -rf "$folder"' EXIT
program=${1:-}
if [ -z "$program" ]; then
    printf '<a/>' > "$folder/small.xml"
    "$top/vtd" "$folder/small.xml" < /dev/null
    program=$top/crates/vtd_program/out/vtd_program
fi
python3 - "$program" "$folder/document.xml" <<'PY'
import os, subprocess, sys, time

program, document = sys.argv[1:]
LONGEST = 1_073_741_823


def write(length):
    """A document of so many bytes: an element around a text."""
    with open(document, "wb") as file:
        file.write(b"<a>")
        left = length - 7
        while left:
            piece = min(left, 1 << 24)
            file.write(b"x" * piece)
            left -= piece
        file.write(b"</a>")


def run(script):
    """What a run printed, its status, seconds and peak memory in bytes."""
    start = time.monotonic()
    child = subprocess.Popen([program, document], stdin=subprocess.PIPE, stdout=subprocess.PIPE)
    child.stdin.write(script)
    child.stdin.close()
    printed = child.stdout.read()
    _, status, usage = os.wait4(child.pid, 0)
    return printed.decode(), os.waitstatus_to_exitcode(status), time.monotonic() - start, usage.ru_maxrss * 1024


for length, script, wanted in [(LONGEST, b"", ("", 0)), (LONGEST, b"elements\n", (f"nodes 1\nelement 0 {LONGEST}\n", 0)),
                               (LONGEST + 1, b"", ("refused file-long\n", 1))]:
    if not os.path.exists(document) or os.path.getsize(document) != length:
        write(length)
    printed, status, seconds, peak = run(script)
    as_wanted = "as wanted" if (printed, status) == wanted else f"NOT as wanted, {wanted}"
    print(f"{length} bytes, script {script!r}: {printed!r}, status {status}, {as_wanted}; {seconds:.2f} s, "
          f"{peak / length:.2f} bytes of memory a byte")
    if (printed, status) != wanted:
        sys.exit(1)
PY
