#!/usr/bin/env bash
# Times scripts on a small document: 100,000 empty lines and as many `ns` lines with different prefixes, beside the empty
# script, and tells how much memory a script of 16 MB takes: bench/scripts.sh [RUNS]
set -eu
top=$(cd "$(dirname "$0")/.." && pwd)
runs=${1:-5}
folder=$(mktemp -d)
trap 'rm -rf "$folder"' EXIT
printf '<a/>' > "$folder/small.xml"
"$top/vtd" "$folder/small.xml" < /dev/null
python3 - "$top/crates/vtd_program/out/vtd_program" "$folder" "$runs" <<'PY'
import os, subprocess, sys, time
program, folder, runs = sys.argv[1:]
command = [program, "-k", f"{folder}/small.xml"]
lines = 100_000

def best(script):
    """The least seconds by the clock and of the processor, of the runs, and the status."""
    path = f"{folder}/script"
    with open(path, "wb") as file:
        file.write(script)
    clock = processor = float("inf")
    for _ in range(int(runs)):
        start = time.monotonic()
        child = subprocess.Popen(command, stdin=open(path), stdout=subprocess.DEVNULL)
        _, status, usage = os.wait4(child.pid, 0)
        clock = min(clock, time.monotonic() - start)
        processor = min(processor, usage.ru_utime + usage.ru_stime)
    return clock, processor, os.waitstatus_to_exitcode(status)

def peak(script):
    """The peak memory in bytes once the script has been written and before it ends."""
    child = subprocess.Popen(command, stdin=subprocess.PIPE, stdout=subprocess.DEVNULL)
    child.stdin.write(script)
    child.stdin.flush()
    time.sleep(0.5)
    with open(f"/proc/{child.pid}/status") as file:
        kilobytes = next(int(line.split()[1]) for line in file if line.startswith("VmHWM"))
    child.stdin.close()
    child.wait()
    return kilobytes * 1024

start, start_processor, _ = best(b"")
print(f"empty script: {start:.3f} s, {start_processor:.3f} s of the processor")
for name, script in {
    "100,000 empty lines": b"\n" * lines,
    "100,000 ns lines": b"".join(b"ns\tp%d\turn:%d\n" % (i, i) for i in range(lines)),
    "100,000 ns lines, backwards": b"".join(b"ns\tp%d\turn:%d\n" % (i, i) for i in reversed(range(lines))),
    "16 MB of empty lines": b"\n" * 16_777_216,
}.items():
    clock, processor, status = best(script)
    print(f"{name}: {clock - start:.3f} s and {processor - start_processor:.3f} s of the processor beyond the empty script, status {status}")
for size in (9_000_000, 16_777_216):
    used = peak(b"x" * size) - peak(b"")
    print(f"a script of {size} bytes: {used / size:.2f} bytes of memory a byte")
PY
