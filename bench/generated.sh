#!/usr/bin/env bash
# Times `vtd -g N` beside the same document and script from files, in turn, and tells both with their ratio; what they print must be
# the same: bench/generated.sh [ORDERS [RUNS]], 1,000,000 orders and 3 runs if no number is given.
set -eu
top=$(cd "$(dirname "$0")/.." && pwd)
orders=${1:-1000000}
runs=${2:-3}
folder=$(mktemp -d)
trap 'rm -rf "$folder"' EXIT
printf '<a/>' > "$folder/small.xml"
"$top/vtd" "$folder/small.xml" < /dev/null
awk -v orders="$orders" 'BEGIN {
    printf "<orders>"
    for (i = 1; i <= orders; i++) printf "<order n=\"%d\"><item qty=\"%d\">%d</item></order>", i, i % 7, 7 * i % 100
    printf "</orders>"
}' > "$folder/document.xml"
printf '%s\t%s\n' value 'count(//order)' value 'sum(//@qty)' value 'count(//item[@qty = 3])' > "$folder/script"
printf 'set\t//item[@qty = 3]/@qty\t9\napply\n' >> "$folder/script"
printf '%s\t%s\n' value 'sum(//@qty)' value 'count(//item[. > 50])' >> "$folder/script"
python3 - "$top/crates/vtd_program/out/vtd_program" "$folder" "$orders" "$runs" <<'PY'
import os, subprocess, sys, time

program, folder, orders, runs = sys.argv[1:]


def run(words, script):
    """What a run printed, and its seconds by the clock and of the processor."""
    start = time.monotonic()
    child = subprocess.Popen([program, *words], stdin=open(script), stdout=subprocess.PIPE)
    printed = child.stdout.read()
    _, status, usage = os.wait4(child.pid, 0)
    if status:
        sys.exit(f"{words}: status {os.waitstatus_to_exitcode(status)}")
    return printed, time.monotonic() - start, usage.ru_utime + usage.ru_stime


made, read = [], []
for _ in range(int(runs)):
    made.append(run(["-g", orders], os.devnull))
    read.append(run([f"{folder}/document.xml"], f"{folder}/script"))
if {printed for printed, _, _ in made} != {printed for printed, _, _ in read}:
    sys.exit("what is printed differs")
for name, at in (("clock", 1), ("processor", 2)):
    first, second = (min(each[at] for each in all_runs) for all_runs in (made, read))
    print(f"-g {orders}, {name}: {first:.3f} s; from files: {second:.3f} s; {first / second:.2f} times as long")
PY
