#!/usr/bin/env bash
# Times the descendants of the root of a document under several node tests, beside a plain loop over its records, three times:
# bench/axes.sh FILE. It prints the times of `speed_axes`; bench/document.sh writes documents.
set -eu
top=$(cd "$(dirname "$0")/.." && pwd)
file=$(realpath "$1")
(cd "$top/crates/speed_axes" && rt run -- data/doc.xml > /dev/null)
for _ in 1 2 3; do
    "$top/crates/speed_axes/out/speed_axes" "$file" 2>&1 > /dev/null
done
