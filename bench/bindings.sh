#!/usr/bin/env bash
# Times 100,000 calls of `Bindings::set` and of `uri_of` each, with as many prefixes, three times:
# bench/bindings.sh [COUNT]
set -eu
top=$(cd "$(dirname "$0")/.." && pwd)
count=${1:-100000}
(cd "$top/crates/speed" && rt run -- bindings 10 > /dev/null)
for _ in 1 2 3; do
    "$top/crates/speed/out/speed" bindings "$count" 2>&1 > /dev/null
done
