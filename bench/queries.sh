#!/usr/bin/env bash
# Times expressions over a document, each three times: bench/queries.sh FILE EXPRESSIONS. The second file has an expression a line; lines
# that are empty or begin with # are passed over. It prints, for each line, the least time of `evaluate` in milliseconds, and then the values.
set -eu
top=$(cd "$(dirname "$0")/.." && pwd)
file=$(realpath "$1")
expressions=$(realpath "$2")
(cd "$top/crates/speed_queries" && rt run > /dev/null)
for _ in 1 2 3; do
    "$top/crates/speed_queries/out/speed_queries" "$file" "$expressions" 2>&1 > /dev/null
done | awk -F '\t' '!($1 in least) { order[++count] = $1; least[$1] = $2 }
    $2 < least[$1] { least[$1] = $2 }
    END { for (i = 1; i <= count; i++) printf "%10.3f  %s\n", least[order[i]] / 1000, order[i] }'
"$top/crates/speed_queries/out/speed_queries" "$file" "$expressions" 2> /dev/null
