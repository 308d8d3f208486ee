#!/usr/bin/env bash
# Counted instructions of each call, product and plain, on every measured trace. Needs valgrind (callgrind).
# Only what runs inside the call is counted: the trace is built outside, and an empty call is subtracted.
#   bench/count.sh [SIZES [CALLS [SHAPES]]]     default: "64 512 4096" "read fill order short all open covered compact" and every shape
set -euo pipefail
cd "$(dirname "$0")"
sizes=${1:-64 512 4096}
calls=${2:-read fill order short all open covered compact}
cargo build --release --offline --quiet
bench=target/release/bench
shapes=${3:-$($bench shapes | cut -d: -f1)}

count() { # CALL SHAPE N WHO: instructions, or nothing where there is no such pair
    local said
    said=$(valgrind --tool=callgrind --callgrind-out-file=/dev/null --toggle-collect=counted "$bench" count "$@" 2>&1)
    if ! grep -q "does not apply" <<<"$said"; then
        awk '/Collected/ { print $NF }' <<<"$said"
    fi
}

empty=$(count none ordered 64 plain)
echo "| call | shape | records asked | product | plain | product ÷ plain | growth from the size before: product | plain |"
echo "|---|---|---:|---:|---:|---:|---:|---:|"
for call in $calls; do
    for shape in $shapes; do
        before=""
        for n in $sizes; do
            product=$(count "$call" "$shape" "$n" product)
            plain=$(count "$call" "$shape" "$n" plain)
            if [ -n "$product" ] && [ -n "$plain" ]; then
                awk -v what="| $call | $shape | $n |" -v a="$((product - empty))" -v b="$((plain - empty))" -v before="$before" 'BEGIN {
                    growth = split(before, old) ? sprintf("× %.1f | × %.1f", a / old[1], b / old[2]) : "- | -"
                    printf "%s %d | %d | %.2f | %s |\n", what, a, b, a / b, growth
                }'
                before="$((product - empty)) $((plain - empty))"
            fi
        done
    done
done
