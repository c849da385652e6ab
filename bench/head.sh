#!/bin/sh
# Times the heads of requests: whole, byte by byte, and rounds of six starts of 8,191 bytes each, byte by byte.
# Build the program first: `rt ci mq_bench`, or `rt run` in its crate.
# A count may be given for each.
set -e
cd "$(dirname "$0")/.."
program=crates/mq_bench/out/mq_bench
[ -x "$program" ] || { echo "no $program: build it first" >&2; exit 2; }
run() {
    start=$(date +%s%N)
    "$program" "$1" "$2"
    end=$(date +%s%N)
    echo "$1: $(((end - start) / $2)) ns each, $2 of them"
}
run head "${1:-200000}"
run head_bytes "${2:-5000}"
run head_long "${3:-20}"
