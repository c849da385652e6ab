#!/usr/bin/env bash
# Times the Huffman code of mq_bench, written and read again, over eight texts of a header with 285 bytes in all, and
# prints MB of plain text a second of processor time, the best of five runs. Build the program first: rt run in
# crates/mq_bench. Where libnghttp2 (Debian's libnghttp2-dev) is there, its header compression is timed on the same texts.
# Usage: bench/huffman.sh [TEXTS]
set -eu
top=$(cd "$(dirname "$0")/.." && pwd)
count=${1:-4000000}
work=$(mktemp -d)
trap 'rm -rf "$work"' EXIT
TIMEFORMAT=%U

rate() {
    name=$1
    shift
    for _ in 1 2 3 4 5; do
        { time "$@" > /dev/null; } 2>&1
    done | sort -n | head -n 1 | awk -v name="$name" -v n="$count" '{ printf "%s: %.0f MB/s\n", name, n / 8 * 285 / $1 / 1e6 }'
}

rate mq_huff "$top/crates/mq_bench/out/mq_bench" huffman "$count"
if cc -O2 -o "$work/huffman" "$top/bench/huffman.c" -lnghttp2 2> /dev/null; then
    rate libnghttp2 "$work/huffman" "$count"
else
    echo "libnghttp2: not there"
fi
