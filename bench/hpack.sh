#!/bin/sh
# Times mq_bench's reading and writing of header blocks, and prints the microseconds that a round of them takes,
# and the checksum. A round has four connections with 18 blocks in all. Build the program first: rt run in
# crates/mq_bench.
# Where libnghttp2 (Debian's libnghttp2-dev) is there, its inflater and deflater are timed on the same blocks:
# reading as it lends the fields, and with a copy of each name and value, which mq_hpack gives.
# Usage: bench/hpack.sh [ROUNDS]
set -eu
top=$(cd "$(dirname "$0")/.." && pwd)
count=${1:-100000}
work=$(mktemp -d)
trap 'rm -rf "$work"' EXIT

# The blocks are the lines of hex in the source, and the empty ones between them.
sed -n '/^const CONNECTIONS/,/^";/p' "$top/crates/mq_bench/src/hpack.rt" | sed '1d;$d' > "$work/blocks"

clock() {
    name=$1
    shift
    start=$(date +%s%N)
    sum=$("$@" "$count" < "$work/blocks")
    end=$(date +%s%N)
    awk -v name="$name" -v sum="${sum##* }" -v t=$((end - start)) -v n="$count" \
        'BEGIN { printf "%s: %.2f us a round (%s)\n", name, t / n / 1000, sum }'
}

clock "mq_hpack reads" "$top/crates/mq_bench/out/mq_bench" hpack
clock "mq_hpack writes" "$top/crates/mq_bench/out/mq_bench" hpack_write
if cc -O2 -o "$work/hpack" "$top/bench/hpack.c" -lnghttp2 2> /dev/null; then
    clock "libnghttp2 reads and lends" "$work/hpack" hpack
    clock "libnghttp2 reads and copies" "$work/hpack" hpack_owned
    clock "libnghttp2 writes" "$work/hpack" hpack_write
else
    echo "libnghttp2: not there"
fi
