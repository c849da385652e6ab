#!/bin/sh
# Times the frame reader of mq_bench in pieces of 1, 100 and 16,384 bytes, and prints frames and bytes a
# second. A round is six frames of 17,558 bytes. Build the program first: rt run in crates/mq_bench.
set -eu
top=$(cd "$(dirname "$0")/.." && pwd)
program=$top/crates/mq_bench/out/mq_bench
for row in "1 ${1:-5000}" "100 ${2:-100000}" "16384 ${3:-200000}"; do
    size=${row% *}
    count=${row#* }
    start=$(date +%s.%N)
    "$program" "frames_$size" "$count" > /dev/null
    end=$(date +%s.%N)
    python3 - "$size" "$count" "$start" "$end" <<'PY'
import sys
size, count = int(sys.argv[1]), int(sys.argv[2])
seconds = float(sys.argv[4]) - float(sys.argv[3])
print("pieces of %d bytes: %.2f million frames/s, %.0f MB/s" % (size, count * 6 / seconds / 1e6, count * 17558 / seconds / 1e6))
PY
done
