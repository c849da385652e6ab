#!/usr/bin/env bash
# Times the capsule reader of mq_bench in pieces of 1, 100 and 16,384 bytes, beside a plain Rust program that does the same,
# in processor time, the best of five runs. A round is eighteen capsules of 20,061 bytes. Build the program first: rt run in
# crates/mq_bench.
set -eu
cd "$(dirname "$0")/.."
program=crates/mq_bench/out/mq_bench
[ -x "$program" ] || { echo "build it first: (cd crates/mq_bench && rt run)" >&2; exit 1; }
work=$(mktemp -d)
trap 'rm -rf "$work"' EXIT
plain=
if command -v rustc > /dev/null; then
  plain=$work/plain
  rustc -O -o "$plain" bench/capsules_plain.rs
fi
python3 - "$program" "$plain" <<'PY'
import resource, subprocess, sys
program, plain = sys.argv[1:]

def best(words):
    times = []
    for _ in range(5):
        before = resource.getrusage(resource.RUSAGE_CHILDREN).ru_utime
        out = subprocess.run(words, capture_output=True, check=True).stdout
        times.append(resource.getrusage(resource.RUSAGE_CHILDREN).ru_utime - before)
    return min(times), out

for size, count in ((1, 1000), (100, 20000), (16384, 40000)):
    took, out = best([program, "capsules_%d" % size, str(count)])
    line = "pieces of %d bytes: %.0f MB/s" % (size, count * 20061 / took / 1e6)
    if plain:
        other, same = best([plain, str(size), str(count)])
        assert out == same, (out, same)
        line += ", plain %.0f MB/s" % (count * 20061 / other / 1e6)
    print(line)
PY
