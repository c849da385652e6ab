#!/usr/bin/env bash
# Times `check` and `onward` of an IPv4 packet of 1,500 bytes, beside a plain Rust program that does the same, in processor
# time, the best of five runs. Build the program first: rt run in crates/mq_bench.
set -eu
cd "$(dirname "$0")/.."
program=crates/mq_bench/out/mq_bench
[ -x "$program" ] || { echo "build it first: (cd crates/mq_bench && rt run)" >&2; exit 1; }
work=$(mktemp -d)
trap 'rm -rf "$work"' EXIT
plain=
if command -v rustc > /dev/null; then
  plain=$work/plain
  rustc -O -o "$plain" bench/packets_plain.rs
fi
python3 - "$program" "$plain" <<'PY'
import resource, subprocess, sys
program, plain = sys.argv[1:]
count = 20_000_000

def best(words):
    times = []
    for _ in range(5):
        before = resource.getrusage(resource.RUSAGE_CHILDREN).ru_utime
        out = subprocess.run(words, capture_output=True, check=True).stdout
        times.append(resource.getrusage(resource.RUSAGE_CHILDREN).ru_utime - before)
    return min(times), out

took, out = best([program, "packets", str(count)])
line = "a packet: %.1f ns" % (took / count * 1e9)
if plain:
    other, same = best([plain, str(count)])
    assert out == same, (out, same)
    line += ", plain %.1f ns" % (other / count * 1e9)
print(line)
PY
