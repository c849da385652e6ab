#!/usr/bin/env bash
# Times calls and judgements of a book with 10, 1,000 and 10,000 live tunnels, beside a plain Rust program over the same
# lists, in processor time, the best of three runs, less that of filling the book. A round is three calls: a tunnel
# opens, asks for a block, which it names or leaves open, and closes. Build the program first (rt run in mq_bench).
set -eu
cd "$(dirname "$0")/.."
program=${1:-crates/mq_bench/out/mq_bench}
[ -x "$program" ] || { echo "build it first: (cd crates/mq_bench && rt run)" >&2; exit 1; }
work=$(mktemp -d)
trap 'rm -rf "$work"' EXIT
plain=
if command -v rustc > /dev/null; then
  plain=$work/plain
  rustc -O -o "$plain" bench/book_plain.rs
fi
python3 - "$program" "$plain" <<'PY'
import resource, subprocess, sys
program, plain = sys.argv[1:]

def best(words):
    times = []
    for _ in range(3):
        before = resource.getrusage(resource.RUSAGE_CHILDREN).ru_utime
        out = subprocess.run(words, capture_output=True, check=True).stdout
        times.append(resource.getrusage(resource.RUSAGE_CHILDREN).ru_utime - before)
    return min(times), out

def rate(which, word, count, each):
    (filling, _), (took, out) = best([which, word, "0"]), best([which, word, str(count)])
    return count * each / max(took - filling, 1e-6), out

COUNTS = ((10, 300_000, 300_000, 10_000_000), (1_000, 30_000, 1_000, 300_000), (10_000, 3_000, 20, 30_000))
for live, named, free, packets in COUNTS:
    for title, word, count, each in (("calls, blocks named", "book", named, 3),
                                     ("calls, any block", "book_any", free, 3),
                                     ("judgements", "judge", packets, 1)):
        took, out = rate(program, f"{word}_{live}", count, each)
        line = f"{live} live tunnels, {title}: {took:,.0f} a second"
        if plain:
            other, same = rate(plain, f"{word}_{live}", count, each)
            assert out == same, (out, same)
            line += f", plain {other:,.0f}"
        print(line, flush=True)
PY
