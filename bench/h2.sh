#!/usr/bin/env bash
# Times mq_h2 over a megabyte of DATA in frames of 16,384 and of 100 bytes, in pieces of 1, 100 and 16,384, and over
# 10,000 requests with their answers, in processor time, the best of five runs. Build the program first: rt run in
# crates/mq_bench. Where libnghttp2 (Debian's libnghttp2-dev) is there, a server's session of it is timed on the same
# bytes: as it lends the contents and fields, and with a copy of each, which mq_h2 gives.
set -eu
cd "$(dirname "$0")/.."
program=crates/mq_bench/out/mq_bench
[ -x "$program" ] || { echo "build it first: (cd crates/mq_bench && rt run)" >&2; exit 1; }
work=$(mktemp -d)
trap 'rm -rf "$work"' EXIT
other=
if cc -O2 -o "$work/h2" bench/h2.c -lnghttp2 2> /dev/null; then other=$work/h2; fi
python3 - "$program" "$other" <<'PY'
import resource, subprocess, sys
program, other = sys.argv[1:]

def best(words):
    times = []
    for _ in range(5):
        before = resource.getrusage(resource.RUSAGE_CHILDREN).ru_utime
        out = subprocess.run(words, capture_output=True, check=True, text=True).stdout
        times.append(resource.getrusage(resource.RUSAGE_CHILDREN).ru_utime - before)
    return min(times), out.split()[-1]

def row(name, word, count, others, unit, worth):
    took, out = best([program, word, str(count)])
    line = "%s: %.1f %s" % (name, worth(took / count), unit)
    for title, words in others if other else ():
        took, same = best([other] + words + [str(count)])
        assert out == same, (out, same)
        line += ", %s %.1f" % (title, worth(took / count))
    print(line, flush=True)

for frame in (16384, 100):
    for piece, count in ((1, 5), (100, 200), (16384, 4000 if frame == 16384 else 400)):
        words = [str(frame), str(piece)]
        row("frames of %d bytes in pieces of %d" % (frame, piece), "h2_%d_in_%d" % (frame, piece), count,
            [("lent", ["data"] + words), ("copied", ["owned"] + words)], "MB/s", lambda t: 1.048576 / t)
others = [("lent", ["requests"]), ("copied", ["owned"])]
row("a request and its answer", "h2_requests", 20, others, "ns", lambda t: t * 1e5)
PY
