#!/usr/bin/env bash
# Times an inbox with room for 256 parcels, by one, two and four pushers and one popper, and a lane of 32, beside plain Rust
# that does the same through `sync_channel` and through a ring of atomics: 400,000 of each, wall time, the best of five
# runs. And one parcel in an inbox and out of it, in one thread. Build the tests first: rt test in
# crates/mq_actors_tests.
set -eu
cd "$(dirname "$0")/.."
program=crates/mq_actors_tests/out/mq_actors_tests_tests
[ -x "$program" ] || { echo "build it first: (cd crates/mq_actors_tests && rt test)" >&2; exit 1; }
work=$(mktemp -d)
trap 'rm -rf "$work"' EXIT
plain=
if command -v rustc > /dev/null; then
  plain=$work/plain
  rustc -O -o "$plain" bench/inboxes_plain.rs
fi
python3 - "$program" "$plain" <<'PY'
import subprocess, sys, time
program, plain = sys.argv[1:]
count = 400_000

def best(words):
    times = []
    for _ in range(5):
        before = time.monotonic()
        subprocess.run(words, capture_output=True, check=True)
        times.append(time.monotonic() - before)
    return min(times)

def rate(words):
    return "%.1f" % (count / best(words) / 1e6)

for pushers, test in ((1, "one_pushes"), (2, "two_push"), (4, "four_push")):
    line = "inbox, %d pushing: %s million parcels a second" % (pushers, rate([program, "mail::many::" + test]))
    if plain:
        line += ", sync_channel %s, ring %s" % tuple(rate([plain, kind, str(pushers)]) for kind in ("channel", "ring"))
    print(line, flush=True)
line = "lane: %s million items a second" % rate([program, "mail::many::one_puts"])
if plain:
    line += ", sync_channel %s" % rate([plain, "lane"])
print(line)
for size, test in ((40, "a_short_parcel_goes_round"), (65535, "the_longest_parcel_goes_round")):
    print("one parcel of %d bytes pushed and popped: %.0f ns" % (size, best([program, "mail::many::" + test]) * 1e3))
PY
