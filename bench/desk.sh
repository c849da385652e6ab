#!/usr/bin/env bash
# Times calls and judgements of a book that one, two and four threads share, beside plain Rust that has the same book
# behind a mutex: wall time, the best of five runs. A tunnel opens, asks for an address and closes, which are three
# calls; a packet goes from a tunnel to itself. Build the tests first: rt test in crates/mq_desk.
set -eu
cd "$(dirname "$0")/.."
program=${1:-crates/mq_desk/out/mq_desk_tests}
[ -x "$program" ] || { echo "build it first: (cd crates/mq_desk && rt test)" >&2; exit 1; }
work=$(mktemp -d)
trap 'rm -rf "$work"' EXIT
plain=
if command -v rustc > /dev/null; then
  plain=$work/plain
  rustc -O -o "$plain" bench/desk_plain.rs
fi
python3 - "$program" "$plain" <<'PY'
import subprocess, sys, time
program, plain = sys.argv[1:]

def best(words):
    times = []
    for _ in range(5):
        before = time.monotonic()
        subprocess.run(words, capture_output=True, check=True)
        times.append(time.monotonic() - before)
    return min(times)

# A run that does next to nothing is taken off.
idle = best([program, "tests::two_actors_open_a_tunnel_each"])
idle_plain = best([plain, "calls", "1", "0"]) if plain else 0

# The counts of the tests. The plain program does as many.
for title, each, rows in (
    ("calls", 3, ((1, "one_calls", 100_000), (2, "two_call", 40_000), (4, "four_call", 40_000))),
    ("judgements", 1, ((1, "one_judges", 1_000_000), (2, "two_judge", 200_000), (4, "four_judge", 200_000))),
):
    for threads, test, count in rows:
        rate = count * each / max(best([program, "tests::many::" + test]) - idle, 1e-6)
        line = f"{title}, threads {threads}: {rate:,.0f} a second"
        if plain:
            took = best([plain, title, str(threads), str(count)])
            line += f", mutex {count * each / max(took - idle_plain, 1e-6):,.0f}"
        print(line, flush=True)
PY
