#!/usr/bin/env bash
# Times `masque gen` and `masque soak` beside plain Rust programs that do the same (bench/generate_plain.rs and
# bench/soak_plain.rs): bench/generate.sh [COUNT]. Both of a pair must print the same bytes. A time is processor time, of the
# program and of the system for it, the median of 41 runs that take turns. The memory is the most that was resident, where
# /usr/bin/time is there, for so many packets and for half as many.
# MASQUE names the program, where it isn't the built one. Build first: tools/build
set -eu
cd "$(dirname "$0")/.."
program=${MASQUE:-crates/masque/out/masque}
[ -x "$program" ] || { echo "build it first: tools/build" >&2; exit 1; }
work=$(mktemp -d)
trap 'rm -rf "$work"' EXIT
command -v rustc > /dev/null || { echo "rustc isn't there, which builds the plain program" >&2; exit 1; }
for word in generate soak; do rustc -O --edition 2024 -o "$work/$word" "bench/${word}_plain.rs"; done
python3 - "$(realpath "$program")" "$work" "${1:-50000}" <<'PY'
import os, statistics, subprocess, sys
program, work, count = sys.argv[1:]

def run(words, printed):
    """The processor time in ms."""
    with open(printed, "wb") as out:
        child = subprocess.Popen(words, stdout=out)
        _, status, used = os.wait4(child.pid, 0)
    assert status == 0, (words, status)
    return (used.ru_utime + used.ru_stime) * 1e3

def memory(words):
    """The most that was resident in MiB: of the program alone, not of this one, of which a process begins as a copy."""
    if not os.access("/usr/bin/time", os.X_OK):
        return "-"
    run(["/usr/bin/time", "-f", "%M", "-o", f"{work}/memory", *words], os.devnull)
    with open(f"{work}/memory") as told:
        return f"{int(told.read()) / 1024:.1f}"

half = str(int(count) // 2)
for word, other in (("gen", "generate"), ("soak", "soak")):
    ours, plain = [program, word, "7", count], [f"{work}/{other}", "7", count]
    times = []
    for _ in range(41):
        times.append((run(ours, f"{work}/ours"), run(plain, f"{work}/same")))
        subprocess.run(["cmp", f"{work}/ours", f"{work}/same"], check=True)
    mine, theirs = (statistics.median(one) for one in zip(*times))
    print(f"{word} 7 {count}, {os.path.getsize(f'{work}/ours'):,} bytes printed: {mine:.0f} ms, plain {theirs:.0f} ms,"
          f" ratio {mine / theirs:.2f}; {memory(ours)} MiB, plain {memory(plain)} MiB; of {half} packets"
          f" {memory(ours[:-1] + [half])} MiB, plain {memory(plain[:-1] + [half])} MiB")
PY
