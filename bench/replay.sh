#!/usr/bin/env bash
# Times `masque replay` beside a plain Rust program that does the same (bench/replay_plain.rs), on many datagrams and on many
# links: bench/replay.sh [DATAGRAMS [LINKS]]. On each load both must print the same bytes. A time is processor time, of the
# program and of the system for it, the best of nine runs that take turns with those of the other program. `growth` is the
# time over that of half as many links. The memory is the most that was resident, where /usr/bin/time is there.
# MASQUE names the program, where it isn't the built one. Build first: (cd crates/masque && rt run -- replay < /dev/null)
set -eu
cd "$(dirname "$0")/.."
program=${MASQUE:-crates/masque/out/masque}
[ -x "$program" ] || { echo "build it first: (cd crates/masque && rt run -- replay < /dev/null)" >&2; exit 1; }
work=$(mktemp -d)
trap 'rm -rf "$work"' EXIT
command -v rustc > /dev/null || { echo "rustc isn't there, which builds the plain program" >&2; exit 1; }
rustc -O --edition 2024 -o "$work/plain" bench/replay_plain.rs
python3 - "$(realpath "$program")" "$work" "${1:-100000}" "${2:-65536}" <<'PY'
import os, resource, subprocess, sys
program, work = sys.argv[1:3]
datagrams, links = map(int, sys.argv[3:])
RUNS = 9

# ---- the loads

def text(conn, path="/.well-known/masque/udp/192.0.2.6/443/"):
    return (f"text {conn} GET {path} HTTP/1.1\\r\\nHost: proxy.example\\r\\n"
            "Connection: Upgrade\\r\\nUpgrade: connect-udp\\r\\n\\r\\n")

def payload(n):
    return bytes([n % 256, n // 256 % 256]) * (1 + n % 8)

def piece(conn, n):
    return f"bytes {conn} {(bytes([0, len(payload(n)) + 1, 0]) + payload(n)).hex()}"

def datagram(n):
    return f"dgram 0 {payload(n).hex()}"

def one_link(count):
    yield from ("conn 0", text(0), "step 0 5")
    for n in range(count):
        yield from (piece(0, n), "step 0 2")

def one_link_at_once(count):
    yield from ("conn 0", text(0), "step 0 5")
    yield from (piece(0, n) for n in range(count))
    yield f"step 0 {2 * count + 1}"

def long_pieces(count):
    yield from ("conn 0", text(0), "step 0 5")
    for n in range(count):
        yield from (f"fill 0 0044b100 1200 {n % 256:02x}", "step 0 2")

def on_workers():
    yield "workers 4"
    yield from (f"conn {conn % 4}" for conn in range(64))
    yield from (text(conn) for conn in range(64))
    yield "run 1000"

def in_rounds(count):
    yield from on_workers()
    for n in range(count):
        yield piece(n % 64, n)
        if n % 64 == 63:
            yield "run 128"

def at_once(count):
    yield from on_workers()
    yield from (piece(n % 64, n) for n in range(count))
    yield f"run {2 * count + 1}"

def one_by_one(count):
    yield from on_workers()
    for n in range(count):
        yield from (piece(n % 64, n), "run 9")

def back(count):
    yield from ("conn 0", text(0), "step 0 5")
    for n in range(count):
        yield from (datagram(n), "step 0 3")

def both_ways(count):
    yield from ("conn 0", text(0), "step 0 5")
    for n in range(count):
        yield from (piece(0, n), datagram(n), "step 0 5")

def opened(count):
    for conn in range(count):
        yield from ("conn 0", text(conn), f"end {conn}", "step 0 99")

def refused(count):
    for conn in range(count):
        yield from ("conn 0", text(conn, "/"), "step 0 99")

def offered(count):
    yield from ("conn 0" for conn in range(count))
    for conn in range(count):
        yield from (text(conn), f"end {conn}")
    yield from ("step 0 1000000" for _ in range(count * 8 // 1_000_000 + 1))

# ---- the runs

def write(load, count):
    with open(f"{work}/script", "w") as script:
        script.writelines(line + "\n" for line in load(count))
    size = os.path.getsize(f"{work}/script")
    assert size <= 1 << 26, size

def run(words, printed):
    with open(f"{work}/script") as script, open(printed, "wb") as out:
        before = resource.getrusage(resource.RUSAGE_CHILDREN)
        subprocess.run(words, stdin=script, stdout=out, check=True)
        after = resource.getrusage(resource.RUSAGE_CHILDREN)
    return after.ru_utime + after.ru_stime - before.ru_utime - before.ru_stime

def memory(words, printed):
    """How many MiB were resident at most."""
    if not os.access("/usr/bin/time", os.X_OK):
        run(words, printed)
        return "-"
    run(["/usr/bin/time", "-f", "%M", "-o", f"{work}/memory", *words], printed)
    with open(f"{work}/memory") as told:
        return f"{int(told.read()) / 1024:.1f}"

ours, plain = [program, "replay"], [f"{work}/plain"]
titles = ("load", "here, ms", "plain, ms", "ratio", "growth here", "plain", "here, MiB", "plain, MiB")
print("| " + " | ".join(titles) + " |\n|" + "---|" * len(titles), flush=True)

def row(title, load, count, last=None):
    write(load, count)
    most = memory(ours, f"{work}/ours"), memory(plain, f"{work}/same")
    subprocess.run(["cmp", f"{work}/ours", f"{work}/same"], check=True)
    times = [(run(ours, os.devnull), run(plain, os.devnull)) for _ in range(RUNS)]
    took, other = (min(one) for one in zip(*times))
    growth = (f"{took / last[0]:.2f}", f"{other / last[1]:.2f}") if last else ("", "")
    cells = (title, f"{took * 1e3:.0f}", f"{other * 1e3:.0f}", f"{took / other:.2f}", *growth, *most)
    print("| " + " | ".join(cells) + " |", flush=True)
    return took, other

def rows(title, load, count):
    last = None
    for part in (4, 2, 1):
        last = row(title.format(f"{count // part:,}"), load, count // part, last)

row(f"{datagrams:,} datagrams on one link, `step 0 2` behind each", one_link, datagrams)
row(f"{datagrams:,} on one link, one `step` behind all", one_link_at_once, datagrams)
row(f"{datagrams // 5:,} of 1,200 bytes on one link", long_pieces, datagrams // 5)
row(f"{datagrams:,} on 64 links of 4 workers, `run 128` behind each 64", in_rounds, datagrams)
row(f"{datagrams:,} on 64 links of 4 workers, one `run` behind all", at_once, datagrams)
row(f"{datagrams:,} on 64 links of 4 workers, `run 9` behind each", one_by_one, datagrams)
row(f"{datagrams:,} back to the client of one tunnel", back, datagrams)
row(f"{datagrams:,} each way in one tunnel", both_ways, datagrams)
rows("{} links, one after the other, each with a tunnel", opened, links)
rows("{} links, one after the other, each refused", refused, links)
rows("{} links, all offered before the first step", offered, links // 4)
PY
