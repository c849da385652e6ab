#!/usr/bin/env bash
# Times `masque replay` beside a plain Rust program that does the same (bench/tunnels_plain.rs), on many datagrams over the UDP
# tunnels of one connection of HTTP/2: bench/tunnels.sh [DATAGRAMS]. Then it tells the memory of an idle connection and of an
# idle tunnel. On each load both must print the same bytes. A time is processor time, of the program and of the system for it,
# the best of nine runs that take turns with those of the other program; RUNS says another count. The instructions are those of
# one run, as valgrind counts them. The memory is the most that was resident, where /usr/bin/time is there. That of a connection
# or a tunnel is what 128 connections, as many as there may be, or the 12,800 tunnels on them, add to the most of the heap, as
# valgrind counts that; a minute or two of its own.
# MASQUE names the program, where it isn't the built one. Build first: (cd crates/masque && rt run -- replay < /dev/null)
set -eu
cd "$(dirname "$0")/.."
program=${MASQUE:-crates/masque/out/masque}
[ -x "$program" ] || { echo "build it first: (cd crates/masque && rt run -- replay < /dev/null)" >&2; exit 1; }
work=$(mktemp -d)
trap 'rm -rf "$work"' EXIT
command -v rustc > /dev/null || { echo "rustc isn't there, which builds the plain program" >&2; exit 1; }
rustc -O --edition 2024 -o "$work/plain" bench/tunnels_plain.rs
python3 - "$(realpath "$program")" "$work" "${1:-100000}" "${RUNS:-9}" <<'PY'
import os, re, resource, shutil, subprocess, sys
program, work = sys.argv[1:3]
datagrams, runs = map(int, sys.argv[3:])

# ---- frames and capsules (RFC 9113, sections 4 and 6; RFC 9297, section 3.5)

PREFACE = b"PRI * HTTP/2.0\r\n\r\nSM\r\n\r\n"
PATH = b"/.well-known/masque/udp/192.0.2.6/443/"
BLOCK = b"\x02\x07CONNECT\x87\x04" + bytes((len(PATH),)) + PATH + b"\x01\x01p\x00\x09:protocol\x0bconnect-udp"
WINDOW = 65_535

def frame(kind, flags, stream, contents):
    return len(contents).to_bytes(3, "big") + bytes((kind, flags)) + stream.to_bytes(4, "big") + contents

def grant(stream, amount):
    return frame(8, 0, stream, amount.to_bytes(4, "big"))

def capsule(payload):
    size = len(payload) + 1
    return b"\0" + (bytes((size,)) if size < 64 else (0x4000 | size).to_bytes(2, "big")) + b"\0" + payload

def data(tunnel, contents):
    return frame(0, 0, 2 * tunnel + 1, contents)

def piece(contents, conn=0):
    return f"bytes {conn} {contents.hex()}"

def opening(tunnels, window=WINDOW):
    settings = frame(4, 0, 0, bytes((0, 4)) + window.to_bytes(4, "big"))
    return PREFACE + settings + b"".join(frame(1, 4, 2 * n + 1, BLOCK) for n in range(tunnels))

# ---- the loads

def payload(n):
    return bytes([n % 256, n // 256 % 256]) * (1 + n % 16)

def long_payload(n):
    return bytes([n % 256]) * 1_200

def begun(tunnels, window=WINDOW):
    yield from ("conn 0", piece(opening(tunnels, window)), "run 999")

def to_ports(count, tunnels=100, text=payload):
    """Ten datagrams in a piece, each of another tunnel, where there are so many."""
    yield from begun(tunnels)
    for n in range(0, count, 10):
        yield piece(b"".join(data(k % tunnels, capsule(text(k))) for k in range(n, n + 10)))
        yield "run 99"

def in_halves(count, tunnels=100):
    """The same, each capsule cut in two, with those of the nine other tunnels between."""
    yield from begun(tunnels)
    for n in range(0, count, 10):
        texts = [(k % tunnels, capsule(payload(k))) for k in range(n, n + 10)]
        halves = [(k, text[:len(text) // 2]) for k, text in texts] + [(k, text[len(text) // 2:]) for k, text in texts]
        yield piece(b"".join(data(k, half) for k, half in halves))
        yield "run 99"

class Client:
    """Gives back what it got, of the connection and of each stream, once that is 16,384 bytes or a quarter of the window."""
    def __init__(self, window=WINDOW):
        self.got, self.least = {}, min(16_384, window // 4)

    def takes(self, tunnel, text):
        for stream, least in (0, 16_384), (2 * tunnel + 1, self.least):
            self.got[stream] = self.got.get(stream, 0) + len(capsule(text))
            if self.got[stream] >= least:
                yield piece(grant(stream, self.got.pop(stream)))

def back(count, tunnels=100, text=payload, window=WINDOW):
    """Datagrams on ten tunnels, and what the client gives back of them."""
    yield from begun(tunnels, window)
    client = Client(window)
    for n in range(0, count, 10):
        yield from (f"dgram {k % tunnels} {text(k).hex()}" for k in range(n, n + 10))
        yield "run 99"
        yield from (line for k in range(n, n + 10) for line in client.takes(k % tunnels, text(k)))

def both_ways(count, tunnels=100):
    yield from begun(tunnels)
    client = Client()
    for n in range(0, count, 10):
        yield piece(b"".join(data(k % tunnels, capsule(payload(k))) for k in range(n, n + 10)))
        yield from (f"dgram {(k + 50) % tunnels} {payload(k).hex()}" for k in range(n, n + 10))
        yield "run 99"
        yield from (line for k in range(n, n + 10) for line in client.takes((k + 50) % tunnels, payload(k)))

def idle(conns, tunnels):
    yield "workers 4"
    for conn in range(conns):
        yield from (f"conn {conn % 4}", piece(opening(tunnels), conn), "run 999")

# ---- the runs

def write(lines):
    with open(f"{work}/script", "w") as script:
        script.writelines(line + "\n" for line in lines)
    size = os.path.getsize(f"{work}/script")
    assert size <= 1 << 26, size

def run(words, printed):
    with open(f"{work}/script") as script, open(printed, "wb") as out:
        before = resource.getrusage(resource.RUSAGE_CHILDREN)
        subprocess.run(words, stdin=script, stdout=out, check=True)
        after = resource.getrusage(resource.RUSAGE_CHILDREN)
    return after.ru_utime + after.ru_stime - before.ru_utime - before.ru_stime

def memory(words, printed):
    """How many KiB were resident at most, or None where /usr/bin/time isn't there, which has little itself."""
    if not os.access("/usr/bin/time", os.X_OK):
        run(words, printed)
        return None
    run(["/usr/bin/time", "-f", "%M", "-o", f"{work}/memory", *words], printed)
    with open(f"{work}/memory") as told:
        return int(told.read())

def instructions(words):
    """How many millions, or None where valgrind isn't there."""
    if not shutil.which("valgrind"):
        return None
    tool = ["valgrind", "--tool=callgrind", "--callgrind-out-file=/dev/null", f"--log-file={work}/counted"]
    run([*tool, *words], os.devnull)
    with open(f"{work}/counted") as told:
        return int(re.search(r"Collected : (\d+)", told.read())[1]) / 1e6

def heap(words):
    """How many bytes of the heap were taken at once at most."""
    tool = ["valgrind", "--tool=massif", f"--massif-out-file={work}/massif", f"--log-file={work}/counted"]
    run([*tool, *words], os.devnull)
    with open(f"{work}/massif") as told:
        return max(int(it) for it in re.findall(r"^mem_heap_B=(\d+)", told.read(), re.M))

def cell(number, form):
    return "-" if number is None else format(number, form)

ours, plain = [program, "replay"], [f"{work}/plain"]
titles = ("load", "here, ms", "plain, ms", "ratio", "here, million instructions", "plain", "here, MiB", "plain, MiB")
print("| " + " | ".join(titles) + " |\n|" + "---|" * len(titles), flush=True)

def same(words):
    most = memory(ours, f"{work}/ours"), memory(plain, f"{work}/same")
    subprocess.run(["cmp", f"{work}/ours", f"{work}/same"], check=True)
    return most

def row(title, lines):
    write(lines)
    most = same(ours)
    times = [(run(ours, os.devnull), run(plain, os.devnull)) for _ in range(runs)]
    took, other = (min(one) for one in zip(*times))
    counts = instructions(ours), instructions(plain)
    cells = [title, f"{took * 1e3:.0f}", f"{other * 1e3:.0f}", f"{took / other:.2f}"]
    cells += [cell(it, ",.0f") for it in counts] + [cell(it and it / 1024, ".1f") for it in most]
    print("| " + " | ".join(cells) + " |", flush=True)

count = datagrams // 10 * 10
for tunnels in (1, 10, 100):
    row(f"{count:,} datagrams to the ports of {tunnels}, ten in a piece", to_ports(count, tunnels))
row(f"{count:,} to the ports of 100, each cut in two DATA frames", in_halves(count))
row(f"{count // 5:,} of 1,200 bytes to the ports of 100", to_ports(count // 50 * 10, text=long_payload))
for tunnels in (1, 10, 100):
    row(f"{count:,} back to the client of {tunnels}", back(count, tunnels))
row(f"{count:,} back to the client of 100, in windows of 64 bytes", back(count, window=64))
row(f"{count // 5:,} of 1,200 bytes back to the client of 100", back(count // 50 * 10, text=long_payload))
row(f"{count:,} each way in 100", both_ways(count))

def most_of(conns, tunnels):
    """For each program the most bytes of its heap."""
    write(idle(conns, tunnels))
    same(ours)
    return heap(ours), heap(plain)

if shutil.which("valgrind"):
    none, alone, full = most_of(0, 0), most_of(128, 0), most_of(128, 100)
    conn = [(b - a) / 128 for a, b in zip(none, alone)]
    tunnel = [(b - a) / 12_800 for a, b in zip(alone, full)]
    print("\nOf the heap an idle connection has {:,.0f} bytes, in the plain program {:,.0f}.".format(*conn))
    print("An idle tunnel has {:,.0f}, in the plain program {:,.0f}.".format(*tunnel))
PY
