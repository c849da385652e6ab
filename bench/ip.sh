#!/usr/bin/env bash
# Times `masque replay` beside a plain Rust program that does the same (bench/ip_plain.rs), on many IP packets of four tunnels
# on two workers over HTTP/1.1: from tunnel to tunnel, and to a host of the simulated network, whose answers come back:
# bench/ip.sh [PACKETS]. Then it tells the memory of what may wait: 256 parcels in an inbox, 64 packets in a tunnel, and a MiB
# of capsules in a connection. On each load both must print the same bytes. A time is processor time, of the program and of the
# system for it, the best of nine runs that take turns with those of the other program; RUNS says another count. `growth` is
# the time over that of half as many packets. The memory is the most that was resident, where /usr/bin/time is there. Of what
# waits it is what that adds to an empty script's, by the run with the least of ten, which differs by some 100 KiB all the same;
# and what it adds to the most of the heap, as valgrind counts that. Last it tells how often the program copies a packet as a
# whole, where cc is there, which builds what counts that (bench/copies.c).
# MASQUE names the program, where it isn't the built one. Build first: (cd crates/masque && rt run -- replay < /dev/null)
set -eu
cd "$(dirname "$0")/.."
program=${MASQUE:-crates/masque/out/masque}
[ -x "$program" ] || { echo "build it first: (cd crates/masque && rt run -- replay < /dev/null)" >&2; exit 1; }
work=$(mktemp -d)
trap 'rm -rf "$work"' EXIT
command -v rustc > /dev/null || { echo "rustc isn't there, which builds the plain program" >&2; exit 1; }
rustc -O --edition 2024 -o "$work/plain" bench/ip_plain.rs
python3 - "$(realpath "$program")" "$work" "${1:-100000}" "${RUNS:-9}" <<'PY'
import os, re, resource, shutil, struct, subprocess, sys
program, work = sys.argv[1:3]
packets, runs = map(int, sys.argv[3:])

# ---- packets and capsules (RFC 791, section 3.1; RFC 768; RFC 792; RFC 9484, sections 4.7.2 and 6; RFC 9297, section 3.5)

REQUEST = (r"GET /.well-known/masque/ip/*/*/ HTTP/1.1\r\nHost: proxy.example\r\n"
           r"Connection: Upgrade\r\nUpgrade: connect-ip\r\n\r\n")
POOL, HOST = bytes((10, 0, 0, 0)), bytes((203, 0, 113, 5))
TUNNELS, WORKERS = 4, 2

def checksum(text):
    total = sum(struct.unpack(f">{len(text) // 2}H", text))
    while total > 0xffff:
        total = (total & 0xffff) + (total >> 16)
    return (0xffff ^ total).to_bytes(2, "big")

headers = {}

def packet(source, target, protocol, payload):
    key = source, target, protocol, len(payload)
    if key not in headers:
        front = struct.pack(">BBHHHBB", 0x45, 0, 20 + len(payload), 0, 0, 64, protocol)
        headers[key] = front + checksum(front + source + target) + source + target
    return headers[key] + payload

def udp(source, target, text):
    return packet(source, target, 17, struct.pack(">HHHH", 4000, 7, 8 + len(text), 0) + text)

def echo(source, target, text):
    text = struct.pack(">HH", 1, 1) + text + bytes(len(text) % 2)
    return packet(source, target, 1, b"\x08\x00" + checksum(b"\x08\x00" + text) + text)

def varint(number):
    if number < 0x40:
        return bytes((number,))
    return (0x4000 | number).to_bytes(2, "big") if number < 0x4000 else (0x8000_0000 | number).to_bytes(4, "big")

def capsule(contents):
    return b"\0" + varint(len(contents) + 1) + b"\0" + contents

def address(tunnel):
    return POOL[:3] + bytes((tunnel + 1,))

# ---- the loads

def text(n):
    return bytes([n % 256, n // 256 % 256]) * (1 + n % 16)

def long_text(n):
    return bytes([n % 256]) * 1_172

def of_size(size):
    return udp(address(0), address(1), bytes(size - 28))

def piece(conn, contents):
    return f"bytes {conn} {contents.hex()}"

def begun(mtu=1_500):
    """Four tunnels with an address each, every other one of the other worker."""
    yield from (f"workers {WORKERS}", f"mtu {mtu}", "pool 10.0.0.0/24", "host 203.0.113.5", "route 0.0.0.0 255.255.255.255 0")
    for conn in range(TUNNELS):
        yield from (f"conn {conn % WORKERS}", f"text {conn} {REQUEST}")
        yield piece(conn, b"\x02\x07\x01\x04" + address(conn) + b"\x20")
    yield "run 999"

def between(count, text=text, together=1):
    """From each tunnel in turn a piece of so many packets, each round to another of the other three."""
    yield from begun()
    for n in range(0, count, together):
        turn = n // together
        conn = turn % TUNNELS
        target = address((conn + 1 + turn // TUNNELS % (TUNNELS - 1)) % TUNNELS)
        yield piece(conn, b"".join(capsule(udp(address(conn), target, text(k))) for k in range(n, min(n + together, count))))
        if conn == TUNNELS - 1:
            yield f"run {9 * TUNNELS * together}"
    yield f"run {9 * TUNNELS * together}"

def to_host(count, text=text, make=udp):
    """From each tunnel in turn a packet to the host, which answers."""
    yield from begun()
    for n in range(count):
        conn = n % TUNNELS
        yield piece(conn, capsule(make(address(conn), HOST, text(n))))
        if conn == TUNNELS - 1:
            yield f"run {12 * TUNNELS}"
    yield f"run {12 * TUNNELS}"

def in_inbox(count, size):
    """So many packets and two more to a worker that takes no step."""
    yield from begun(65_535)
    for _ in range(count + 2):
        yield from (piece(0, capsule(of_size(size))), "step 0 9")

def in_tunnel(count, size):
    """The same to a tunnel whose client takes nothing, behind as many as its connection owes then."""
    yield from begun(65_535)
    yield "room 1 0"
    owed = 65_535 // len(capsule(of_size(size))) + 1
    for _ in range(owed + count + 2):
        yield from (piece(0, capsule(of_size(size))), "step 0 9", "step 1 9")

# ---- the runs

def write(lines):
    with open(f"{work}/script", "w") as script:
        script.writelines(line + "\n" for line in lines)
    size = os.path.getsize(f"{work}/script")
    assert size <= 1 << 26, size

def run(words, printed):
    with open(f"{work}/script") as script, open(printed, "wb") as out:
        before = resource.getrusage(resource.RUSAGE_CHILDREN)
        subprocess.run(words, stdin=script, stdout=out, check=True)
        after = resource.getrusage(resource.RUSAGE_CHILDREN)
    return after.ru_utime + after.ru_stime - before.ru_utime - before.ru_stime

def memory(words, printed):
    """How many KiB were resident at most, or None where /usr/bin/time isn't there."""
    if not os.access("/usr/bin/time", os.X_OK):
        run(words, printed)
        return None
    run(["/usr/bin/time", "-f", "%M", "-o", f"{work}/memory", *words], printed)
    with open(f"{work}/memory") as told:
        return int(told.read())

def heap(words):
    """How many KiB of the heap were taken at once at most, or None where valgrind isn't there."""
    if not shutil.which("valgrind"):
        return None
    tool = ["valgrind", "--tool=massif", f"--massif-out-file={work}/massif", f"--log-file={work}/counted"]
    run([*tool, *words], os.devnull)
    with open(f"{work}/massif") as told:
        return max(int(it) for it in re.findall(r"^mem_heap_B=(\d+)", told.read(), re.M)) / 1024

def cell(number, form):
    return "-" if number is None else format(number, form)

def line(*cells):
    print("| " + " | ".join(cells) + " |", flush=True)

def table(*titles):
    line(*titles)
    print("|" + "---|" * len(titles), flush=True)

ours, plain = [program, "replay"], [f"{work}/plain"]

def same(lines):
    write(lines)
    most = memory(ours, f"{work}/ours"), memory(plain, f"{work}/same")
    subprocess.run(["cmp", f"{work}/ours", f"{work}/same"], check=True)
    with open(f"{work}/ours", "rb") as printed:
        return most, printed.read()

def row(title, count, load, last=None, **how):
    most, printed = same(load(count, **how))
    ends = printed.count(b"\ndelivered ")
    assert ends == count, f"{ends:,} of {count:,} packets were delivered"
    times = [(run(ours, os.devnull), run(plain, os.devnull)) for _ in range(runs)]
    took, other = (min(one) for one in zip(*times))
    growth = (f"{took / last[0]:.2f}", f"{other / last[1]:.2f}") if last else ("", "")
    sizes = (cell(it and it / 1024, ".1f") for it in most)
    line(f"{count:,} {title}", f"{took * 1e3:.0f}", f"{other * 1e3:.0f}", f"{took / other:.2f}", *growth, *sizes)
    return took, other

def rows(title, count, load, **how):
    row(title, count, load, row(title, count // 2, load, **how), **how)

table("packets", "here, ms", "plain, ms", "ratio", "growth here", "plain", "here, MiB", "plain, MiB")
rows("from tunnel to tunnel, one in a piece", packets, between)
rows("from tunnel to tunnel, ten in a piece", packets, between, together=10)
rows("of 1,200 bytes from tunnel to tunnel", packets // 5, between, text=long_text)
rows("to a host, with an answer to each", packets, to_host)
rows("to a host, each a request for an echo", packets, to_host, make=echo)
rows("of 1,200 bytes to a host, with an answer to each", packets // 5, to_host, text=long_text)

def most_of(lines):
    """For each program the KiB that were resident at most, of the run with the least, and those of its heap."""
    most, printed = same(lines)
    for _ in range(runs):
        again = memory(ours, os.devnull), memory(plain, os.devnull)
        most = [None if a is None else min(a, b) for a, b in zip(most, again)]
    return (*most, heap(ours), heap(plain)), printed

print(flush=True)
table("waiting", "bytes", "here, KiB", "plain, KiB", "of the heap here", "plain")
empty, _ = most_of(())
for title, load, count, size in (
    ("{} parcels of {:,} bytes in an inbox", in_inbox, 256, 1_500),
    ("{} parcels of {:,} bytes in an inbox", in_inbox, 256, 65_535),
    ("{} packets of {:,} bytes in a tunnel", in_tunnel, 64, 1_500),
    ("{} packets of {:,} bytes in a connection, a MiB of capsules", in_tunnel, 32, 32_762),
):
    most, printed = most_of(load(count, size))
    assert len([it for it in printed.splitlines() if it.endswith(b"Full")]) == 2, "not the two last packets were dropped"
    over = (None if a is None else a - b for a, b in zip(most, empty))
    line(title.format(count, size), f"{count * size:,}", *(cell(it, ",.0f") for it in over))

def copied(*steps, target=address(1), size=60_000):
    """The bytes that the program copies, a thousand or more at once, where such a packet arrives and these steps are taken."""
    write([*begun(65_535), piece(0, capsule(udp(address(0), target, bytes(size - 28)))), *steps])
    with open(f"{work}/script") as script:
        sums = dict(os.environ, LD_PRELOAD=f"{work}/copies.so", COPIES="1000")
        ran = subprocess.run(ours, stdin=script, stdout=subprocess.DEVNULL, stderr=subprocess.PIPE, check=True, env=sums)
    return int(ran.stderr) / size

if shutil.which("cc"):
    subprocess.run(["cc", "-O2", "-shared", "-fPIC", "-o", f"{work}/copies.so", "bench/copies.c"], check=True)
    arrived = copied()
    print(flush=True)
    table("a packet of 60,000 bytes", "how often its bytes are copied")
    line("from its link to the bytes that are owed to another", f"{copied('run 999') - arrived:.2f}")
    line("to a host, and back to the bytes that are owed to its link", f"{copied('run 999', target=HOST) - arrived:.2f}")
PY
