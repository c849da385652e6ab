#!/usr/bin/env python3
"""Writes the examples hundred_tunnels, one_byte_windows, counted_steps and queue_full, with what COMMAND prints for them beside.

Usage, at the top of the repository:  tools/tunnel_examples.py COMMAND..

COMMAND plays a script from its standard input, as `crates/masque/out/masque replay` does. The frames are spelled here, by RFC
9113, sections 4 and 6, and what has to be printed and written is worked out here too: each payload in its own tunnel, both ways,
eight frames of one byte for one capsule, the number of steps of each line, and which of 66 datagrams find a place. It isn't part
of the gate.
"""
import subprocess
import sys

PREFACE = b"PRI * HTTP/2.0\r\n\r\nSM\r\n\r\n"
PATH = b"/.well-known/masque/udp/192.0.2.6/443/"
BLOCK = b"\x02\x07CONNECT\x87\x04" + bytes((len(PATH),)) + PATH + b"\x01\x01p\x00\x09:protocol\x0bconnect-udp"
HUNDRED = """# A hundred tunnels on one connection of HTTP/2, tunnel N on stream 2 N + 1. Each client's payload is its tunnel's number, and so is
# each datagram that comes back: none goes another's way. One more stream than a hundred is turned away (RFC 9113, section 5.1.2).
"""
ONE_BYTE = """# A client of HTTP/2 that grants its stream one byte at a time: a capsule of eight bytes is framed in eight parts. Behind the
# second datagram's first byte the client ends its stream, which is reset then, since a part of a capsule is no data stream.
"""
COUNTED = """# Two tunnels on one connection of HTTP/2: a payload of each goes to its port, a datagram of each port comes back, and the client
# ends the stream of the first. Each line of steps has as many as there are to do, and the last has one more, at which nothing is.
"""
FULL = """# A client of HTTP/2 that grants its stream nothing, and 66 datagrams from the target: 64 wait in the tunnel, and the last two are
# dropped. When the client grants 1,000 bytes those that wait go to it in order, and one more datagram finds a place.
"""


def frame(kind, flags, stream, contents):
    return len(contents).to_bytes(3, "big") + bytes((kind, flags)) + stream.to_bytes(4, "big") + contents


def opening(window):
    return PREFACE + frame(4, 0, 0, bytes((0, 4)) + window.to_bytes(4, "big"))


def request(stream):
    return frame(1, 4, stream, BLOCK)


def said(stream, number):
    return frame(0, 0, stream, bytes((0, 2, 0, number)))


def piece(data):
    return "bytes 0 %s\n" % data.hex()


def hundred():
    lines = [HUNDRED, "conn 0\n", piece(opening(200)), piece(b"".join(request(2 * n + 1) for n in range(100))), "run 9999\n"]
    lines += [piece(request(201)), "run 9999\n", piece(b"".join(said(2 * n + 1, n) for n in range(100))), "run 9999\n"]
    lines += ["dgram %d %02x\n" % (n, n) for n in range(100)] + ["run 9999\n"]
    return "".join(lines)


def one_byte():
    grant = piece(frame(8, 0, 1, b"\0\0\0\1"))
    lines = [ONE_BYTE, "conn 0\n", piece(opening(1) + request(1)), "run 99\n", "dgram 0 %s\n" % b"hello".hex(), "run 99\n"]
    lines += [grant + "run 99\n"] * 7 + [grant, "dgram 0 %s\n" % b"again".hex(), "run 99\n"]
    return "".join(lines + [piece(frame(0, 1, 1, b"")), "run 99\n"])


def counted():
    lines = [COUNTED, "conn 0\n", piece(opening(65535) + request(1) + request(3)), "step 0 7\n"]
    lines += [piece(said(1, 7) + said(3, 8)), "dgram 0 70\n", "dgram 1 80\n", "step 0 9\n"]
    return "".join(lines + [piece(frame(0, 1, 1, b"")), "step 0 4\n"])


def full():
    lines = [FULL, "conn 0\n", piece(opening(0) + request(1)), "run 99\n"] + ["dgram 0 %02x\n" % n for n in range(66)] + ["run 999\n"]
    return "".join(lines + [piece(frame(8, 0, 1, (1000).to_bytes(4, "big"))), "dgram 0 %02x\n" % 66, "run 999\n"])


def frames(printed):
    """The type, stream and contents of each frame that was written."""
    left = b"".join(bytes.fromhex(line.split()[2]) for line in printed if line.startswith("wrote 0 "))
    while left:
        end = 9 + int.from_bytes(left[:3], "big")
        yield left[3], int.from_bytes(left[5:9], "big"), left[9:end]
        left = left[end:]


def check_hundred(printed):
    assert [line for line in printed if line.startswith("sent ")] == ["sent %d 0 %02x" % (n, n) for n in range(100)]
    wanted = {"delivered port%d 0 to %d %02x" % (n, n, n) for n in range(100)}
    assert {line for line in printed if line.startswith("delivered ")} == wanted
    assert sorted(f for f in frames(printed) if f[0] == 0) == [(0, 2 * n + 1, bytes((0, 2, 0, n))) for n in range(100)]
    assert [f for f in frames(printed) if f[0] == 3] == [(3, 201, b"\0\0\0\7")] and "reset 0 201 7" in printed


def check_one_byte(printed):
    capsules = bytes((0, 6, 0)) + b"hello" + b"\0"
    assert [f for f in frames(printed) if f[0] == 0] == [(0, 1, bytes((byte,))) for byte in capsules]
    assert printed.count("part 0 1") == 8 and printed.count("delivered port0 0 to 0 68656c6c6f") == 1
    assert [f for f in frames(printed) if f[0] == 3] == [(3, 1, b"\0\0\0\10")] and "closed 0 End left 1" in printed


def check_counted(printed):
    assert [line for line in printed if line.startswith("sent ")] == ["sent 0 0 07", "sent 1 0 08"]
    assert [f for f in frames(printed) if f[0] == 0] == [(0, 1, b"\0\2\0\x70"), (0, 3, b"\0\2\0\x80"), (0, 1, b"")]
    assert "closed 0 End left 0" in printed and len(printed) == 20 and printed[-1] == "idle 0"


def check_full(printed):
    queued = [line for line in printed if line.startswith(("queued ", "dropped "))]
    wanted = ["queued port0 %d to 0" % n for n in range(64)] + ["dropped port0 %d QueueFull" % n for n in (64, 65)]
    assert queued == wanted + ["queued port0 66 to 0"]
    went = [*range(64), 66]
    assert [line for line in printed if line.startswith("delivered ")] == ["delivered port0 %d to 0 %02x" % (n, n) for n in went]
    assert [f for f in frames(printed) if f[0] == 0] == [(0, 1, bytes((0, 2, 0, n))) for n in went]


def main():
    if len(sys.argv) < 2:
        sys.exit(__doc__)
    examples = [("hundred_tunnels", hundred(), check_hundred), ("one_byte_windows", one_byte(), check_one_byte)]
    examples += [("counted_steps", counted(), check_counted), ("queue_full", full(), check_full)]
    for name, script, check in examples:
        printed = subprocess.run(sys.argv[1:], input=script, capture_output=True, text=True, check=False).stdout
        check(printed.splitlines())
        for path, text in (f"examples/{name}.script", script), (f"examples/{name}.script.stdout", printed):
            with open(path, "w", encoding="utf-8") as f:
                f.write(text)


main()
