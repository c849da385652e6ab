#!/usr/bin/env python3
"""Writes the examples of tunnels for IP packets, with what COMMAND prints for them beside.

Usage, at the top of the repository:  tools/ip_examples.py COMMAND..

COMMAND plays a script from its standard input, as `crates/masque/out/masque replay` does. Packets, capsules and frames are spelled
here, by RFC 791, section 3.1, RFC 8200, section 3, RFC 4443, section 4, RFC 9297, section 3.2, RFC 9484, section 4.7, and RFC 9113,
section 4, and what has to be printed is worked out here too: which packets are delivered and sent, with which bytes, and which are
dropped. It isn't part of the gate.
"""
import ipaddress
import subprocess
import sys

PREFACE = b"PRI * HTTP/2.0\r\n\r\nSM\r\n\r\n"
TEXT = "GET /.well-known/masque/ip/*/*/ HTTP/1.1\\r\\nHost: proxy.example\\r\\nConnection: Upgrade\\r\\nUpgrade: connect-ip\\r\\n\\r\\n"
PATH = "/.well-known/masque/ip/*/*/"
HOST = "203.0.113.5"
ALL = "route 0.0.0.0 255.255.255.255 0\n"
RUN = "run 99\n"

SESSION = """# A tunnel for IP packets over HTTP/1.1 (RFC 9484). Behind its 101 the proxy tells its ways (ROUTE_ADVERTISEMENT, section 4.7.3:
# all of IPv4). The client asks for an address, any one (ADDRESS_REQUEST, section 4.7.2), and is given the least one that is free
# (ADDRESS_ASSIGN, section 4.7.1).
"""
TO_HOST = """# From that address it sends a UDP datagram to a host, which answers: the packet goes to the pump's inbox (`pushed .. to net`), is
# sent there, and the answer comes back in the tunnel with its hop limit lowered.
"""
NOT_ITS_OWN = """# A packet from an address that the tunnel wasn't given is dropped (Source), and so is one that is longer than its header says
# (BadHeader).
"""
SESSION_H2 = """# Two tunnels for IP packets on one connection of HTTP/2, on streams 1 and 3, by a template of the proxy's own and a rule that allows
# packets of UDP, protocol 17, to any address. A third request, for all protocols, is denied.
"""
TO_BOTH = """# The first sends a packet to a host, which answers, and one to the second's address. That goes through the inbox of their worker.
"""
ENDS = """# The first ends its stream: its tunnel closes, and a packet to its address has no way (NoRoute).
"""
BETWEEN = """# Two clients on two workers, each with a tunnel for IP packets and an address. The proxy leads to 10.0.0.0/24 and 192.0.2.0/24 alone,
# and says so in each tunnel (ROUTE_ADVERTISEMENT, RFC 9484, section 4.7.3). A packet of the first to the address of the second goes
# to the inbox of the other worker, whose step takes it from there. A number behind `at` is how many entries the book had.
"""
BACK = """# The other way, and to an address that nobody has: of `pool` nothing leads to the network, so it has no way (NoRoute).
"""
BEHIND = """# The second client advertises that 192.0.2.0/24 lies behind it: from then on packets to there go its way, and it may send packets that
# come from there.
"""
HOPS = """# A packet from an inbox goes on in its tunnel with its hop limit lowered, as a router forwards it (RFC 9484, section 7.1), and one
# whose hop limit is at its end is dropped (HopLimit). The two packets of the first client have the hop limits 1 and 2.
"""
GONE = """# Two packets from the network are let pass to a tunnel while its worker has read that its client ended (`finished`) and hasn't closed
# it yet. The worker takes the first from its inbox, closes the tunnel, in which that one was left, and takes the second: its tunnel
# is gone.
"""
AGAIN = """# Its address is free again: the next client asks for the same, and is given it.
"""
INBOX = """# An inbox has 256 places. So many copies of a packet from the network wait in the worker's, and the last two are dropped.
"""
CONTROLS = """# Sixteen control capsules may wait in a tunnel for IP packets. A client of HTTP/2 grants its stream nothing, so the proxy's ways wait
# there, and then the answers to fifteen requests for an address, of which the pool has one. Where one more would wait the tunnel
# closes (Full), and its stream is reset (RST_STREAM 11, ENHANCE_YOUR_CALM); the connection goes on.
"""
SIXTH = """# The same in IPv6: the client is given an address of a pool of that version, and pings a host (ICMPv6, RFC 4443, section 4): its echo
# reply comes back. ICMPv6 goes by every route, whatever protocol that is for (RFC 9484, section 4.7.3): this one is for UDP.
"""
HISTORY = """# The book has four places here, and each open tunnel keeps one for its end. Two addresses are assigned, and for the third there is no
# place: its tunnel closes (Full), which takes the last one.
"""
NO_PLACE = """# No tunnel opens from then on: 503.
"""


def number(n, size):
    return n.to_bytes(size, "big")


def address(text):
    return ipaddress.ip_address(text).packed


def checksum(header):
    header += b"\0" * (len(header) % 2)
    total = sum(int.from_bytes(header[i:i + 2], "big") for i in range(0, len(header), 2))
    while total >> 16:
        total = (total & 0xFFFF) + (total >> 16)
    return number(0xFFFF ^ total, 2)


def packet(source, target, text, hops=64, ports=(4000, 7)):
    """A UDP datagram without a checksum, in an IPv4 packet without options."""
    datagram = number(ports[0], 2) + number(ports[1], 2) + number(8 + len(text), 2) + b"\0\0" + text
    front = b"\x45\0" + number(20 + len(datagram), 2) + b"\0\0\0\0" + bytes((hops, 17))
    ends = address(source) + address(target)
    return front + checksum(front + b"\0\0" + ends) + ends + datagram


def ping(source, target, kind, text, hops=64):
    """An ICMPv6 echo, asked (128) or replied (129), in an IPv6 packet without extension headers."""
    ends = address(source) + address(target)
    rest = number(7, 2) + number(1, 2) + text
    pseudo = ends + number(8 + len(text), 4) + b"\0\0\0" + bytes((58,))
    echo = bytes((kind, 0)) + checksum(pseudo + bytes((kind, 0, 0, 0)) + rest) + rest
    return b"\x60\0\0\0" + number(len(echo), 2) + bytes((58, hops)) + ends + echo


def capsule(kind, value):
    length = bytes((len(value),)) if len(value) < 64 else number(0x4000 | len(value), 2)
    return bytes((kind,)) + length + value


def carried(bytes_of_packet):
    return capsule(0, b"\0" + bytes_of_packet)


def asked(number_of_request, wanted="0.0.0.0"):
    block = ipaddress.ip_address(wanted)
    return capsule(2, bytes((number_of_request, block.version)) + block.packed + bytes((block.max_prefixlen,)))


def ways(*ranges):
    return capsule(3, b"".join(b"\4" + address(first) + address(last) + b"\0" for first, last in ranges))


def frame(kind, flags, stream, contents):
    return number(len(contents), 3) + bytes((kind, flags)) + number(stream, 4) + contents


def data(stream, contents):
    return frame(0, 0, stream, contents)


def request(stream, path):
    block = b"\x02\x07CONNECT\x87\x04" + bytes((len(path),)) + path.encode() + b"\x01\x01p\x00\x09:protocol\x0aconnect-ip"
    return frame(1, 4, stream, block)


def text(conn):
    return "text %d %s\n" % (conn, TEXT)


def piece(conn, contents):
    return "bytes %d %s\n" % (conn, contents.hex())


def session():
    own = "198.51.100.8"
    lines = [SESSION, "pool 198.51.100.8/29\n", ALL, "host %s\n" % HOST, "conn 0\n", text(0), piece(0, asked(1)), RUN]
    lines += [TO_HOST, piece(0, carried(packet(own, HOST, b"hi"))), RUN, NOT_ITS_OWN]
    return lines + [piece(0, carried(packet("198.51.100.9", HOST, b"hi")) + carried(packet(own, HOST, b"hi") + b"!")), RUN, "end 0\n", RUN]


def check_session(printed):
    own = "198.51.100.8"
    assert "assigned 0 at 1 1=198.51.100.8/32" in printed
    assert "sent 0 0 " + packet(own, HOST, b"hi").hex() in printed
    assert "delivered net 0 to 0 " + packet(HOST, own, b"hi", 63, (7, 4000)).hex() in printed
    assert dropped(printed) == ["dropped 0 1 Source", "dropped 0 2 BadHeader"]


def session_h2():
    first, second = "198.51.100.8", "198.51.100.9"
    lines = [SESSION_H2, "template ip /ip/{target}/{ipproto}\n", "allow ip * 17\n", "deny ip * *\n", "pool 198.51.100.8/29\n", ALL]
    lines += ["host %s\n" % HOST, "conn 0\n", piece(0, PREFACE + frame(4, 0, 0, b""))]
    lines += [piece(0, request(stream, path)) for stream, path in ((1, "/ip/*/17"), (3, "/ip/*/17"), (5, "/ip/*/*"))]
    lines += [RUN, "# Both ask for an address.\n", piece(0, data(1, asked(1))), piece(0, data(3, asked(1))), RUN, TO_BOTH]
    lines += [piece(0, data(1, carried(packet(first, HOST, b"hi")) + carried(packet(first, second, b"to you")))), RUN, ENDS]
    return lines + [piece(0, frame(0, 1, 1, b"")), RUN, piece(0, data(3, carried(packet(second, first, b"hi")))), RUN]


def check_session_h2(printed):
    first, second = "198.51.100.8", "198.51.100.9"
    assert "refused 0 5 403 rule 2" in printed and "sent 0 0 " + packet(first, HOST, b"hi").hex() in printed
    assert "delivered 0 1 to 1 " + packet(first, second, b"to you", 63).hex() in printed
    assert "delivered net 0 to 0 " + packet(HOST, first, b"hi", 63, (7, 4000)).hex() in printed
    assert dropped(printed) == ["dropped 1 0 NoRoute"]


def between():
    lines = [BETWEEN, "workers 2\n", "pool 10.0.0.0/24\n", "reach 192.0.2.0/24\n", "route 10.0.0.0 10.0.0.255 0\n"]
    lines += ["route 192.0.2.0 192.0.2.255 0\n", "conn 0\n", "conn 1\n", text(0), text(1), RUN]
    lines += [piece(0, asked(1, "10.0.0.1")), piece(1, asked(1, "10.0.0.2")), RUN]
    lines += [piece(0, carried(packet("10.0.0.1", "10.0.0.2", b"hello"))), "step 0 4\n", "step 1 4\n", BACK]
    lines += [piece(1, carried(packet("10.0.0.2", "10.0.0.1", b"hello yourself")) + carried(packet("10.0.0.2", "10.0.0.3", b"hi"))), RUN]
    lines += [BEHIND, piece(1, ways(("192.0.2.0", "192.0.2.255"))), RUN]
    lines += [piece(0, carried(packet("10.0.0.1", "192.0.2.77", b"behind"))), RUN]
    return lines + [piece(1, carried(packet("192.0.2.77", "10.0.0.1", b"from behind"))), RUN]


def check_between(printed):
    went = [(0, 0, 1, packet("10.0.0.1", "10.0.0.2", b"hello", 63)), (1, 0, 0, packet("10.0.0.2", "10.0.0.1", b"hello yourself", 63))]
    went += [(0, 1, 1, packet("10.0.0.1", "192.0.2.77", b"behind", 63)), (1, 2, 0, packet("192.0.2.77", "10.0.0.1", b"from behind", 63))]
    wanted = ["delivered %d %d to %d %s" % (source, n, target, there.hex()) for source, n, target, there in went]
    assert [line for line in printed if line.startswith("delivered ")] == wanted
    assert dropped(printed) == ["dropped 1 1 NoRoute"] and "advertised 1 at 4 yes" in printed


def hops():
    lines = [HOPS, "pool 10.0.0.0/24\n", ALL, "conn 0\n", "conn 0\n", text(0), text(1)]
    lines += [piece(0, asked(1, "10.0.0.1")), piece(1, asked(1, "10.0.0.2")), RUN]
    one, two = packet("10.0.0.1", "10.0.0.2", b"one", 1), packet("10.0.0.1", "10.0.0.2", b"two", 2)
    return lines + [piece(0, carried(one) + carried(two)), RUN]


def check_hops(printed):
    assert dropped(printed) == ["dropped 0 0 HopLimit"]
    assert "delivered 0 1 to 1 " + packet("10.0.0.1", "10.0.0.2", b"two", 1).hex() in printed


def from_network(count):
    return "packet %d %s\n" % (count, packet(HOST, "10.0.0.1", b"hi").hex())


def one_client():
    return ["pool 10.0.0.0/24\n", ALL, "conn 0\n", text(0), piece(0, asked(1, "10.0.0.1")), RUN]


def gone():
    lines = [GONE] + one_client() + ["end 0\n", "step 0\n", from_network(2), "step net 4\n", "step 0 4\n"]
    return lines + [AGAIN, "conn 0\n", text(1), piece(1, asked(1, "10.0.0.1")), RUN]


def check_gone(printed):
    assert dropped(printed) == ["dropped net 1 Gone"] and "closed 0 End left 1" in printed
    assert [line.split()[4] for line in printed if line.startswith("assigned ")] == ["1=10.0.0.1/32"] * 2


def inbox():
    return [INBOX] + one_client() + [from_network(258), "step net 999\n"]


def check_inbox(printed):
    assert [line for line in printed if line.startswith("pushed ")] == ["pushed net %d to 0" % n for n in range(256)]
    assert dropped(printed) == ["dropped net %d InboxFull" % n for n in (256, 257)]


def controls():
    lines = [CONTROLS, "pool 10.0.0.1/32\n", "conn 0\n", piece(0, PREFACE + frame(4, 0, 0, b"\0\4\0\0\0\0")), piece(0, request(1, PATH))]
    return lines + [RUN, piece(0, data(1, b"".join(asked(n) for n in range(1, 18)))), RUN]


def check_controls(printed):
    told = [" ".join(line.split()[4:]) for line in printed if line.startswith("assigned ")]
    assert told == ["1=10.0.0.1/32"] + ["1=10.0.0.1/32 %d=0.0.0.0/32" % n for n in range(2, 16)]
    assert printed[-2:] == ["closed 0 Full left 0", "wrote 0 " + frame(3, 0, 1, number(11, 4)).hex()]


def history():
    lines = [HISTORY, "history 4\n", "pool 10.0.0.0/24\n", "conn 0\n", text(0), RUN]
    lines += [piece(0, b"".join(asked(n, "10.0.0.%d" % n) for n in (1, 2, 3))), RUN]
    return lines + [NO_PLACE, "conn 0\n", text(1), RUN]


def check_history(printed):
    assert "assigned 0 at 2 1=10.0.0.1/32 2=10.0.0.2/32" in printed and "refused 1 0 503" in printed
    assert sum(line.startswith("assigned ") for line in printed) == 2 and "closed 0 Full left 0" in printed


def sixth():
    own, host = "2001:db8:1::", "2001:db8:2::5"
    lines = [SIXTH, "pool 2001:db8:1::/120\n", "route 2000:: 3fff:ffff:ffff:ffff:ffff:ffff:ffff:ffff 17\n", "host %s\n" % host, "conn 0\n"]
    return lines + [text(0), piece(0, asked(1, "::")), RUN, piece(0, carried(ping(own, host, 128, b"are you there"))), RUN]


def check_sixth(printed):
    own, host = "2001:db8:1::", "2001:db8:2::5"
    assert "assigned 0 at 1 1=2001:db8:1::/128" in printed
    assert "sent 0 0 " + ping(own, host, 128, b"are you there").hex() in printed
    assert "delivered net 0 to 0 " + ping(host, own, 129, b"are you there", 63).hex() in printed


def dropped(printed):
    return [line for line in printed if line.startswith("dropped ")]


def main():
    if len(sys.argv) < 2:
        sys.exit(__doc__)
    examples = [("ip_session", session(), check_session), ("ip_session_h2", session_h2(), check_session_h2)]
    examples += [("ip_between", between(), check_between), ("ip_version_6", sixth(), check_sixth), ("hop_limit", hops(), check_hops), ("gone", gone(), check_gone)]
    examples += [("inbox_full", inbox(), check_inbox), ("full_controls", controls(), check_controls), ("history_full", history(), check_history)]
    for name, lines, check in examples:
        script = "".join(lines)
        printed = subprocess.run(sys.argv[1:], input=script, capture_output=True, text=True, check=False).stdout
        check(printed.splitlines())
        for path, content in (f"examples/{name}.script", script), (f"examples/{name}.script.stdout", printed):
            with open(path, "w", encoding="utf-8") as f:
                f.write(content)


main()
