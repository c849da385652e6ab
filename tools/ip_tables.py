#!/usr/bin/python3
"""Writes the table of packets that the tests of mq_iphdr read (crates/mq_formats_tests/src/iphdr/table.rt).

The packets, what their headers say, and the packets behind the next hop come from scapy (Debian's python3-scapy), which
counts lengths and checksums by its own code. A packet with a fault is one of scapy's with the bytes changed that the row
names. Run it, and then `rt fmt` in crates/mq_iphdr. It isn't part of the gate.
"""
import ipaddress
import logging
import pathlib

logging.getLogger("scapy.runtime").setLevel(logging.ERROR)
from scapy.layers.inet import IP, IPOption_NOP, IPOption_RR, UDP  # noqa: E402
from scapy.layers.inet6 import (  # noqa: E402
    IPv6, IPv6ExtHdrDestOpt, IPv6ExtHdrFragment, IPv6ExtHdrHopByHop, IPv6ExtHdrRouting, PadN)
from scapy.packet import Raw  # noqa: E402

PAYLOAD = b"\xaa"
TAKEN, REFUSED = [], []


def taken(packet, header):
    """A row of a packet that is taken: what scapy reads of it, and what scapy builds for the next hop."""
    data = bytes(packet)
    if data[0] >> 4 == 4:
        read = IP(data)
        version, hop, protocol = "V4", read.ttl, read.proto
        ends = [int(ipaddress.IPv4Address(end)) for end in (read.src, read.dst)]
        behind = read.copy()
        behind.ttl -= 1
        del behind.chksum
    else:
        read = IPv6(data)
        version, hop, protocol = "V6", read.hlim, last_type(data, header)
        ends = [int(ipaddress.IPv6Address(end)) for end in (read.src, read.dst)]
        behind = read.copy()
        behind.hlim -= 1
    TAKEN.append((data, version, ends, protocol, hop, header, bytes(behind)))


def last_type(data, header):
    """The type of what stands behind so many bytes of headers, by scapy's layers."""
    layer = IPv6(data)
    at = 40
    while at < header:
        layer = layer.payload
        at += 8 if isinstance(layer, IPv6ExtHdrFragment) else (bytes(layer)[1] + 1) * 8
    return layer.nh


def refused(data, fault):
    REFUSED.append((bytes(data), fault))


def changed(packet, changes):
    data = bytearray(bytes(packet))
    for place, byte in changes.items():
        data[place] = byte
    return data


def v4(src="192.0.2.1", dst="198.51.100.9", **fields):
    return IP(src=src, dst=dst, proto=fields.pop("proto", 17), **fields) / Raw(PAYLOAD)


def v6(src="2001:db8::1", dst="2001:db8::9", **fields):
    return IPv6(src=src, dst=dst, nh=fields.pop("nh", 17), **fields) / Raw(PAYLOAD)


def chain(layers, src="2001:db8::1", dst="2001:db8::9"):
    packet = IPv6(src=src, dst=dst)
    for layer in layers:
        packet = packet / layer
    return packet / UDP(sport=7, dport=9) / Raw(PAYLOAD)


def options(size):
    return IPv6ExtHdrDestOpt(options=[PadN(optdata=bytes(size - 4))])


def rows_of_version_4():
    for ttl in (2, 3, 64, 255):
        taken(v4(ttl=ttl), 20)
    for count in (1, 4, 10):
        taken(v4(options=[IPOption_NOP()] * (4 * count)), 20 + 4 * count)
    taken(v4(options=[IPOption_RR(length=39, pointer=4, routers=["0.0.0.0"] * 9), IPOption_NOP()]), 60)
    taken(v4(proto=1, tos=0xb8, id=0xffff, flags="DF"), 20)
    # the other words sum to ffff, so the checksum is 0000, here and behind the next hop
    for ttl in (64, 65):
        packet = v4(ttl=ttl, id=0)
        rest = IP(bytes(packet)).chksum
        packet = v4(ttl=ttl, id=rest)
        assert IP(bytes(packet)).chksum == 0
        taken(packet, 20)
    for end in ("0.0.0.1", "126.255.255.255", "128.0.0.0", "169.253.255.255", "169.255.0.0", "223.255.255.255", "240.0.0.0",
                "255.255.255.254"):
        taken(v4(src=end), 20)
        taken(v4(dst=end), 20)
    for end in ("0.0.0.0", "127.0.0.0", "127.255.255.255", "169.254.0.0", "169.254.255.255", "224.0.0.0", "239.255.255.255",
                "255.255.255.255"):
        refused(bytes(v4(src=end)), "Address")
        refused(bytes(v4(dst=end)), "Address")
    good = bytes(v4())
    long = bytes(v4(options=[IPOption_NOP()] * 8))
    refused(b"", "Short")
    refused(good[:19], "Short")
    refused(good[:20], "Length")
    refused(good + b"\0", "Length")
    refused(bytes(v4(len=20)), "Length")
    refused(bytes(v4(len=22)), "Length")
    refused(bytes(v4(version=5)), "Version")
    refused(bytes(v4(version=0)), "Version")
    refused(bytes(v4(ihl=4)), "HeaderLength")
    refused(bytes(v4(ihl=6)), "HeaderLength")
    refused(bytes(v4(ihl=15)), "HeaderLength")
    for place in (1, 5, 8, 10, 11, 13, 19):
        refused(changed(v4(), {place: good[place] ^ 1}), "Checksum")
    refused(changed(long, {27: long[27] ^ 0x80}), "Checksum")
    refused(bytes(v4(src="127.0.0.1", chksum=0)), "Checksum")


def rows_of_version_6():
    for hop in (2, 64, 255):
        taken(v6(hlim=hop), 40)
    taken(IPv6(src="2001:db8::1", dst="2001:db8::9", nh=59), 40)
    for count in range(1, 9):
        taken(chain([options(8)] * count), 40 + 8 * count)
    taken(chain([IPv6ExtHdrHopByHop(options=[PadN(optdata=bytes(4))])]), 48)
    taken(chain([IPv6ExtHdrRouting(addresses=["2001:db8::2"])]), 64)
    taken(chain([options(64)]), 104)
    taken(chain([options(8)] * 7 + [IPv6ExtHdrFragment(nh=60)]), 104)
    taken(chain([IPv6ExtHdrFragment(offset=1, nh=60)]), 48)
    taken(chain([IPv6ExtHdrFragment(), options(8)]), 48)
    for end in ("::2", "fe7f::", "fec0::", "fbff:ffff::", "feff:ffff::"):
        taken(v6(src=end), 40)
        taken(v6(dst=end), 40)
    for end in ("::", "::1", "fe80::", "febf:ffff:ffff:ffff:ffff:ffff:ffff:ffff", "ff00::",
                "ffff:ffff:ffff:ffff:ffff:ffff:ffff:ffff"):
        refused(bytes(v6(src=end)), "Address")
        refused(bytes(v6(dst=end)), "Address")
    good = bytes(v6())
    refused(good[:1], "Short")
    refused(good[:39], "Short")
    refused(good[:40], "Length")
    refused(good + b"\0", "Length")
    refused(bytes(v6(plen=0)), "Length")
    refused(bytes(v6(plen=2)), "Length")
    refused(bytes(v6(version=7)), "Version")
    for kind in (0, 43, 44, 60):
        refused(bytes(v6(nh=kind)), "Extensions")
        refused(bytes(IPv6(src="2001:db8::1", dst="2001:db8::9", nh=kind)), "Extensions")
        refused(bytes(IPv6(src="2001:db8::1", dst="2001:db8::9", nh=kind) / Raw(bytes(7))), "Extensions")
    refused(bytes(IPv6(src="2001:db8::1", dst="2001:db8::9", nh=60) / Raw(b"\x11\x01" + bytes(13))), "Extensions")
    refused(bytes(chain([options(8)] * 9)), "Extensions")
    refused(bytes(chain([options(8)] * 8 + [IPv6ExtHdrFragment()])), "Extensions")
    refused(bytes(v6(src="::1", nh=0)), "Address")


def text(data):
    return 'b"' + "".join("\\x%02x" % byte for byte in data) + '"'


def written():
    lines = ["//! Packets, what their headers say and the packets behind the next hop, as scapy reads and builds them",
             "//! (tools/ip_tables.py).", "use crate::HeaderFault;", "use mq_addr::Addr;", "",
             "/// A packet that is taken.", "pub struct Taken {", "    pub packet: &'static [u8],", "    pub source: Addr,",
             "    pub target: Addr,", "    pub protocol: u8,", "    pub hop: u8,", "    pub header: u16,",
             "    /// Behind the next hop.", "    pub behind: &'static [u8],", "}", "",
             "pub const TAKEN: [Taken; %d] = [" % len(TAKEN)]
    for data, version, (source, target), protocol, hop, header, behind in TAKEN:
        lines.append("    Taken { packet: %s, source: Addr::%s(%#x), target: Addr::%s(%#x), protocol: %d, hop: %d, header: %d, "
                     "behind: %s }," % (text(data), version, source, version, target, protocol, hop, header, text(behind)))
    lines += ["];", "", "/// Packets that aren't taken, each with its first cause.",
              "pub const REFUSED: [(&[u8], HeaderFault); %d] = [" % len(REFUSED)]
    for data, fault in REFUSED:
        lines.append("    (%s, HeaderFault::%s)," % (text(data), fault))
    lines.append("];")
    return "\n".join(lines) + "\n"


if __name__ == "__main__":
    rows_of_version_4()
    rows_of_version_6()
    target = pathlib.Path(__file__).parent.parent / "crates/mq_formats_tests/src/iphdr/table.rt"
    target.write_text(written())
    print("%d taken, %d refused" % (len(TAKEN), len(REFUSED)))
