#!/usr/bin/python3
"""Writes the table of sessions that the tests of mq_client read (crates/mq_cores_tests/src/client/sessions.rt).

The proxy is the server of Python's h2 (Debian's python3-h2): what the client owes is given to it, which has to take it
without an error and read the fields of the request and the payloads out of it, and its bytes are fed. What the client owes and
tells stands in this file, by RFC 9113, RFC 7541 and RFC 9298. Run it, and then `rt fmt` in crates/mq_client. It isn't part
of the gate.
"""
import pathlib

from h2.config import H2Configuration
from h2.connection import H2Connection
from h2.events import (
    DataReceived, PingAckReceived, RemoteSettingsChanged, RequestReceived, SettingsAcknowledged, WindowUpdated)
from h2.settings import SettingCodes, Settings

from h2_sessions import ACKNOWLEDGED, frame, words, written

PREFACE = "505249202a20485454502f322e300d0a0d0a534d0d0a0d0a"
SETTINGS = "000006040000000000000200000000"
BLOCK = ("200207434f4e4e4543540087b95d8749c87a3f8821eaa8a44ad6c95f86049c617f05a285bad47f153148d1dad2b16c95b017c4b81712ee30d3"
         "4cb1018a089d5c0b8170dc780f03008b20eb45b4156aec3a4e43d1023f31")
FIELDS = [(":method", "CONNECT"), (":protocol", "connect-udp"), (":scheme", "http"),
          (":path", "/.well-known/masque/udp/192.0.2.6/443/"), (":authority", "127.0.0.1:8080"),
          ("capsule-protocol", "?1")]
OPENED = [(":status", "200"), ("capsule-protocol", "?1")]
LINES = []


def line(call, gives=""):
    LINES.append(("%s => %s" % (call, gives)).rstrip())


def datagram(payload):
    return b"\x00" + bytes([len(payload) + 1]) + b"\x00" + payload


class Session:
    """One proxy, and what the lines say of its client."""

    def __init__(self, **settings):
        self.proxy = H2Connection(config=H2Configuration(client_side=False, header_encoding="utf-8"))
        told = {SettingCodes.ENABLE_CONNECT_PROTOCOL: 1}
        told |= {SettingCodes[name.upper()]: value for name, value in settings.items()}
        self.proxy.local_settings = Settings(client=False, initial_values=told)
        self.proxy.initiate_connection()
        line("new")
        self.owed(PREFACE + SETTINGS, RemoteSettingsChanged)
        # its SETTINGS, and its acknowledgement of the client's
        self.fed()

    def fed(self, *events):
        """The proxy's bytes are fed, and give these events."""
        line("feed " + words(self.proxy.data_to_send().hex()), "; ".join(events))

    def owed(self, text, *kinds):
        """So much is owed, and the proxy says so."""
        line("owed", words(text))
        events = self.proxy.receive_data(bytes.fromhex(text))
        assert [type(event) for event in events] == list(kinds), events
        return events

    def asks(self):
        """The client puts its request, which the proxy reads."""
        events = self.owed(ACKNOWLEDGED + frame(1, 4, 1, BLOCK), SettingsAcknowledged, RequestReceived)
        assert events[1].headers == FIELDS, events[1].headers

    def opens(self):
        self.asks()
        self.proxy.send_headers(1, OPENED)
        self.fed("opened")

    def sends(self, data, *events, **padding):
        self.proxy.send_data(1, data, **padding)
        self.fed(*events)

    def data(self, content):
        """The client puts this on its stream, as one frame."""
        events = self.owed(frame(0, 0, 1, content.hex()), DataReceived)
        assert events[0].data == content


def a_tunnel_both_ways():
    session = Session()
    session.opens()
    line("send " + b"hi".hex())
    session.data(datagram(b"hi"))
    session.sends(datagram(b"ok"), "payload " + b"ok".hex())
    session.sends(datagram(b"a") + datagram(b"b"), "payload " + b"a".hex() + "; payload " + b"b".hex())
    session.proxy.end_stream(1)
    session.fed("closed")


def a_capsule_in_parts():
    session = Session()
    session.opens()
    capsule = datagram(b"parts")
    for at in range(len(capsule) - 1):
        session.sends(capsule[at:at + 1])
    session.sends(capsule[-1:], "payload " + b"parts".hex())


def padded_data():
    session = Session()
    session.opens()
    session.sends(datagram(b"ab"), "payload " + b"ab".hex(), pad_length=9)
    session.sends(b"", pad_length=0)


def refusals():
    for status in (403, 502, 100):
        session = Session()
        session.asks()
        fields = [(":status", str(status)), ("proxy-status", "masque; error=destination_ip_prohibited")]
        session.proxy.send_headers(1, fields, end_stream=status != 100)
        session.fed("refused %d" % status)


def small_windows():
    session = Session(initial_window_size=3)
    session.opens()
    line("send " + b"abc".hex())
    session.data(datagram(b"abc")[:3])
    line("waiting", "1")
    session.proxy.increment_flow_control_window(2, 1)
    session.fed()
    session.data(datagram(b"abc")[3:5])
    session.proxy.update_settings({SettingCodes.INITIAL_WINDOW_SIZE: 65_535})
    session.fed()
    session.owed(ACKNOWLEDGED + frame(0, 0, 1, b"c".hex()), SettingsAcknowledged, DataReceived)
    line("waiting", "0")


def pings():
    session = Session()
    session.opens()
    session.proxy.ping(bytes(range(1, 9)))
    session.fed()
    session.owed(frame(6, 1, 0, "0102030405060708"), PingAckReceived)


def windows_are_given_back():
    """A capsule of a type that isn't known, of 32,000 bytes, comes in three frames: the third passes 16,384 bytes."""
    session = Session()
    session.opens()
    capsule = bytes.fromhex("2980007d00") + bytes(32_000)
    for part in (capsule[:16_000], capsule[16_000:16_005]):
        session.sends(part)
    line("owed")
    session.sends(capsule[16_005:])
    grant = "%08x" % 32_005
    session.owed(frame(8, 0, 0, grant) + frame(8, 0, 1, grant), WindowUpdated, WindowUpdated)
    assert session.proxy.local_flow_control_window(1) == 65_535


def a_reset():
    session = Session()
    session.opens()
    session.proxy.reset_stream(1, 8)
    session.fed("closed")
    session.proxy.close_connection()
    session.fed()
    line("owed")


def no_extended_connect():
    session = Session.__new__(Session)
    session.proxy = H2Connection(config=H2Configuration(client_side=False))
    session.proxy.initiate_connection()
    line("new")
    session.owed(PREFACE + SETTINGS, RemoteSettingsChanged)
    session.fed("refused 0")


SESSIONS = (a_tunnel_both_ways, a_capsule_in_parts, padded_data, refusals, small_windows, pings, windows_are_given_back,
            a_reset, no_extended_connect)


HEAD = ("//! Sessions with the server of Python's h2 as a proxy: its bytes and what a client tells of them, and what the client",
        "//! owes, which that server takes (tools/h2_proxies.py).")

if __name__ == "__main__":
    for session in SESSIONS:
        session()
    target = pathlib.Path(__file__).parent.parent / "crates/mq_cores_tests/src/client/sessions.rt"
    target.write_text(written(HEAD, LINES))
    print("%d sessions, %d lines" % (len(SESSIONS), len(LINES)))
