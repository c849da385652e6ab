#!/usr/bin/python3
"""Writes the table of sessions that the tests of mq_h2 read (crates/mq_cores_tests/src/h2/sessions.rt).

The client is that of Python's h2 (Debian's python3-h2): its bytes are fed, and what the server owes is given to it,
which has to take it without an error and say what is expected here. What the server owes stands in this file, by RFC
9113 and RFC 7541. Run it, and then `rt fmt` in crates/mq_h2. It isn't part of the gate.
"""
import pathlib
import re

from h2.config import H2Configuration
from h2.connection import H2Connection
from h2.events import (
    ConnectionTerminated, DataReceived, PingAckReceived, RemoteSettingsChanged, ResponseReceived, SettingsAcknowledged,
    StreamEnded, StreamReset, WindowUpdated)
from h2.settings import SettingCodes

PREFACE = 24
SETTINGS = "000012040000000000000300000064000600004000000800000001"
ACKNOWLEDGED = "000000040100000000"
LINES = []


def frame(kind, flags, stream, contents):
    return "%06x%02x%02x%08x%s" % (len(contents) // 2, kind, flags, stream, contents)


def words(text):
    """Hex as the words of the tests: runs of one byte are HH*N."""
    out = [""]
    for run in re.finditer(r"(..)\1*", text):
        byte, count = run.group(1), len(run.group(0)) // 2
        if count < 40:
            out[-1] += run.group(0)
        else:
            out += ["%s*%d" % (byte, count), ""]
    return " ".join(word for word in out if word)


def line(call, gives=""):
    LINES.append(("%s => %s" % (call, gives)).rstrip())


def asked(stream, fields, end):
    return " ".join(["Q %d %d" % (stream, end)] + ["%s=%s" % field for field in fields])


def content(stream, data, length, end=0):
    return "C %d %d %d %s" % (stream, length, end, "#%d" % len(data) if len(data) > 64 else data.hex())


class Session:
    """One client, and what the lines say of it."""

    def __init__(self):
        config = H2Configuration(client_side=True, header_encoding="utf-8")
        self.client = H2Connection(config=config)
        self.client.initiate_connection()
        line("new")
        line("feed " + words(self.client.data_to_send()[PREFACE:].hex()))
        self.owed(SETTINGS + ACKNOWLEDGED, RemoteSettingsChanged, SettingsAcknowledged)
        self.fed()
        self.first = True

    def fed(self, *events):
        """The client's bytes are fed, and give these events."""
        line("feed " + words(self.client.data_to_send().hex()), "; ".join(events))

    def owed(self, text, *kinds):
        """So much is owed, and the client says so."""
        line("owed", words(text))
        events = self.client.receive_data(bytes.fromhex(text))
        assert [type(event) for event in events] == list(kinds), events
        return events

    def headers(self, stream, block, end=False):
        text = ("20" if self.first else "") + block
        self.first = False
        return frame(1, 5 if end else 4, stream, text)

    def accepts(self, stream):
        """The answer 200 of a tunnel."""
        line("respond %d 200" % stream)
        self.owed(self.headers(stream, "88008b20eb45b4156aec3a4e43d1023f31"), ResponseReceived)

    def refuses(self, stream):
        """The answer 501, which ends a stream whose client side has ended."""
        line("respond %d 501" % stream)
        events = self.owed(self.headers(stream, "08826c01", True), ResponseReceived, StreamEnded)
        assert events[0].headers == [(":status", "501")]


def tunnel(path, protocol="connect-udp"):
    return [(":method", "CONNECT"), (":protocol", protocol), (":scheme", "https"), (":path", path),
            (":authority", "proxy.example"), ("capsule-protocol", "?1")]


UDP = tunnel("/.well-known/masque/udp/192.0.2.6/443/")
IP = tunnel("/.well-known/masque/ip/*/*/", "connect-ip")
GET = [(":method", "GET"), (":scheme", "https"), (":authority", "proxy.example"), (":path", "/"),
       ("user-agent", "python-h2")]


def opens(session, stream=1, fields=UDP):
    session.client.send_headers(stream, fields)
    session.fed(asked(stream, fields, 0))


def a_tunnel_both_ways():
    session = Session()
    opens(session)
    session.accepts(1)
    datagram = bytes.fromhex("000401aabbcc")
    session.client.send_data(1, datagram)
    session.fed(content(1, datagram, 6))
    line("send 1 0002ddee", "4")
    events = session.owed(frame(0, 0, 1, "0002ddee"), DataReceived)
    assert events[0].data == bytes.fromhex("0002ddee")
    session.client.end_stream(1)
    session.fed(content(1, b"", 0, 1))
    line("end 1")
    session.owed(frame(0, 1, 1, ""), DataReceived, StreamEnded)


def requests_by_the_table():
    session = Session()
    for stream in (1, 3, 5):
        session.client.send_headers(stream, GET, end_stream=True)
        session.fed(asked(stream, GET, 1))
        session.refuses(stream)


def two_requests_in_a_piece():
    session = Session()
    session.client.send_headers(1, IP)
    session.client.send_headers(3, GET, end_stream=True)
    session.fed(asked(1, IP, 0), asked(3, GET, 1))
    session.refuses(3)
    session.accepts(1)


def padded_data():
    session = Session()
    opens(session)
    session.client.send_data(1, b"ab", pad_length=7)
    session.fed(content(1, b"ab", 10))
    session.client.send_data(1, b"", pad_length=0)
    session.fed(content(1, b"", 1))


def pings():
    session = Session()
    session.client.ping(bytes(range(1, 9)))
    session.fed()
    session.owed(frame(6, 1, 0, "0102030405060708"), PingAckReceived)


def small_windows():
    session = Session()
    session.client.update_settings({SettingCodes.INITIAL_WINDOW_SIZE: 3})
    session.fed()
    session.owed(ACKNOWLEDGED, SettingsAcknowledged)
    opens(session)
    session.accepts(1)
    line("room 1", "3")
    line("send 1 " + b"abcdef".hex(), "3")
    session.owed(frame(0, 0, 1, b"abc".hex()), DataReceived)
    session.client.increment_flow_control_window(2, 1)
    session.fed()
    line("send 1 " + b"def".hex(), "2")
    session.owed(frame(0, 0, 1, b"de".hex()), DataReceived)


def resets():
    session = Session()
    session.client.send_headers(1, UDP)
    session.client.send_data(1, b"xy")
    session.client.reset_stream(1, 8)
    session.fed()
    opens(session, 3)
    session.client.reset_stream(3, 8)
    session.fed("R 3 8")
    opens(session, 5)
    line("reset 5 1")
    session.owed(frame(3, 0, 5, "00000001"), StreamReset)


def priorities():
    session = Session()
    session.client.prioritize(1, weight=20)
    session.client.send_headers(1, UDP, priority_weight=16)
    session.fed(asked(1, UDP, 0))


def data_past_a_window():
    """64,000 bytes, as consumed and given back on the way."""
    session = Session()
    opens(session)
    session.accepts(1)
    for _ in range(4):
        session.client.send_data(1, bytes(16_000))
        session.fed(content(1, bytes(16_000), 16_000))
        line("consumed 1 16000")
    line("act")
    session.owed(frame(8, 0, 0, "%08x" % 64_000), WindowUpdated)
    line("act")
    session.owed(frame(8, 0, 1, "%08x" % 64_000), WindowUpdated)
    assert session.client.local_flow_control_window(1) == 65_535
    session.client.close_connection()
    session.fed()
    line("begun", "0")


def too_large_a_request():
    """The client cuts a block of more than 16,384 bytes into HEADERS and CONTINUATION."""
    session = Session()
    session.client.send_headers(1, GET + [("cookie", "X" * 17_000)], end_stream=True)
    session.fed("E 11")
    events = session.owed(frame(7, 0, 0, "000000010000000b"), ConnectionTerminated)
    assert (events[0].error_code, events[0].last_stream_id) == (11, 1)


SESSIONS = (a_tunnel_both_ways, requests_by_the_table, two_requests_in_a_piece, padded_data, pings, small_windows,
            resets, priorities, data_past_a_window, too_large_a_request)


HEAD = ("//! Ten sessions of the client of Python's h2: its bytes and what they give, and what is owed, which",
        "//! that client takes (tools/h2_sessions.py).")


def cut(text, most=118):
    """A line of the table, cut where it is too long, but not before a space."""
    while len(text) > most:
        end = most
        while text[end] == " ":
            end -= 1
        yield text[:end] + "\\"
        text = text[end:]
    yield text


def written(head, table):
    """The file of a table, below these lines of its head."""
    lines = [*head, "", 'pub const SESSIONS: &str = "\\']
    for text in table:
        lines += cut(text)
    lines[-1] += '";'
    return "\n".join(lines) + "\n"


if __name__ == "__main__":
    for session in SESSIONS:
        session()
    target = pathlib.Path(__file__).parent.parent / "crates/mq_cores_tests/src/h2/sessions.rt"
    target.write_text(written(HEAD, LINES))
    print("%d sessions, %d lines" % (len(SESSIONS), len(LINES)))
