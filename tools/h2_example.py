#!/usr/bin/python3
"""Writes examples/five_tunnels.script: a client of HTTP/2 with five UDP tunnels on one connection.

Usage, at the top of the repository:  tools/h2_example.py COMMAND..

COMMAND plays a script from its standard input, as `crates/masque/out/masque replay` does. The client is that of Python's h2
(Debian's python3-h2): its bytes become lines of the script, what the proxy prints that it wrote is given to it, and it has to
take that without an error. Each tunnel's payloads are marked with its number, and have to come back on its stream alone. Beside
the script it writes what the command printed for it. It isn't part of the gate.
"""
import subprocess
import sys

from h2.config import H2Configuration
from h2.connection import H2Connection
from h2.events import DataReceived, ResponseReceived, StreamEnded, StreamReset
from h2.settings import SettingCodes

SCRIPT = "examples/five_tunnels.script"
WORDS = """# A client of HTTP/2 with five tunnels on one connection, each on its own stream. It grants each stream 20 bytes at first, so
# that a capsule to it is cut (`part`), and grants more then. One stream is ended, one is reset, and one sends a capsule without
# a Context ID: their tunnels close, and the two others go on. The bytes are those of a real client (tools/h2_example.py).
"""
STREAMS = (1, 3, 5, 7, 9)
HOST = "proxy.example"


def capsule(payload):
    """A DATAGRAM capsule of Context ID 0 (RFC 9297, section 3.5; all lengths here are below 64)."""
    return bytes((0, len(payload) + 1, 0)) + payload


class Session:
    def __init__(self, command):
        self.command = command
        self.lines = [WORDS, "conn 0\n"]
        self.given = 0
        self.got = {stream: b"" for stream in STREAMS}
        self.answers = {}
        self.ended, self.reset = set(), {}
        self.client = H2Connection(config=H2Configuration(client_side=True, header_encoding="utf-8"))
        self.client.initiate_connection()
        self.client.update_settings({SettingCodes.INITIAL_WINDOW_SIZE: 20})

    def send(self):
        """What the client has to send, as one piece."""
        data = self.client.data_to_send()
        if data:
            self.lines.append("bytes 0 %s\n" % data.hex())

    def printed(self):
        run = subprocess.run(self.command, input="".join(self.lines), capture_output=True, text=True, check=False)
        return run.stdout

    def run(self):
        """The proxy takes its steps, and the client gets what was written to it."""
        self.lines.append("run 999\n")
        wrote = b"".join(bytes.fromhex(line.split()[2]) for line in self.printed().splitlines() if line.startswith("wrote 0 "))
        for event in self.client.receive_data(wrote[self.given:]):
            if isinstance(event, ResponseReceived):
                self.answers[event.stream_id] = dict(event.headers)
            elif isinstance(event, DataReceived):
                self.got[event.stream_id] += event.data
            elif isinstance(event, StreamEnded):
                self.ended.add(event.stream_id)
            elif isinstance(event, StreamReset):
                self.reset[event.stream_id] = event.error_code
        self.given = len(wrote)

    def ask(self, stream, port):
        self.client.send_headers(stream, [
            (":method", "CONNECT"), (":protocol", "connect-udp"), (":scheme", "https"), (":authority", HOST),
            (":path", "/.well-known/masque/udp/192.0.2.6/%d/" % port), ("capsule-protocol", "?1")])


def main():
    if len(sys.argv) < 2:
        sys.exit(__doc__)
    s = Session(sys.argv[1:])
    s.send()
    s.run()
    for number, stream in enumerate(STREAMS):
        s.ask(stream, 4430 + number)
    s.send()
    s.run()
    assert all(s.answers[stream] == {":status": "200", "capsule-protocol": "?1"} for stream in STREAMS), s.answers
    for number, stream in enumerate(STREAMS):
        text = capsule(b"to %d" % number)
        s.client.send_data(stream, text[:4])
        s.client.send_data(stream, text[4:])
    s.send()
    for number, _ in enumerate(STREAMS):
        s.lines.append("dgram %d %s\n" % (number, (b"from %d, in two parts" % number).hex()))
    s.run()
    assert all(len(s.got[stream]) == 20 for stream in STREAMS), s.got
    for stream in STREAMS:
        s.client.increment_flow_control_window(4096, stream)
    s.send()
    s.run()
    for number, stream in enumerate(STREAMS):
        assert s.got[stream] == capsule(b"from %d, in two parts" % number), s.got
    s.client.end_stream(3)
    s.client.reset_stream(5, 8)
    s.client.send_data(7, bytes((0, 0)))
    s.client.send_data(9, capsule(b"still"))
    s.send()
    s.lines.append("dgram 0 %s\n" % b"there".hex())
    s.run()
    assert 3 in s.ended and s.reset == {7: 1}, (s.ended, s.reset)
    assert s.got[1].endswith(capsule(b"there")), s.got
    s.client.close_connection()
    s.send()
    s.lines.append("end 0\n")
    s.lines.append("run 999\n")
    printed = s.printed()
    assert printed.endswith("ended 0 Done\n"), printed
    with open(SCRIPT, "w", encoding="utf-8") as f:
        f.write("".join(s.lines))
    with open(SCRIPT + ".stdout", "w", encoding="utf-8") as f:
        f.write(printed)


main()
