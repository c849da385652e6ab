#!/usr/bin/python3
"""Prints the blocks that crates/mq_bench/src/hpack.rt reads: a line in hex for each, and an empty line
between connections. The first two connections stand in RFC 7541, appendices C.4 and C.6, the second
behind the limit 256. The others are written by python3-hpack (Debian's 4.0.0) from the fields below."""
from hpack import Encoder

STANDARD = [
    ["828684418cf1e3c2e5f23a6ba0ab90f4ff", "828684be5886a8eb10649cbf",
     "828785bf408825a849e95ba97d7f8925a849e95bb8e8b4bf"],
    ["3fe101488264025885aec3771a4b6196d07abe941054d444a8200595040b8166e082a62d1bff6e919d29ad171863c78f0b97c8e9ae82ae43d3",
     "4883640effc1c0bf",
     "88c16196d07abe941054d444a8200595040b8166e084a62d1bffc05a839bd9ab77ad94e7821dd7f2e6c7b335dfdfcd5b3960d5af27087f"
     "3672c1ab270fb5291f9587316065c003ed4ee5b1063d5007"],
]

AGENT = ("user-agent", "Mozilla/5.0 (X11; Linux x86_64; rv:128.0) Gecko/20100101 Firefox/128.0")
PAGE = "text/html,application/xhtml+xml,application/xml;q=0.9,image/avif,image/webp,*/*;q=0.8"


def browser(method, path, accept, *more):
    return [(":method", method), (":path", path), (":authority", "www.example.com"), (":scheme", "https"), AGENT,
            ("accept", accept), ("accept-language", "en-GB,en;q=0.5"), ("accept-encoding", "gzip, deflate, br, zstd"),
            *more, ("te", "trailers")]


def fetch(destination, mode, *more):
    return [("referer", "https://www.example.com/"), ("cookie", "session=1f9b0c7e5a; theme=dark; lang=en-GB"), *more,
            ("sec-fetch-dest", destination), ("sec-fetch-mode", mode), ("sec-fetch-site", "same-origin")]


BROWSER = [
    browser("GET", "/", PAGE, ("upgrade-insecure-requests", "1"), ("sec-fetch-dest", "document"),
            ("sec-fetch-mode", "navigate"), ("sec-fetch-site", "none"), ("sec-fetch-user", "?1")),
    browser("GET", "/static/site.4f1c.css", "text/css,*/*;q=0.1", *fetch("style", "no-cors")),
    browser("GET", "/static/app.9f8e21.js", "*/*", *fetch("script", "no-cors")),
    browser("GET", "/images/logo.svg", "image/avif,image/webp,*/*", *fetch("image", "no-cors")),
    browser("GET", "/images/photo-0042.jpg", "image/avif,image/webp,*/*", *fetch("image", "no-cors")),
    browser("POST", "/api/v1/items", "application/json",
            *fetch("empty", "cors", ("content-type", "application/json"), ("content-length", "83"),
                   ("origin", "https://www.example.com"))),
    browser("GET", "/api/v1/items?page=2&sort=name", "application/json",
            *fetch("empty", "cors", ("if-none-match", 'W/"5f3a-18c2"'))),
    browser("GET", "/articles/2024/05/a-long-title-of-an-article", PAGE,
            *fetch("document", "navigate", ("upgrade-insecure-requests", "1"), ("sec-fetch-user", "?1"))),
]


def tunnel(host, port):
    return [(":method", "CONNECT"), (":protocol", "connect-udp"), (":scheme", "https"), (":authority", "proxy.example.org"),
            (":path", f"/.well-known/masque/udp/{host}/{port}/"), ("capsule-protocol", "?1")]


TUNNELS = [tunnel("192.0.2.6", 443), tunnel("192.0.2.7", 443), tunnel("dns.example.net", 853), tunnel("2001%3Adb8%3A%3A42", 443)]


def blocks(requests):
    encoder = Encoder()
    return [encoder.encode(fields).hex() for fields in requests]


print("\n\n".join("\n".join(connection) for connection in [*STANDARD, blocks(BROWSER), blocks(TUNNELS)]))
