#!/usr/bin/python3
"""Writes the tables of mq_pool, mq_route and mq_book that mq_cores_tests reads (crates/mq_cores_tests/src/NAME/table.rt).

Addresses and blocks are those of Python's `ipaddress`. Expected values come from models that are written here by the
definitions alone. A free block is looked for among all blocks of the length where the space is small, and between the
taken ones where it is large; on small spaces both are asked, and agree. A meet is blocks of `ipaddress`, collapsed, and
on small spaces also a set of addresses. The book is a list of entries, and every answer is a filter over the whole list.
Random rows come from a seed, so each run writes the same files. Run it, and then `rt fmt` in mq_cores_tests.
It isn't part of the gate.
"""
import ipaddress
import pathlib
import random

TESTS = pathlib.Path(__file__).resolve().parent.parent / "crates" / "mq_cores_tests" / "src"
WIDTH = {4: 32, 6: 128}
SMALL = 1 << 12


def net(text):
    return ipaddress.ip_network(text)


def addr(text):
    return ipaddress.ip_address(text)


def at(version, number):
    return ipaddress.IPv4Address(number) if version == 4 else ipaddress.IPv6Address(number)


def block(version, number, length):
    """The block of this length that has the number."""
    free = WIDTH[version] - length
    kind = ipaddress.IPv4Network if version == 4 else ipaddress.IPv6Network
    return kind((number >> free << free, length))


def apart(a, b):
    return a.version != b.version or not a.overlaps(b)


# ---- free blocks

def least_by_trying(pool, taken, version, length):
    """Among all blocks of this length in each block of the pool."""
    found = [part for whole in pool if whole.version == version and whole.prefixlen <= length
             for part in whole.subnets(new_prefix=length) if all(apart(part, other) for other in taken)]
    return min(found, default=None)


def least_by_gaps(pool, taken, version, length):
    """The first aligned start in the gaps that the taken blocks leave in each block of the pool."""
    size, found = 1 << WIDTH[version] - length, []
    for whole in pool:
        if whole.version != version:
            continue
        first, end = int(whole[0]), int(whole[-1]) + 1
        edges = sorted((int(other[0]), int(other[-1]) + 1) for other in taken if not apart(whole, other))
        start = first
        for low, high in edges + [(end, end)]:
            even = -(-start // size) * size
            if even + size <= min(low, end):
                found.append(even)
                break
            start = max(start, high)
    return block(version, min(found), length) if found else None


def least(pool, taken, version, length):
    by_gaps = least_by_gaps(pool, taken, version, length)
    candidates = sum(1 << max(0, length - whole.prefixlen) for whole in pool if whole.version == version)
    if candidates <= SMALL:
        assert by_gaps == least_by_trying(pool, taken, version, length), (pool, taken, version, length)
    return by_gaps


POOL_ROWS = [
    # fragmented: odd addresses taken, all but the last, all
    (["198.51.100.8/29"], ["198.51.100.8/32"], 4, (28, 29, 30, 31, 32)),
    (["198.51.100.8/29"], ["198.51.100.9/32", "198.51.100.11/32", "198.51.100.13/32"], 4, (30, 31, 32)),
    (["198.51.100.8/29"], ["198.51.100.15/32", "198.51.100.8/30", "198.51.100.12/31"], 4, (31, 32)),
    (["198.51.100.8/29"], ["198.51.100.12/30", "198.51.100.8/30"], 4, (32,)),
    (["2001:db8::/125"], ["2001:db8::/128", "2001:db8::3/128", "2001:db8::5/128"], 6, (126, 127, 128)),
    # what is taken is longer or shorter than what is asked, and in any order
    (["198.51.100.0/24"], ["198.51.100.64/26", "198.51.100.0/32", "198.51.100.192/27"], 4, (25, 26, 27, 28)),
    (["198.51.100.0/24"], ["198.51.0.0/16"], 4, (24, 32)),
    (["198.51.100.0/24"], ["0.0.0.0/0"], 4, (24, 32)),
    (["2001:db8::/32"], ["2001:db8::/33", "2001:db8:8000::/48"], 6, (33, 34, 48, 49, 64, 128)),
    (["2001:db8::/32"], ["2001:db8::1/128"], 6, (32, 33, 64, 127, 128)),
    # blocks of a pool that touch, overlap, stand in any order, or stand twice
    (["198.51.100.0/25", "198.51.100.128/25"], [], 4, (24, 25)),
    (["198.51.100.128/25", "198.51.100.0/25"], ["198.51.100.0/25"], 4, (24, 25, 26)),
    (["198.51.100.128/25", "198.51.100.0/24", "198.51.100.0/26"], ["198.51.100.0/26"], 4, (24, 25, 26)),
    (["203.0.113.0/24", "198.51.100.0/24", "198.51.100.0/25"], ["198.51.0.0/16"], 4, (25,)),
    (["203.0.113.0/24", "203.0.113.0/24"], ["203.0.113.0/25"], 4, (24, 25)),
    (["2001:db8:1::/48", "2001:db8::/48"], ["2001:db8::/49"], 6, (48, 49, 64)),
    # both versions, and what is taken of the other
    (["198.51.100.0/30", "2001:db8::/126"], ["2001:db8::/127", "198.51.100.0/32"], 4, (30, 31, 32)),
    (["198.51.100.0/30", "2001:db8::/126"], ["2001:db8::/127", "198.51.100.0/32"], 6, (32, 126, 127, 128)),
    (["2001:db8::/126"], [], 4, (0, 32)),
    (["198.51.100.0/30"], [], 6, (0, 30, 32, 128)),
    # whole spaces, halves, and the ends of the spaces
    (["0.0.0.0/0"], [], 4, (0, 1, 32)),
    (["::/0"], [], 6, (0, 1, 128)),
    (["::/0", "0.0.0.0/0"], ["::/1", "0.0.0.0/1"], 4, (0, 1, 2, 32)),
    (["::/0", "0.0.0.0/0"], ["::/1", "0.0.0.0/1"], 6, (0, 1, 2, 128)),
    (["0.0.0.0/0"], ["0.0.0.0/32"], 4, (0, 1, 31, 32)),
    (["::/0"], ["::/128"], 6, (0, 1, 127, 128)),
    (["0.0.0.0/0"], ["0.0.0.0/1", "128.0.0.0/1"], 4, (0, 32)),
    (["::/0"], ["::/0"], 6, (0, 128)),
    (["255.255.255.248/29"], ["255.255.255.248/30", "255.255.255.252/31", "255.255.255.254/32"], 4, (31, 32)),
    (["255.255.255.248/29"], ["255.255.255.248/30", "255.255.255.252/30"], 4, (32,)),
    (["ffff:ffff:ffff:ffff:ffff:ffff:ffff:fff8/125"], ["ffff:ffff:ffff:ffff:ffff:ffff:ffff:fff8/126"], 6, (125, 126, 128)),
    (["ffff:ffff:ffff:ffff:ffff:ffff:ffff:fff8/125"], ["ffff:ffff:ffff:ffff:ffff:ffff:ffff:fff8/125"], 6, (128,)),
    (["192.0.2.1/32"], [], 4, (31, 32)),
    (["2001:db8::1/128"], ["2001:db8::/128"], 6, (127, 128)),
    ([], [], 4, (32,)),
    ([], ["2001:db8::/32"], 6, (128,)),
]


def pool_rows():
    rows = [([net(p) for p in pool], [net(t) for t in taken], version, length)
            for pool, taken, version, lengths in POOL_ROWS for length in lengths]
    dice = random.Random(17)
    for _ in range(80):
        version = dice.choice((4, 6))
        base, short = (0x0a000000, 26) if version == 4 else (0x20010db8 << 96, 122)
        some = lambda count, low: [block(version, base + dice.randrange(64), dice.randint(low, WIDTH[version]))
                                   for _ in range(count)]
        pool = some(dice.randint(1, 2), short)
        taken = some(dice.randint(0, 4), short + 1)
        rows.append((pool, taken, version, dice.randint(short, WIDTH[version])))
    return [(pool, taken, version, length, least(pool, taken, version, length)) for pool, taken, version, length in rows]


# ---- routes

MAX4, MAX6 = "255.255.255.255", "ffff:ffff:ffff:ffff:ffff:ffff:ffff:ffff"
ICMP = {4: 1, 6: 58}


def span(word):
    """The ends and the protocol of a word, `first-last-protocol`."""
    first, last, protocol = word.split("-")
    return addr(first), addr(last), int(protocol)


def spans(words):
    return [span(word) for word in words.split()]


def is_span(r):
    return r[0].version == r[1].version and r[0] <= r[1]


def precedes(r, s):
    if r[0].version != s[0].version:
        return r[0].version < s[0].version
    return r[2] < s[2] if r[2] != s[2] else r[1] < s[0]


def in_order(ranges):
    """How many of the first are in order: up to the first that isn't a range or doesn't stand behind the others."""
    for place, r in enumerate(ranges):
        if not is_span(r) or not all(precedes(other, r) for other in ranges[:place]):
            return place
    return len(ranges)


def has(r, a):
    return a.version == r[0].version and r[0] <= a <= r[1]


def allows(r, protocol):
    return r[2] in (0, protocol) or protocol == ICMP[r[0].version]


def leads(ranges, a, protocol):
    return any(has(r, a) and allows(r, protocol) for r in ranges)


def spans_meet(a, b):
    return any(has(r, s[0]) or has(s, r[0]) for r in a for s in b)


def clip(nets, area):
    """The parts of some blocks that lie in an area."""
    if area is None:
        return nets
    near = [part for part in nets if not apart(part, area)]
    return [part if part.prefixlen >= area.prefixlen else area for part in near]


def meet(ranges, area, asked):
    """For each version and protocol value the blocks of `ipaddress`, collapsed, and joined where they touch."""
    parts = {}
    for first, last, own in ranges:
        if asked is None or own in (0, asked):
            key = first.version, own if asked is None else asked
            parts.setdefault(key, []).extend(clip(list(ipaddress.summarize_address_range(first, last)), area))
    out = []
    for (version, protocol), nets in sorted(parts.items()):
        joined = []
        for part in ipaddress.collapse_addresses(nets):
            if joined and int(joined[-1][1]) + 1 == int(part[0]):
                joined[-1] = joined[-1][0], part[-1], protocol
            else:
                joined.append((part[0], part[-1], protocol))
        out += joined
    check_meet(ranges, area, asked, out)
    return out


def check_meet(ranges, area, asked, out):
    """On small spaces the same addresses, one by one."""
    if sum(int(last) - int(first) + 1 for first, last, _ in ranges) > SMALL:
        return
    wanted = {(own if asked is None else asked, at(first.version, n)) for first, last, own in ranges
              for n in range(int(first), int(last) + 1)
              if (asked is None or own in (0, asked)) and (area is None or at(first.version, n) in area)}
    got = [(protocol, at(first.version, n)) for first, last, protocol in out for n in range(int(first), int(last) + 1)]
    assert len(got) == len(set(got)) and set(got) == wanted, (ranges, area, asked, out)
    assert in_order(out) == len(out)
    assert not any(r[2] == s[2] and int(r[1]) + 1 == int(s[0]) for r, s in zip(out, out[1:]))


ALL4, ALL6 = f"0.0.0.0-{MAX4}-0", f"::-{MAX6}-0"
ENDS4 = f"0.0.0.0-0.0.0.1-0 255.255.255.254-{MAX4}-0"
ENDS6 = f"::-::1-0 {MAX6[:-1]}e-{MAX6}-0"
MIXED = ("198.51.100.0-198.51.100.9-0 198.51.100.4-198.51.100.20-6 198.51.100.10-198.51.100.10-17 "
         "198.51.100.12-198.51.100.30-17 2001:db8::-2001:db8::f-0 2001:db8::10-2001:db8::1f-17")

MEET_ROWS = [
    # everything, by each version, area and protocol
    (f"{ALL4} {ALL6}", ("*", "0.0.0.0/0", "::/0", "0.0.0.0/1", "8000::/1"), ("*", "0", "17")),
    (ALL4, ("192.0.2.0/24", "0.0.0.0/32", f"{MAX4}/32", "2001:db8::/32"), ("17", "*")),
    (ALL6, ("2001:db8::/32", "::/128", f"{MAX6}/128", "192.0.2.0/24"), ("58", "*")),
    # the ends of the spaces, and ranges that touch there
    (ENDS4, ("*", "128.0.0.0/1", "0.0.0.0/31"), ("*", "6")),
    (ENDS6, ("*", "8000::/1", "::/127"), ("*", "6")),
    (f"0.0.0.0-127.255.255.255-0 128.0.0.0-{MAX4}-0", ("*", "127.0.0.0/8", "64.0.0.0/2"), ("*",)),
    (f"0.0.0.0-127.255.255.255-0 128.0.0.0-{MAX4}-17", ("*",), ("*", "17", "6")),
    (f"::-7fff:{MAX6[5:]}-0 8000::-{MAX6}-0", ("*", "8000::/2"), ("*",)),
    (f"::-7fff:{MAX6[5:]}-6 8000::-{MAX6}-6", ("*",), ("6", "58", "0")),
    # one version ends where no other begins
    (f"255.255.255.255-{MAX4}-0 ::-::-0", ("*",), ("*", "17")),
    # protocols that overlap, touch, and stand alone
    (MIXED, ("*", "198.51.100.8/29", "2001:db8::/124"), ("*", "17", "6", "1")),
    # nothing
    ("", ("*", "0.0.0.0/0"), ("*", "17")),
]


def meet_rows():
    rows = [(words, area, asked) for words, areas, all_asked in MEET_ROWS for area in areas for asked in all_asked]
    dice = random.Random(9484)
    for _ in range(24):
        version = dice.choice((4, 6))
        base = (0x0a000000 if version == 4 else 0x20010db8 << 96)
        words = []
        for protocol in sorted(dice.sample((0, 6, 17), dice.randint(1, 3))):
            ends = sorted(dice.sample(range(32), 2 * dice.randint(1, 3)))
            words += [f"{at(version, base + low)}-{at(version, base + high)}-{protocol}"
                      for low, high in zip(ends[::2], ends[1::2])]
        area = dice.choice(("*", block(version, base + dice.randrange(32), WIDTH[version] - dice.randint(0, 5))))
        rows.append((" ".join(words), area, dice.choice(("*", "6", "17"))))
    return [(words, area, asked, range_words(meet(spans(words), None if area == "*" else net(str(area)),
                                                  None if asked == "*" else int(asked))))
            for words, area, asked in rows]


def range_words(ranges):
    return " ".join(f"{first}-{last}-{protocol}" for first, last, protocol in ranges)


ALLOW_ROWS = [
    (ALL4, ("0.0.0.0", MAX4, "198.51.100.7", "::", MAX6)),
    (ALL6, ("::", MAX6, "2001:db8::7", "0.0.0.0", MAX4)),
    (f"0.0.0.0-{MAX4}-17 ::-{MAX6}-17", ("0.0.0.0", MAX4, "::", MAX6)),
    (f"0.0.0.0-{MAX4}-58 ::-{MAX6}-1", ("198.51.100.7", "2001:db8::7")),
    (f"0.0.0.0-{MAX4}-1 ::-{MAX6}-58", ("198.51.100.7", "2001:db8::7")),
    (f"0.0.0.0-{MAX4}-255", ("198.51.100.7",)),
    (MIXED, ("198.51.99.255", "198.51.100.0", "198.51.100.3", "198.51.100.4", "198.51.100.9", "198.51.100.10",
             "198.51.100.11",
             "198.51.100.12", "198.51.100.20", "198.51.100.21", "198.51.100.30", "198.51.100.31", "2001:db8::",
             "2001:db8::f",
             "2001:db8::10", "2001:db8::1f", "2001:db8::20", "::c633:6400")),
    ("192.0.2.1-192.0.2.1-6", ("192.0.2.0", "192.0.2.1", "192.0.2.2")),
    (ENDS4, ("0.0.0.1", "0.0.0.2", "255.255.255.253", "255.255.255.254")),
    ("", ("0.0.0.0", "::")),
]


def allow_rows():
    rows = []
    for words, addresses in ALLOW_ROWS:
        for text in addresses:
            told = [p for p in range(256) if leads(spans(words), addr(text), p)]
            rows.append((words, text, "all" if len(told) == 256 else " ".join(map(str, told))))
    return rows


OVERLAP_ROWS = [
    (ALL4, (ALL4, ALL6, f"{ALL4} {ALL6}", f"{MAX4}-{MAX4}-6", "0.0.0.0-0.0.0.0-1", "")),
    (ALL6, (ALL6, f"{MAX6}-{MAX6}-6", "::-::-58", "198.51.100.0-198.51.100.0-0", "")),
    ("", ("",)),
    (ENDS4, ("0.0.0.2-255.255.255.253-0", "0.0.0.1-0.0.0.2-0", "255.255.255.253-255.255.255.254-17", ENDS6, ENDS4)),
    (ENDS6, (f"::2-{MAX6[:-1]}d-0", "::1-::2-6", f"{MAX6[:-1]}d-{MAX6[:-1]}e-17")),
    ("198.51.100.8-198.51.100.15-6", ("198.51.100.0-198.51.100.7-6", "198.51.100.16-198.51.100.20-6",
                                      "198.51.100.0-198.51.100.8-17",
                                      "198.51.100.15-198.51.100.20-17", "198.51.100.10-198.51.100.11-0",
                                      "198.51.100.0-198.51.100.20-58",
                                      "198.51.100.8-198.51.100.15-17", "::c633:6408-::c633:640f-6")),
    (MIXED, ("198.51.100.11-198.51.100.11-255", "198.51.100.31-198.51.100.99-0", "2001:db8::1f-2001:db8::ff-6",
             "2001:db8::20-2001:db8::ff-0", "198.51.99.0-198.51.99.255-0 2001:db8:1::-2001:db8:1::-0",
             "198.51.100.31-198.51.100.31-0 2001:db8::8-2001:db8::8-6")),
]


def overlap_rows():
    return [(a, b, "yes" if spans_meet(spans(a), spans(b)) else "no") for a, others in OVERLAP_ROWS for b in others]


ORDER_ROWS = [
    "",
    ALL4,
    f"{ALL4} {ALL6}",
    f"{ALL6} {ALL4}",
    "198.51.100.9-198.51.100.8-0",
    f"{MAX4}-0.0.0.0-0",
    "2001:db8::1-2001:db8::-0",
    # two versions in one range
    "198.51.100.8-2001:db8::-0",
    "::-198.51.100.8-0",
    # the second ends, begins or stands before the first
    "198.51.100.8-198.51.100.9-6 198.51.100.10-198.51.100.10-6",
    "198.51.100.8-198.51.100.9-6 198.51.100.9-198.51.100.10-6",
    "198.51.100.8-198.51.100.9-6 198.51.100.8-198.51.100.9-6",
    "198.51.100.8-198.51.100.9-6 198.51.100.0-198.51.100.7-6",
    "198.51.100.8-198.51.100.9-6 198.51.100.0-198.51.100.7-7",
    "198.51.100.8-198.51.100.9-6 198.51.100.8-198.51.100.9-7",
    "198.51.100.8-198.51.100.9-6 198.51.100.20-198.51.100.30-5",
    "198.51.100.8-198.51.100.9-6 198.51.100.20-198.51.100.30-0",
    "198.51.100.8-198.51.100.9-255 2001:db8::-2001:db8::-0",
    "2001:db8::-2001:db8::-0 198.51.100.8-198.51.100.9-255",
    "2001:db8::8-2001:db8::9-6 2001:db8::a-2001:db8::a-6",
    "2001:db8::8-2001:db8::9-6 2001:db8::9-2001:db8::a-6",
    # the third breaks the order with the first alone, or isn't a range
    "198.51.100.8-198.51.100.9-6 198.51.100.0-198.51.100.1-17 198.51.100.20-198.51.100.21-6",
    "198.51.100.0-198.51.100.1-6 198.51.100.4-198.51.100.5-6 198.51.100.1-198.51.100.2-6",
    "198.51.100.0-198.51.100.1-6 198.51.100.4-198.51.100.5-6 198.51.100.9-198.51.100.8-6",
    # a fault behind a fault
    "198.51.100.0-198.51.100.1-6 198.51.100.1-198.51.100.2-6 198.51.100.4-198.51.100.5-6",
    "198.51.100.1-198.51.100.0-6 198.51.100.1-198.51.100.2-6",
    f"{ENDS4} {ENDS6}",
    MIXED,
]


def order_rows():
    return [(words, in_order(spans(words))) for words in ORDER_ROWS]


# ---- the book

class Book:
    """A list of entries. Every answer is a filter over the whole list."""

    def __init__(self, pool, reach, routes, history):
        self.pool, self.reach, self.routes, self.places = pool, reach, routes, history
        self.entries = []

    def is_config(self):
        blocks = self.pool + self.reach
        return (len(self.pool) <= 16 and len(self.reach) <= 16 and len(self.routes) <= 32
                and all(apart(a, b) for place, b in enumerate(blocks) for a in blocks[:place])
                and not any(block[0] == at(block.version, 0) for block in blocks)
                and in_order(self.routes) == len(self.routes))

    # what the history says

    def opening(self, t):
        return self.entries[t] if t < len(self.entries) and self.entries[t][1] == "open" else None

    def is_live(self, t):
        closed = [u for _, verb, u, _ in self.entries[t + 1:] if verb == "close"]
        return self.opening(t) is not None and t not in closed

    def live(self):
        return [t for t in range(len(self.entries)) if self.is_live(t)]

    def held(self, t):
        told = [answer for _, verb, u, answer in self.entries if (verb, u) == ("assign", t)]
        return [(name, part) for name, part in (told[-1] if told else []) if int(part[0])]

    def ranges(self, t):
        told = [answer for _, verb, u, answer in self.entries if (verb, u) == ("advertise", t)]
        return told[-1] if told else []

    def told_routes(self, t):
        return self.opening(t)[3] if self.opening(t) else []

    def taken(self):
        return [part for t in self.live() for _, part in self.held(t)]

    # what a call is answered

    def may(self, actor, verb, t, asked):
        if actor >= 2 or verb in ("open", "udp"):
            return actor < 2
        if not self.is_live(t) or self.opening(t)[0] != actor:
            return False
        if verb == "assign":
            return 1 <= len(asked) <= 16 and all(1 <= name < 1 << 62 for name, _ in asked)
        return verb == "close" or len(asked) <= 32 and in_order(asked) == len(asked)

    def has_places(self, more):
        return len(self.entries) + len(self.live()) + more <= self.places

    def full(self):
        return f"full {len(self.entries)} {len(self.live())}"

    def call(self, actor, verb, subject, words):
        if verb in ("open", "udp"):
            if not self.has_places(2):
                return self.full()
            told = [] if verb == "udp" else meet(self.routes, None if subject == "*" else net(subject),
                                                 None if words == "*" else int(words))
            self.entries.append((actor, "open", None, told))
            return " ".join(f"opened {len(self.entries) - 1} {range_words(told)}".split())
        t = int(subject)
        if verb == "close":
            self.entries.append((actor, verb, t, None))
            return "closed"
        if not self.has_places(1):
            return self.full()
        place = len(self.entries)
        if verb == "assign":
            told = self.treat(t, named(words))
            self.entries.append((actor, verb, t, told))
            return f"assigned {place} " + " ".join(f"{name}={part}" for name, part in told)
        offered = spans(words)
        yes = self.is_acceptable(t, offered)
        self.entries.append((actor, verb, t, offered if yes else []))
        return f"{'yes' if yes else 'no'} {place}"

    def treat(self, t, asked):
        held, taken, denied = self.held(t), self.taken(), []
        for name, part in asked:
            if name in [other for other, _ in held]:
                continue
            block = None
            if len(held) < 16:
                block = self.offer(taken, part)
            if block is None:
                full = WIDTH[part.version]
                denied.append((name, globals()["block"](part.version, 0, full)))
            else:
                held, taken = held + [(name, block)], taken + [block]
        return held + denied

    def offer(self, taken, part):
        if int(part[0]) == 0:
            return least(self.pool, taken, part.version, part.prefixlen)
        inside = any(not apart(part, whole) and part.subnet_of(whole) for whole in self.pool)
        return part if inside and all(apart(part, other) for other in taken) else None

    def is_acceptable(self, t, offered):
        inside = all(any(r[0] in whole and r[1] in whole for whole in self.reach) for r in offered)
        return inside and not any(spans_meet(offered, self.ranges(u)) for u in self.live() if u != t)

    # where a packet goes, with the rule that says so

    def owners(self, a):
        return [t for t in self.live()
                if any(a in part for _, part in self.held(t)) or any(has(r, a) for r in self.ranges(t))]

    def owns(self, t, a, protocol):
        if not self.is_live(t):
            return False, "gone"
        if any(a in part for _, part in self.held(t)):
            return True, "block"
        return leads(self.ranges(t), a, protocol), "range" if any(has(r, a) for r in self.ranges(t)) else "stranger"

    def is_ours(self, a):
        return any(a in part for part in self.pool + self.reach)

    def toward(self, u, source, target, protocol):
        mine, by = self.owns(u, target, protocol)
        routes = self.told_routes(u)
        back = leads(routes, source, protocol)
        seen = any(has(r, source) for r in routes)
        return f"{u} {self.opening(u)[0]}" if mine and back else "no route", ("to", by, mine, back, seen)

    def judge(self, origin, source, target, protocol):
        if origin == "net":
            if self.owners(source) or self.is_ours(source):
                return "source", ("inner", bool(self.owners(source)))
        else:
            t = int(origin)
            mine, by = self.owns(t, source, protocol)
            if not mine:
                return "source", ("source", by)
            routes = self.told_routes(t)
            if not leads(routes, target, protocol):
                return "no route", ("from", by, any(has(r, target) for r in routes))
        owners = self.owners(target)
        assert len(owners) <= 1
        if owners:
            verdict, why = self.toward(owners[0], source, target, protocol)
            return verdict, ("net" if origin == "net" else "tunnel", *why)
        if origin == "net":
            return "no route", ("no owner", self.is_ours(target))
        if self.is_ours(target):
            return "no route", ("vacant", any(target in part for part in self.pool))
        return "net", ("out",)


def named(words):
    """Request IDs with their blocks."""
    return [(int(name), net(part)) for name, part in (word.split("=") for word in words.split())]


def config(words):
    pool, reach, routes, history = words.split("|")
    return Book(list(map(net, pool.split())), list(map(net, reach.split())), spans(routes), int(history))


def script(lines):
    """The rows of a script, with their answers: `new|CONFIG`, and calls as `ACTOR VERB|SUBJECT|WORDS`."""
    rows, book = [], None
    for line in lines:
        verb, rest = line.split("|", 1)
        if verb == "new":
            book = config(rest)
            assert book.is_config(), line
            rows.append(line)
            continue
        subject, words = rest.split("|")
        actor, verb = verb.split()
        asked = named(words) if verb == "assign" else spans(words) if verb == "advertise" else None
        t = int(subject) if verb not in ("open", "udp") else None
        may = book.may(int(actor), verb, t, asked)
        rows.append(f"{line}|{book.call(int(actor), verb, subject, words) if may else 'may not'}")
    return rows, book


BLOCK_LINES = [
    "new|198.51.100.8/29 198.51.100.16/30 2001:db8::/124|203.0.113.0/24||100",
    "0 open|*|*", "1 open|*|*", "0 udp||",
    # any block; an ID that is held keeps its own
    "0 assign|0|5=0.0.0.0/32", "0 assign|0|5=0.0.0.0/32", "0 assign|0|5=0.0.0.0/31", "0 assign|0|6=0.0.0.0/30",
    # none is long enough; a second denied entry with one ID, in a request behind and in one request
    "0 assign|0|7=0.0.0.0/29", "0 assign|0|7=0.0.0.0/29", "0 assign|0|7=0.0.0.0/28 7=0.0.0.0/29",
    "0 assign|0|7=0.0.0.0/0 8=::/0",
    # denied, and then given
    "0 assign|0|9=0.0.0.0/28 9=0.0.0.0/31",
    # blocks that are named: of another tunnel, around it, behind the pool, across two that touch, and its own again
    "1 assign|1|1=198.51.100.8/32", "1 assign|1|1=198.51.100.8/29", "1 assign|1|1=198.51.100.20/32",
    "1 assign|1|1=198.51.100.16/29",
    "1 assign|1|1=198.51.100.16/30", "1 assign|1|2=198.51.100.16/30", "1 assign|1|1=198.51.100.16/30",
    "1 assign|1|1=198.51.100.12/30",
    "1 assign|1|2=203.0.113.1/32 3=192.0.2.1/32",
    # the other version, and several in one request, of which earlier ones count
    "1 assign|1|3=::/128", "1 assign|1|4=::/125",
    "1 assign|1|5=2001:db8::1/128 6=2001:db8::/127 7=2001:db8::/124 8=2001:db8::2/127",
    "1 assign|1|8=::/32 9=::/123 10=::/124", "0 assign|2|1=0.0.0.0/32 2=::/128",
    "0 assign|2|2=198.51.100.9/32 3=::/126",
    # what may not be called
    "1 assign|0|1=0.0.0.0/32", "0 assign|1|1=0.0.0.0/32", "2 assign|0|1=0.0.0.0/32", "0 assign|3|1=0.0.0.0/32",
    "0 assign|99|1=0.0.0.0/32",
    "0 assign|0|", "0 assign|0|0=0.0.0.0/32", f"0 assign|0|{1 << 62}=0.0.0.0/32",
    f"0 assign|0|{(1 << 62) - 1}=0.0.0.0/32",
    "2 open|*|*", "1 close|0|",
    # a close gives the blocks back
    "0 close|0|", "0 close|0|", "0 assign|0|1=0.0.0.0/32", "1 assign|1|11=198.51.100.8/32", "1 assign|1|12=0.0.0.0/31",
    # sixteen, seventeen
    "new|2001:db8::/123|||100", "0 open|*|*", "0 open|*|*",
    "0 assign|0|" + " ".join(f"{n}=::/128" for n in range(1, 18)),
    "0 assign|0|" + " ".join(f"{n}=::/128" for n in range(1, 16)),
    "0 assign|0|16=::/128 17=::/128", "0 assign|0|17=::/128", "0 assign|0|17=2001:db8::1f/128 16=::/128",
    "0 assign|1|17=2001:db8::10/128",
    # one address in each version, and whole halves of the space
    "new|192.0.2.1/32 2001:db8::1/128|||100", "0 open|*|*",
    "0 assign|0|1=0.0.0.0/31 2=0.0.0.0/32 3=0.0.0.0/32 4=::/128 5=::/128",
    "0 assign|0|6=192.0.2.1/32 7=2001:db8::1/128",
    "new|128.0.0.0/1 8000::/1|||100", "0 open|*|*", "0 assign|0|1=0.0.0.0/0 2=0.0.0.0/1 3=::/0 4=::/1 5=::/128",
    "0 assign|0|6=255.255.255.255/32 7=255.255.255.254/31",
]

RANGE_LINES = [
    "new|198.51.100.8/29|9.0.0.0/9 9.128.0.0/9 2001:db8:1::/48||100",
    "0 open|*|*", "1 open|*|*", "0 udp||",
    # apart, touching, and with an address of another tunnel, whatever the protocols
    "0 advertise|0|9.0.0.0-9.0.0.9-6", "1 advertise|1|9.0.0.9-9.0.0.12-17", "1 advertise|1|9.0.0.10-9.0.0.12-17",
    "0 advertise|0|9.0.0.0-9.0.0.10-6", "1 advertise|1|9.0.0.0-9.127.255.255-0", "0 advertise|0|9.0.0.5-9.0.0.5-58",
    "0 advertise|0|9.128.0.0-9.255.255.255-0", "0 advertise|0|9.128.0.0-9.128.0.9-0 9.128.0.0-9.128.0.9-6",
    # what clients may lead to: across two blocks that touch, behind them, in the pool, in part
    "1 advertise|1|", "0 advertise|0|9.127.255.255-9.128.0.0-0",
    "0 advertise|0|9.127.255.255-9.127.255.255-0 9.128.0.0-9.128.0.0-0",
    "0 advertise|0|10.0.0.0-10.0.0.0-0", "0 advertise|0|8.255.255.255-9.0.0.0-0",
    "0 advertise|0|198.51.100.8-198.51.100.8-0",
    "0 advertise|0|9.0.0.0-9.0.0.0-0 10.0.0.0-10.0.0.0-0", "0 advertise|0|0.0.0.0-255.255.255.255-0",
    # the other version
    "0 advertise|0|2001:db8:1::-2001:db8:1:ffff:ffff:ffff:ffff:ffff-0", "1 advertise|1|2001:db8:1::5-2001:db8:1::5-58",
    "1 advertise|1|9.0.0.0-9.0.0.0-0", "1 advertise|1|9.0.0.0-9.0.0.0-0 2001:db8:1::-2001:db8:1::-0",
    "0 advertise|0|2001:db8:1::-2001:db8:2::-0", "1 advertise|1|9.0.0.0-9.0.0.0-0 2001:db8:1::-2001:db8:1::-0",
    "0 advertise|2|::-::-0",
    # thirty-two, thirty-three
    "1 advertise|1|" + " ".join(f"9.0.0.{2 * n}-9.0.0.{2 * n}-0" for n in range(32)),
    "0 advertise|0|9.0.0.62-9.0.0.62-1", "0 advertise|0|9.0.0.61-9.0.0.61-1",
    "1 advertise|1|" + " ".join(f"9.0.0.{2 * n}-9.0.0.{2 * n}-0" for n in range(33)),
    "0 advertise|0|9.0.0.62-9.0.0.62-1",
    # what may not be called
    "1 advertise|1|9.0.0.9-9.0.0.8-0", "1 advertise|1|9.0.0.8-9.0.0.9-6 9.0.0.9-9.0.0.9-6",
    "1 advertise|1|9.0.0.8-9.0.0.9-6 9.0.0.1-9.0.0.1-0",
    "0 advertise|1|9.0.0.8-9.0.0.9-6", "1 advertise|0|9.1.0.8-9.1.0.9-6", "0 advertise|3|9.1.0.8-9.1.0.9-6",
    # a close gives the ranges back
    "1 close|1|", "0 advertise|0|9.0.0.0-9.0.0.62-6", "1 advertise|1|9.1.0.8-9.1.0.9-6",
]


def full_lines():
    """Histories of each small size, up to where only the closes have a place."""
    lines = []
    for places in range(7):
        lines += [f"new|198.51.100.8/29|203.0.113.0/24||{places}", "0 open|*|*", "1 udp||", "0 assign|0|5=0.0.0.0/32",
                  "0 advertise|0|203.0.113.1-203.0.113.1-6", "0 assign|0|6=0.0.0.0/32", "0 close|0|",
                  "1 assign|1|5=0.0.0.0/32",
                  "1 close|1|", "0 open|*|*"]
    return lines + ["new||||4", "0 open|*|*", "0 close|0|", "0 open|*|*"]


JUDGED_LINES = [
    f"new|198.51.100.8/29 2001:db8::/124|203.0.113.0/24 2001:db8:1::/48|{ALL4} {ALL6}|100",
    "0 open|*|*", "1 open|*|17", "0 open|198.51.100.0/24|*", "1 open|2001:db8::/32|58", "0 udp||", "1 open|*|1",
    "0 assign|0|5=0.0.0.0/32 6=::/128", "1 assign|1|5=0.0.0.0/32 6=::/128", "0 assign|2|5=0.0.0.0/32",
    "1 assign|3|6=::/126",
    "0 assign|4|5=0.0.0.0/32", "1 assign|5|5=0.0.0.0/32",
    "0 advertise|0|203.0.113.0-203.0.113.9-6 2001:db8:1::-2001:db8:1::ff-17",
    "1 advertise|1|203.0.113.16-203.0.113.31-0 2001:db8:1:1::-2001:db8:1:1::ff-1",
    "0 advertise|2|203.0.113.64-203.0.113.79-58", "1 advertise|3|2001:db8:1:2::-2001:db8:1:2::ff-0",
    "1 close|5|",
]
JUDGED = {
    4: ["198.51.100.8", "198.51.100.9", "198.51.100.10", "198.51.100.11", "198.51.100.12", "198.51.100.15",
        "203.0.113.0", "203.0.113.9",
        "203.0.113.10", "203.0.113.31", "203.0.113.64", "192.0.2.1", "198.51.100.16", "0.0.0.0", "255.255.255.255"],
    6: ["2001:db8::", "2001:db8::1", "2001:db8::4", "2001:db8::7", "2001:db8::f", "2001:db8:1::",
        "2001:db8:1::ff", "2001:db8:1::100",
        "2001:db8:1:1::5", "2001:db8:1:2::5", "2001:db8:2::1", MAX6],
}
ORIGINS = ["0", "1", "2", "3", "4", "5", "7", "99", "net"]


def judged_rows():
    """Of all packets between some addresses one for each version, rule, kind of protocol and verdict."""
    rows, book = script(JUDGED_LINES)
    packets = [(origin, source, target, protocol)
               for version in JUDGED for origin in ORIGINS for source in JUDGED[version]
               for target in JUDGED[version] for protocol in (0, 1, 6, 17, 58)]
    random.Random(47).shuffle(packets)
    seen = {}
    for origin, source, target, protocol in packets:
        verdict, why = book.judge(origin, addr(source), addr(target), protocol)
        version = addr(source).version
        kind = protocol == ICMP[version], protocol == ICMP[10 - version]
        seen.setdefault(str((version, kind, why)), f"judge|{origin}|{source}-{target}-{protocol}|{verdict}")
    return rows, [seen[key] for key in sorted(seen)]


CONFIG_ROWS = [
    "|||0",
    f"198.51.100.8/29||{ALL4}|10",
    # blocks that touch, overlap, stand twice, in one list and in both
    "198.51.100.0/25 198.51.100.128/25|||0",
    "198.51.100.128/25|198.51.100.0/25||0",
    "198.51.100.0/24 198.51.100.128/25|||0",
    "198.51.100.128/25|198.51.100.0/24||0",
    "198.51.100.128/32|198.51.100.128/32||0",
    "192.0.2.0/24 198.51.100.0/24 203.0.113.0/24 192.0.2.255/32|||0",
    "192.0.2.0/24 198.51.100.0/24|203.0.113.0/24 198.51.0.0/16||0",
    "|2001:db8::/32 2001:db8:ffff::/48||0",
    "2001:db8::/33|2001:db8:8000::/33||0",
    # the all-zero address
    "0.0.0.0/0|||0", "::/0|||0", "|0.0.0.0/32||0", "|::/128||0", "0.0.0.1/32 ::1/128|||0", "0.0.0.0/8|||0",
    "128.0.0.0/1|8000::/1||0",
    f"{MAX4}/32|{MAX6}/128||0",
    # sixteen, seventeen
    " ".join(f"9.{n}.0.0/16" for n in range(16)) + "|||0",
    " ".join(f"9.{n}.0.0/16" for n in range(17)) + "|||0",
    "|" + " ".join(f"9.{n}.0.0/16" for n in range(16)) + "||0",
    "|" + " ".join(f"9.{n}.0.0/16" for n in range(17)) + "||0",
    " ".join(f"9.{n}.0.0/16" for n in range(16)) + "|" + " ".join(f"8.{n}.0.0/16" for n in range(16)) + "||0",
    # thirty-two, thirty-three, and an order that is none
    "||" + " ".join(f"{n}.0.0.0-{n}.9.0.0-0" for n in range(32)) + "|0",
    "||" + " ".join(f"{n}.0.0.0-{n}.9.0.0-0" for n in range(33)) + "|0",
    f"||{ALL6} {ALL4}|0",
    "||9.0.0.0-9.0.0.9-6 9.0.0.9-9.0.0.9-6|0",
]


def config_rows():
    return [f"{'yes' if config(row).is_config() else 'no'}|{row}" for row in CONFIG_ROWS]


# ---- tables

def wrapped(text):
    """A text in lines of a source file."""
    lines, start = [], '    "'
    while len(start) + len(text) > 116:
        room = 116 - len(start)
        cut = max(text.rfind(" ", 0, room), text.rfind("|", 0, room)) + 1
        lines.append(start + text[:cut] + "\\")
        start, text = "     ", text[cut:]
    return "\n".join(lines + [start + text + '",\n'])


def write(name, title, tables):
    """A file of tables, each with its comment, its name and its rows, which are texts."""
    text = f"//! {title} (tools/book_tables.py).\n"
    for comment, table, rows in tables:
        text += "\n" + "".join(f"/// {line}\n" for line in comment) + f"pub const {table}: [&str; {len(rows)}] = [\n"
        text += "".join(wrapped(row) for row in rows) + "];\n"
    path = TESTS / name / "table.rt"
    path.write_text(text)
    assert all(len(line) <= 120 for line in text.split("\n")), max(text.split("\n"), key=len)
    print(path.relative_to(TESTS), *(f"{table} {len(rows)}" for _, table, rows in tables))


def joined(row):
    """A row with a bar between its columns."""
    return "|".join(map(str, row))


def write_pool():
    rows = [" ".join(map(str, [*pool, "-", *taken, "-", block(version, 0, length), *([] if free is None else [free])]))
            for pool, taken, version, length, free in pool_rows()]
    write("pool", "Free blocks, as Python's `ipaddress` has them", [([
        "The blocks of a pool; those that are taken; a length, as a block at the address zero; and the free block of that",
        "version and length that starts first, if there is one."], "ROWS", rows)])


def write_route():
    write("route", "Routes, from models over Python's `ipaddress`", [
        (["Ranges, an area and a protocol, of which a star is for all, and their meet."],
         "MEETS", [joined(row) for row in meet_rows()]),
        (["Ranges, an address, and the protocols that are allowed there."],
         "ALLOWED", [joined(row) for row in allow_rows()]),
        (["Two lists of ranges, and whether they have an address in common."],
         "OVERLAPS", [joined(row) for row in overlap_rows()]),
        (["Ranges, and how many of the first are in order."],
         "ORDERS", [joined(row) for row in order_rows()])])


def write_book():
    blocks, ranges, full = (script(lines)[0] for lines in (BLOCK_LINES, RANGE_LINES, full_lines()))
    before, packets = judged_rows()
    calls = "Books, calls and packets, with what they are answered"
    write("book", "Configurations, calls and packets, from a model of the book over Python's `ipaddress`", [
        (["Whether a book may have a configuration: pool, reach, routes, and how many entries."],
         "CONFIGS", config_rows()),
        ([f"{calls}: blocks."], "BLOCKS", blocks),
        ([f"{calls}: ranges."], "RANGES", ranges),
        ([f"{calls}: histories that are full but for the closes."], "FULL", full),
        ([f"{calls}: each rule of judging."], "JUDGED", before + packets)])


if __name__ == "__main__":
    write_pool()
    write_route()
    write_book()
