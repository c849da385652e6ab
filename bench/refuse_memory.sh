#!/usr/bin/env bash
# Refuses the built program one allocation after another: bench/refuse_memory.sh [SCRIPT ..]. Without a script it takes
# first_datagram, ip_session and ip_session_h2 of the examples: a tunnel for UDP and one for IP packets, over both protocols.
# A script has one connection, and enough steps for all that there is to do, also where one of them does nothing.
#
# Each run must end with status 0, 5 or 7.
# - Status 7: what it prints is a front of what the run without a refusal prints, which is the whole, byte for byte.
# - Status 0, where `idle` and `more` lines aren't looked at: it prints the lines of the whole, in another order at most, as a step came later; or the connection ended which was
#   refused memory. Then each tunnel that opened is closed, and perhaps one that the book had opened; and the other lines are some
#   of the whole's, in their order, or say that a packet for a tunnel that had closed was dropped, or goes nowhere.
# - Status 5: the same end, and then that a line is bad: one for a tunnel that hadn't opened.
# MASQUE names the program, where it isn't the built one. Build first: tools/build
set -eu
cd "$(dirname "$0")/.."
program=${MASQUE:-crates/masque/out/masque}
[ -x "$program" ] || { echo "build it first: tools/build" >&2; exit 1; }
command -v cc > /dev/null || { echo "cc isn't there, which builds what refuses" >&2; exit 1; }
work=$(mktemp -d)
trap 'rm -rf "$work"' EXIT
cc -O2 -shared -fPIC -o "$work/refuse.so" bench/refuse.c
[ $# -gt 0 ] || set -- examples/first_datagram.script examples/ip_session.script examples/ip_session_h2.script
python3 - "$(realpath "$program")" "$work/refuse.so" "$@" <<'PY'
import os, re, subprocess, sys

program, refuses, *scripts = sys.argv[1:]

def run(script, number):
    """The status, what is printed, and what is told."""
    with open(script, "rb") as lines:
        ran = subprocess.run([program, "replay"], stdin=lines, capture_output=True, text=True,
                             env=dict(os.environ, LD_PRELOAD=refuses, REFUSE=str(number)))
    return ran.returncode, ran.stdout, ran.stderr

def without(lines, pattern):
    return [line for line in lines if not re.fullmatch(pattern, line)]

def is_among(some, whole):
    """Whether the lines are some of the whole's, in their order."""
    rest = iter(whole)
    return all(line in rest for line in some)

def end_is_whole(printed, whole):
    """Why what a run printed is no end of a connection behind a part of the whole, or nothing."""
    ended = [at for at, line in enumerate(printed) if re.fullmatch(r"ended \d+ NoMemory", line)]
    if len(ended) != 1:
        return "not one connection has ended"
    opened = sum(line.startswith("opened ") for line in printed)
    closed = sum(line.startswith("closed ") for line in printed)
    if closed not in (opened, opened + 1):
        return f"{opened} tunnels opened, and {closed} closed"
    is_end = re.compile(r"closed \d+ Conn left \d+|ended \d+ NoMemory")
    first = next(at for at, line in enumerate(printed) if is_end.fullmatch(line))
    # only behind the beginning of an end is a packet dropped for it
    behind = without(printed[first:], is_end.pattern + r"|dropped \S+ \d+ (Gone|NoRoute)")
    return None if is_among(printed[:first] + behind, whole) else "what is printed is no part of the whole and an end"

def is_for_no_tunnel(script, number, printed):
    with open(script) as lines:
        line = lines.read().split("\n")[int(number) - 1]
    named = re.match(r"dgram (\d+) ", line)
    return named and not any(line.startswith(f"opened {named[1]} ") for line in printed)

def looked_at(script, number, whole_text, whole):
    """Refuses one allocation. Answers what that came to, and why it is wrong, or None."""
    status, text, _ = run(script, number)
    printed = without(text.split("\n")[:-1], r"idle \S+|more")
    if status == 7:
        return "status 7", None if whole_text.startswith(text) else "what is printed is no front of the whole"
    if status == 0:
        if sorted(printed) == sorted(whole):
            return "the whole" if printed == whole else "the whole in another order", None
        return "an end", end_is_whole(printed, whole)
    if status == 5:
        bad = re.fullmatch(r"bad line (\d+)", printed.pop()) if printed else None
        if not bad or not is_for_no_tunnel(script, bad[1], printed):
            return "a bad line", "a line is bad that is none for a tunnel that hadn't opened"
        return "a bad line behind an end", end_is_whole(printed, whole)
    return f"status {status}", "there is no such status here"

wrong = 0
for script in scripts:
    status, text, told = run(script, 0)
    assert status == 0, (script, status)
    whole = without(text.split("\n")[:-1], r"idle \S+|more")
    counts = {}
    for number in range(1, int(told) + 1):
        kind, why = looked_at(script, number, text, whole)
        counts[kind] = counts.get(kind, 0) + 1
        if why:
            wrong += 1
            print(f"{script}: allocation {number}: {why}")
    said = ", ".join(f"{count} {kind}" for kind, count in sorted(counts.items()))
    print(f"{script}: {told.strip()} allocations, refused one by one: {said}")
sys.exit(1 if wrong else 0)
PY
