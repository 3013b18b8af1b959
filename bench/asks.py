#!/usr/bin/env python3
"""What a ping costs over a farm file that gives whoever has no credentials many scopes, against one over an empty farm file.

    bench/asks.py            builds the program if need be (./farm), or takes FARM_PROGRAM, measures, and ends with 1 where the limit is passed

One connection answers a first ping, after which the program's start is over (the farm file is read, and the closure of
`assume:anonymous` made), and then 998 more. Their cost is the processor's time that the system counts for the program between
these two, the least of several runs, so that other programs on the machine disturb it little.
"""
import os
import subprocess
import sys
import tempfile
import time

TOP = os.path.dirname(os.path.dirname(os.path.abspath(__file__)))
PROGRAM = os.environ.get("FARM_PROGRAM") or os.path.join(TOP, "crates", "farm", "out", "farm")
PING = b"GET /api/queue/v1/ping HTTP/1.1\r\n\r\n"
MORE = 998
RUNS = 25
LIMIT = 2.0

EMPTY = ""
MANY = '[[role]]\nid = "anonymous"\nscopes = [%s]\n' % ", ".join('"assume:r%d"' % n for n in range(9_000))
TOO_MANY = '[[role]]\nid = "anonymous"\nscopes = [%s]\n' % ", ".join('"assume:r%d"' % n for n in range(10_000))


def used(child):
    """The processor's time of a program so far, in seconds (once it waits for input)."""
    time.sleep(0.005)
    with open("/proc/%d/schedstat" % child.pid) as counts:
        return int(counts.read().split()[0]) / 1e9


def answers(child, count, status):
    """Reads so many answers, of which each has this status."""
    head = b"HTTP/1.1 %d " % status
    read = b""
    while read.count(head) < count or not read.endswith(b"}"):
        piece = os.read(child.stdout.fileno(), 1 << 16)
        if not piece:
            sys.exit("the program has ended after %r" % read[-200:])
        read += piece


def costs_of(farm, status):
    """The start of the program with a first ping, and one more ping, in seconds: the least of several runs."""
    starts, pings = [], []
    for _ in range(RUNS):
        child = subprocess.Popen([PROGRAM, "answer", farm], stdin=subprocess.PIPE, stdout=subprocess.PIPE)
        os.write(child.stdin.fileno(), PING)
        answers(child, 1, status)
        first = used(child)
        os.write(child.stdin.fileno(), PING * MORE)
        answers(child, MORE, status)
        starts.append(first)
        pings.append((used(child) - first) / MORE)
        child.stdin.close()
        child.wait()
    return min(starts), min(pings)


def main():
    if "FARM_PROGRAM" not in os.environ:
        subprocess.run([os.path.join(TOP, "farm"), "check", os.path.join(TOP, "examples", "farm.toml")], check=True, stdout=subprocess.DEVNULL)
    costs = {}
    with tempfile.TemporaryDirectory() as folder:
        for name, text, status in (("empty", EMPTY, 200), ("9,000 scopes", MANY, 200), ("too many scopes", TOO_MANY, 403)):
            path = os.path.join(folder, "farm.toml")
            with open(path, "w") as file:
                file.write(text)
            start, costs[name] = costs_of(path, status)
            print("%-16s start %8.1f ms   a ping %7.2f us   status %d" % (name, 1e3 * start, 1e6 * costs[name], status))
    ratio = costs["9,000 scopes"] / costs["empty"]
    print("a ping over 9,000 scopes costs %.2f times one over an empty farm file (at most %.0f)" % (ratio, LIMIT))
    return 0 if ratio <= LIMIT else 1


if __name__ == "__main__":
    sys.exit(main())
