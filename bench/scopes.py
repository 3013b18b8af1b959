#!/usr/bin/env python3
"""Two inputs at the limits, by which whoever sends a request, or writes a farm file, might hold the farm.

    bench/scopes.py [PROGRAM]    measures (else crates/farm/out/farm), and ends with 1 where the limit is passed

1. A createTask that asks for 250 long scopes of a caller who has 9,001 scopes that begin as they do.
2. A start list of 870 scopes that are each granted a role with 9,000 scopes.

Each at half of its size and at all of it, in the processor's time that the system counts for the program: twice as long scopes,
or twice as many, are to take about twice the time. The limit leaves room for what a busy machine adds; what takes less
than 50 ms in all is not judged.
"""
import json
import os
import subprocess
import sys
import tempfile
import time

TOP = os.path.dirname(os.path.dirname(os.path.abspath(__file__)))
PROGRAM = sys.argv[1] if len(sys.argv) > 1 else os.path.join(TOP, "crates", "farm", "out", "farm")
PING = b"GET /api/queue/v1/ping HTTP/1.1\r\n\r\n"
RUNS = 5
LIMIT = 3.0


def role(name, scopes):
    return '[[role]]\nid = "%s"\nscopes = [%s]\n' % (name, ", ".join('"%s"' % scope for scope in scopes))


def write(text):
    file = tempfile.NamedTemporaryFile("w", suffix=".toml", delete=False)
    file.write(text)
    file.close()
    return file.name


def used(child):
    """The processor's time of a program so far, in seconds (once it waits for input)."""
    time.sleep(0.005)
    with open("/proc/%d/schedstat" % child.pid) as counts:
        return int(counts.read().split()[0]) / 1e9


def answered(child, status):
    """Reads one answer, which has this status."""
    read = b""
    while b"\r\n\r\n" not in read:
        read += os.read(child.stdout.fileno(), 1 << 16)
    head, body = read.split(b"\r\n\r\n", 1)
    if not head.startswith(b"HTTP/1.1 %d " % status):
        sys.exit("not %d: %r" % (status, read[:300]))
    length = next(int(line.split(b":")[1]) for line in head.split(b"\r\n") if line.lower().startswith(b"content-length"))
    while len(body) < length:
        body += os.read(child.stdout.fileno(), 1 << 16)


def task(scopes):
    """A createTask that asks for these scopes."""
    body = json.dumps({
        "provisionerId": "prov", "workerType": "wt", "created": "2026-01-01T00:00:00.000Z", "deadline": "2026-01-02T00:00:00.000Z", "scopes": scopes,
        "payload": {}, "metadata": {"name": "n", "description": "d", "owner": "o@example.com", "source": "https://example.com/"},
    }).encode()
    head = "PUT /api/queue/v1/task/AAAAAAAAQACAAAAAAAAAAA HTTP/1.1\r\ncontent-type: application/json\r\ncontent-length: %d\r\n\r\n" % len(body)
    return head.encode() + body


def asked(length):
    """The time of an ask for 250 scopes that have so many bytes in common with 9,001 scopes of the caller."""
    same = "x" * length
    farm = write(role("anonymous", ["assume:p" + same]) + role("p*", ["z:<..>%d" % i for i in range(9_000)]))
    request = task(["z:%sy%d" % (same, i) for i in range(250)])
    times = []
    for _ in range(RUNS):
        child = subprocess.Popen([PROGRAM, "answer", farm], stdin=subprocess.PIPE, stdout=subprocess.PIPE)
        os.write(child.stdin.fileno(), PING)
        answered(child, 200)
        before = used(child)
        child.stdin.write(request)
        child.stdin.flush()
        answered(child, 403)
        times.append(used(child) - before)
        child.stdin.close()
        child.wait()
    os.unlink(farm)
    return min(times)


def expanded(held, given):
    """The time of a closure of so many scopes, which are each granted a role that gives so many, less that of the file's reading."""
    farm = write(role("p*", ["s:%d" % i for i in range(given)]))
    start = "".join("assume:p%d\n" % i for i in range(held)).encode()
    times = []
    for words, text in ((["check", farm], b""), (["expand", farm], start)):
        least = None
        for _ in range(RUNS):
            begun = time.perf_counter()
            done = subprocess.run([PROGRAM, *words], input=text, capture_output=True)
            spent = time.perf_counter() - begun
            least = spent if least is None else min(least, spent)
        if done.returncode != 0:
            sys.exit("%s ended with %d" % (words[0], done.returncode))
        times.append(least)
    if len(done.stdout.splitlines()) != held + given:
        sys.exit("expand wrote %d scopes" % len(done.stdout.splitlines()))
    os.unlink(farm)
    return max(times[1] - times[0], 1e-4)


passed = True
for name, half, whole in (
    ("250 scopes are asked for, which share 1,950 and 3,900 bytes with 9,000 that are held", asked(1_950), asked(3_900)),
    ("435 and 870 scopes are granted a role of 4,500 and 9,000", expanded(435, 4_500), expanded(870, 9_000)),
):
    passed = passed and (whole <= LIMIT * half or whole < 0.05)
    print("%s: %.3f s and %.3f s, %.1f times as long" % (name, half, whole, whole / half), flush=True)
sys.exit(0 if passed else 1)
