#!/usr/bin/env python3
"""Bodies at their limits through the built program: what each is answered, and how long the program takes with half of it and with all.

    ./farm --help; bench/bodies.py

The first word builds the program; FARM_PROGRAM, if it is set, is run in its place. Each case is one PUT over a farm that is open to all; its reply is compared with what it has to be.
"""
import os
import subprocess
import sys
import tempfile
import time

TOP = os.path.dirname(os.path.dirname(os.path.abspath(__file__)))
PROGRAM = os.environ.get("FARM_PROGRAM") or os.path.join(TOP, "crates", "farm", "out", "farm")
FARM = '[[role]]\nid = "anonymous"\nscopes = ["*"]\n'
MOST = 1_048_576


def definition(payload, **more):
    now = time.time()
    stamp = lambda t: time.strftime("%Y-%m-%dT%H:%M:%S.000Z", time.gmtime(t))
    members = {
        "created": '"%s"' % stamp(now),
        "deadline": '"%s"' % stamp(now + 3600),
        "metadata": '{"description":"d","name":"n","owner":"o","source":"s"}',
        "payload": payload,
        "taskQueueId": '"prov/wt"',
    }
    members.update(more)
    return "{%s}" % ",".join('"%s":%s' % item for item in members.items())


def filled(size, make):
    """The definition whose payload has as many parts as fit into so many bytes."""
    low, high = 0, 1
    while len(make(high)) <= size:
        low, high = high, 2 * high
    while low < high:
        middle = (low + high + 1) // 2
        low, high = (middle, high) if len(make(middle)) <= size else (low, middle - 1)
    body = make(low)
    return body + " " * (size - len(body))


CASES = [
    ("a text", lambda n: definition('{"a":"%s"}' % ("x" * n)), 200),
    ("escapes", lambda n: definition('{"a":"%s"}' % ("\\u0001" * n)), 200),
    ("whole numbers", lambda n: definition('{"a":[%s]}' % ",".join(["7"] * n)), 200),
    ("keys", lambda n: definition("{%s}" % ",".join('"k%d":0' % i for i in range(n))), 200),
    ("keys that fall", lambda n: definition("{%s}" % ",".join('"k%07d":0' % (n - i) for i in range(n))), 200),
    ("one key again and again", lambda n: definition("{%s}" % ",".join(['"k":0'] * n)), 200),
    ("lists 120 deep", lambda n: definition('{"a":[%s]}' % ",".join(["[" * 120 + "]" * 120] * n)), 200),
    ("tags", lambda n: definition("{}", tags="{%s}" % ",".join('"k%d":"v"' % i for i in range(n))), 200),
    ("a fraction at the end", lambda n: definition('{"a":[%s]}' % ",".join(["7"] * n + ["1.5"])), 400),
    ("unknown keys", lambda n: definition("{}")[:-1] + "".join(',"k%d":0' % i for i in range(n)) + "}", 400),
    ("open brackets", lambda n: "[" * n, 400),
]


def run(farm, body):
    request = b"PUT /api/queue/v1/task/AAAAAAAAQACAAAAAAAAAAA HTTP/1.1\r\nContent-Length: %d\r\n\r\n" % len(body) + body
    begun = time.perf_counter()
    ended = subprocess.run([PROGRAM, "answer", farm], input=request, capture_output=True, timeout=600)
    return ended, time.perf_counter() - begun


def main():
    if not os.path.exists(PROGRAM):
        sys.exit("the program is not built: ./farm --help builds it")
    wrong = 0
    with tempfile.NamedTemporaryFile("w", suffix=".toml", delete=False) as file:
        file.write(FARM)
    print("%-26s %12s %12s" % ("body of", "half", "1,048,576 bytes"))
    for name, make, status in CASES:
        times = []
        for size in (MOST // 2, MOST):
            body = filled(size, make).encode()
            ended, seconds = run(file.name, body)
            times.append(seconds)
            if not ended.stdout.startswith(b"HTTP/1.1 %d " % status) or ended.returncode:
                wrong += 1
                print("wrong:", name, size, ended.returncode, ended.stdout[:200], ended.stderr[:200])
        print("%-26s %10.3f s %10.3f s" % (name, *times))
    os.unlink(file.name)
    sys.exit(1 if wrong else 0)


main()
