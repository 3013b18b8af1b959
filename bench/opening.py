#!/usr/bin/env python3
"""What the opening of a journal costs, beside reading the file and parsing its JSON.

    bench/opening.py PROGRAM [RECORDS]

PROGRAM is the built program itself. The script writes a journal of so many records (else 100,000), each of which creates a task, and half as many; each definition
is in its full form, as the program keeps it. `check FARM --disk NAME` opens it and counts its records and tasks. Beside it stands what Python takes to read the file
and to parse each definition with its `json`. A time is the processor's time of the process, the least of three runs. It ends with 1 where the opening takes more than
2 times as long as Python, or more than 3 times as long as that of half the records.
"""
import json
import os
import resource
import struct
import subprocess
import sys
import tempfile
import uuid

import peers

PROGRAM = os.path.abspath(sys.argv[1])
RECORDS = int(sys.argv[2]) if len(sys.argv) > 2 else 100_000
RUNS = 3
CREATED = 1_704_067_200_000

PARSING = """
import json, struct, sys
data, at, count = open(sys.argv[1], "rb").read(), 0, 0
while data[at] == 0xA5:
    size, = struct.unpack_from(">I", data, at + 1)
    body = data[at + 5 : at + 5 + size]
    json.loads(body[29:])
    at += 5 + size
    count += 1
print(count)
"""


def definition(number):
    """A definition in its full form, with its keys in order."""
    task = {
        "created": "2024-01-01T00:00:00.000Z", "deadline": "2024-01-02T00:00:00.000Z", "dependencies": [], "expires": "2025-01-01T00:00:00.000Z", "extra": {},
        "metadata": {"description": "d", "name": "n", "owner": "o@example.com", "source": "https://example.com/"}, "payload": {"number": number}, "priority": "lowest",
        "projectId": "none", "provisionerId": "prov", "requires": "all-completed", "retries": 5, "routes": [], "schedulerId": "-", "scopes": [], "tags": {},
        "taskGroupId": "AAAAAAAAQACAAAAAAAAAAA", "taskQueueId": "prov/wt", "workerType": "wt",
    }
    return json.dumps(task, separators=(",", ":")).encode()


def journal(path, count):
    with open(path, "wb") as file:
        for number in range(count):
            slug = uuid.UUID(int=0x0000000000004000_8000000000000000 + number).bytes
            text = definition(number)
            body = b"\x02" + struct.pack(">Q", CREATED) + slug + struct.pack(">I", len(text)) + text
            file.write(b"\xa5" + struct.pack(">I", len(body)) + body)
        file.write(b"\0")


def used(words, folder, expected):
    least = None
    for _ in range(RUNS):
        before = resource.getrusage(resource.RUSAGE_CHILDREN)
        out = subprocess.run(words, cwd=folder, capture_output=True, text=True, check=True).stdout
        after = resource.getrusage(resource.RUSAGE_CHILDREN)
        if expected not in out:
            sys.exit("%s gives %r" % (words, out))
        took = after.ru_utime + after.ru_stime - before.ru_utime - before.ru_stime
        least = took if least is None else min(least, took)
    return least


def main():
    with tempfile.TemporaryDirectory() as folder:
        with open(os.path.join(folder, "farm.toml"), "w") as file:
            file.write(peers.FARM)
        took = {}
        for count in (RECORDS // 2, RECORDS):
            disk = os.path.join(folder, "farm.disk")
            journal(disk, count)
            opening = used([PROGRAM, "check", "farm.toml", "--disk", "farm.disk"], folder, "records=%d tasks=%d" % (count, count))
            parsing = used([sys.executable, "-c", PARSING, disk], folder, "%d" % count)
            print("%d records, %d bytes: opened in %.2f s, read and parsed by Python in %.2f s, %.2f times" % (count, os.path.getsize(disk), opening, parsing, opening / parsing), flush=True)
            took[count] = opening, parsing
        whole, parsed = took[RECORDS]
        return 0 if whole <= 2 * parsed and whole <= 3 * took[RECORDS // 2][0] else 1


if __name__ == "__main__":
    sys.exit(main())
