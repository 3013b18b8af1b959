#!/usr/bin/env python3
"""Kills the program with signal 9 at a random moment while it answers over a disk, again and again, and counts replies that were acknowledged and lost.

Run it with the built program itself as first word (not a script that starts it, which would be killed in its place) and how many kills as second (else 100):
python3 bench/kills.py PROGRAM [KILLS]
Each run makes tasks over one connection, one after the other, and is killed about the time of one of the first forty requests, in the opening of the
disk, inside a request or between two. Then the same disk is opened again, and each task
whose creation was answered with 200, in this run and in all before it, is asked for. A page that the kernel has is not lost by a killed process, so
this shows the order of the writes and the opening of what a kill left, and not that a disk keeps what it was told to sync.
"""
import datetime
import json
import os
import random
import subprocess
import sys
import tempfile
import threading
import time

PROGRAM = os.path.abspath(sys.argv[1])
KILLS = int(sys.argv[2]) if len(sys.argv) > 2 else 100
# a run is killed about the time of one of so many requests
MOST = 40
FARM = '[[role]]\nid = "anonymous"\nscopes = ["*"]\n'
NOW = datetime.datetime.now(datetime.timezone.utc)
TASK = {
    "created": NOW.strftime("%Y-%m-%dT%H:%M:%S.000Z"),
    "deadline": (NOW + datetime.timedelta(days=1)).strftime("%Y-%m-%dT%H:%M:%S.000Z"),
    "metadata": {"description": "d", "name": "n", "owner": "o@example.com", "source": "https://example.com/"},
    "payload": {},
    "taskQueueId": "prov/wt",
}


def task_id(number):
    """A slugid whose first digits count."""
    return "A%06dAQACAAAAAAAAAAA" % number


def creation(number):
    text = json.dumps(TASK, separators=(",", ":"))
    return ("PUT /api/queue/v1/task/%s HTTP/1.1\r\nContent-Length: %d\r\n\r\n%s" % (task_id(number), len(text), text)).encode()


def status_of(number):
    return ("GET /api/queue/v1/task/%s/status HTTP/1.1\r\n\r\n" % task_id(number)).encode()


def reply(stream):
    """The status and the body of the next reply, or None where the stream ends inside it or before it."""
    head = b""
    while not head.endswith(b"\r\n\r\n"):
        byte = stream.read(1)
        if not byte:
            return None
        head += byte
    length = next((int(line.split(b":")[1]) for line in head.split(b"\r\n") if line.lower().startswith(b"content-length:")), 0)
    body = stream.read(length)
    return (int(head.split(b" ")[1]), body) if len(body) == length else None


def answer(folder):
    words = [PROGRAM, "answer", "farm.toml", "--disk", "farm.disk"]
    return subprocess.Popen(words, cwd=folder, stdin=subprocess.PIPE, stdout=subprocess.PIPE, stderr=subprocess.PIPE)


class Pace:
    """How long the last run took to its first reply, and from one reply to the next."""

    opening = 0.05
    turn = 0.005


def run_and_kill(folder, first, pace):
    """Makes tasks from this one on until the program is killed: the numbers of those that were acknowledged, and the next number."""
    program = answer(folder)
    fatal = random.randrange(MOST)
    timer = threading.Timer(random.uniform(0.0, 1.5 * (pace.turn if fatal else pace.opening)), program.kill)
    acknowledged, number, last = [], first, time.monotonic()
    while True:
        if number == first + fatal:
            timer.start()
        try:
            program.stdin.write(creation(number))
            program.stdin.flush()
        except BrokenPipeError:
            break
        number += 1
        got = reply(program.stdout)
        if got is None:
            break
        if got[0] != 200:
            sys.exit("a creation was answered with %d: %s" % (got[0], got[1].decode()))
        acknowledged.append(number - 1)
        now = time.monotonic()
        if number == first + 1:
            pace.opening = now - last
        else:
            pace.turn = (pace.turn + now - last) / 2
        last = now
    timer.join()
    program.wait()
    return acknowledged, number


def lost(folder, acknowledged):
    """Which of these tasks the farm on the disk does not have."""
    missing = []
    for begin in range(0, len(acknowledged), 900):
        part = acknowledged[begin:begin + 900]
        program = answer(folder)
        out, err = program.communicate(b"".join(status_of(number) for number in part))
        if program.returncode != 0:
            sys.exit("the farm ended with %d: %s" % (program.returncode, err.decode()))
        statuses = [line for line in out.split(b"\r\n") if line.startswith(b"HTTP/1.1 ") or b"HTTP/1.1 " in line]
        codes = [int(line[line.index(b"HTTP/1.1 ") + 9:][:3]) for line in statuses]
        missing += [number for number, code in zip(part, codes) if code != 200]
        if len(codes) != len(part):
            sys.exit("%d questions had %d replies" % (len(part), len(codes)))
    return missing


def main():
    random.seed()
    with tempfile.TemporaryDirectory() as folder:
        with open(os.path.join(folder, "farm.toml"), "w") as file:
            file.write(FARM)
        every, number, gone, pace = [], 0, set(), Pace()
        for _ in range(KILLS):
            acknowledged, number = run_and_kill(folder, number, pace)
            every += acknowledged
            # all of the last run, and some of all before it
            sample = acknowledged + random.sample(every, min(len(every), 200))
            gone |= set(lost(folder, sample))
        gone |= set(lost(folder, every))
        size = os.path.getsize(os.path.join(folder, "farm.disk"))
        print("%d kills, %d replies acknowledged, %d lost, %d bytes of records" % (KILLS, len(every), len(gone), size))
        sys.exit(1 if gone else 0)


if __name__ == "__main__":
    main()
