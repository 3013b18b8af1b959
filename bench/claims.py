#!/usr/bin/env python3
"""What a claim costs from a queue with many pending tasks, beside one with few.

    bench/claims.py PROGRAM [PENDING]

PROGRAM is the built program itself. The script writes a journal of so many tasks that wait in one queue (else 100,000) and one of 1,000, each in a folder of
memory, so that the disk costs nothing, and has `answer` open it and answer a ping. Then it sends 900 claims on the same input, and reads off the kernel's count of
the process (`schedstat`) what they took of a processor: nothing of the opening is in it. Of the claims that is the least of five such runs, in turn. It ends with 1
where a claim from many costs more than 3 times one from few.
"""
import os
import shutil
import subprocess
import sys
import tempfile

import opening
import peers

PROGRAM = os.path.abspath(sys.argv[1])
PENDING = int(sys.argv[2]) if len(sys.argv) > 2 else 100_000
FEW, CLAIMS, RUNS, LIMIT = 1_000, 900, 5, 3.0


def journal(path, count):
    """Tasks with a deadline that is still to come."""
    import datetime
    now = datetime.datetime.now(datetime.timezone.utc)
    opening.CREATED = int(now.timestamp() * 1000) - 60_000
    moments = [moment.strftime("%Y-%m-%dT%H:%M:%S.000Z") for moment in (now - datetime.timedelta(minutes=1), now + datetime.timedelta(days=1), now + datetime.timedelta(days=300))]
    made = opening.definition
    opening.definition = lambda number: made(number).replace(b"2024-01-01T00:00:00.000Z", moments[0].encode()).replace(b"2024-01-02T00:00:00.000Z", moments[1].encode()).replace(b"2025-01-01T00:00:00.000Z", moments[2].encode())
    opening.journal(path, count)
    opening.definition = made


def processor(pid):
    """Nanoseconds for which the process' threads have run."""
    return sum(int(open("/proc/%d/task/%s/schedstat" % (pid, thread)).read().split()[0]) for thread in os.listdir("/proc/%d/task" % pid))


def reply(stream):
    """The next reply: its status and its body."""
    head = stream.readline()
    if not head:
        sys.exit("answer ended before a reply")
    status, length = int(head.split()[1]), 0
    while True:
        line = stream.readline().strip()
        if not line:
            return status, stream.read(length)
        name, value = line.split(b":", 1)
        if name.lower() == b"content-length":
            length = int(value)


def ask(answer, message):
    """Sends a message, and reads its reply."""
    answer.stdin.write(message)
    answer.stdin.flush()
    return reply(answer.stdout)


def used(folder, count):
    """Seconds of a processor of one claim, where so many tasks are pending."""
    shutil.copy(os.path.join(folder, "%d.disk" % count), os.path.join(folder, "farm.disk"))
    answer = subprocess.Popen([PROGRAM, "answer", "farm.toml", "--disk", "farm.disk"], cwd=folder, stdin=subprocess.PIPE, stdout=subprocess.PIPE)
    ask(answer, peers.PING)
    before = processor(answer.pid)
    for _ in range(CLAIMS):
        status, body = ask(answer, peers.claim())
        if status != 200 or b'"takenUntil"' not in body:
            sys.exit("a claim was answered with %d: %s" % (status, body[:300].decode()))
    after = processor(answer.pid)
    answer.stdin.close()
    if answer.wait() != 0:
        sys.exit("answer ended with %d" % answer.returncode)
    return (after - before) / 1e9 / CLAIMS


def main():
    took = {FEW: [], PENDING: []}
    with tempfile.TemporaryDirectory(dir="/dev/shm") as folder:
        with open(os.path.join(folder, "farm.toml"), "w") as file:
            file.write(peers.FARM)
        for count in took:
            journal(os.path.join(folder, "%d.disk" % count), count)
        for _ in range(RUNS):
            for count in took:
                took[count].append(used(folder, count))
    for count in took:
        print("%d pending: %.1f us a claim (%s)" % (count, 1e6 * min(took[count]), ", ".join("%.1f" % (1e6 * one) for one in took[count])))
    times = min(took[PENDING]) / min(took[FEW])
    print("%.2f times (at most %.0f)" % (times, LIMIT))
    return 0 if times <= LIMIT else 1


if __name__ == "__main__":
    sys.exit(main())
