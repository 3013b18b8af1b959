#!/usr/bin/env python3
"""Times createTask of tasks that wait for others, at half of what a connection may ask and at all of it.

Run it at the top of the repository, with the built program as first word (else ./farm): python3 bench/waits.py [PROGRAM]
A connection makes so many tasks: each alone, each waiting for the first, each waiting for the one before it, and each waiting for the hundred before it, which are as many as a task may name.
"""
import datetime
import json
import subprocess
import sys
import tempfile
import time

PROGRAM = sys.argv[1] if len(sys.argv) > 1 else "./farm"
FARM = '[[role]]\nid = "anonymous"\nscopes = ["*"]\n'
NOW = datetime.datetime.now(datetime.timezone.utc)
PLAIN = {
    "created": NOW.strftime("%Y-%m-%dT%H:%M:%S.000Z"),
    "deadline": (NOW + datetime.timedelta(hours=1)).strftime("%Y-%m-%dT%H:%M:%S.000Z"),
    "metadata": {"description": "d", "name": "n", "owner": "o@example.com", "source": "https://example.com/"},
    "payload": {},
    "taskQueueId": "prov/wt",
}
WAYS = {
    "alone": lambda ids: [],
    "for the first": lambda ids: ids[:1],
    "for the one before": lambda ids: ids[-1:],
    "for the last 100": lambda ids: ids[-100:],
}


def task_id(number):
    """A slugid whose first digits count."""
    return "A%04dAAAQACAAAAAAAAAAA" % number


def message(method, path, body):
    text = json.dumps(body, separators=(",", ":")) if body is not None else ""
    return "%s /api/queue/v1/%s HTTP/1.1\r\nContent-Length: %d\r\n\r\n%s" % (method, path, len(text), text)


def creation(number, dependencies, queue="prov/wt"):
    return message("PUT", "task/" + task_id(number), dict(PLAIN, dependencies=dependencies, taskQueueId=queue))


def requests(count, way):
    ids, parts = [], []
    for number in range(count):
        parts.append(creation(number, way(ids)))
        ids.append(task_id(number))
    return "".join(parts)


def late(count):
    """Tasks that wait for 99 which are completed and stand behind others, and then for the first of all, which is not."""
    others = count * 4 // 10
    done = range(others, others + 99)
    parts = [creation(number, [], "prov/other") for number in range(others)]
    parts += [creation(number, []) for number in done]
    parts += [message("POST", "claim-work/prov/wt", {"tasks": 32, "workerGroup": "g", "workerId": "w"}) for _ in range(4)]
    parts += [message("POST", "task/%s/runs/0/completed" % task_id(number), None) for number in done]
    waited = [task_id(number) for number in done] + [task_id(0)]
    return "".join(parts + [creation(others + 99 + number, waited) for number in range(count - len(parts))])


def timed(text):
    with tempfile.NamedTemporaryFile("w", suffix=".toml") as file:
        file.write(FARM)
        file.flush()
        start = time.perf_counter()
        done = subprocess.run([PROGRAM, "answer", file.name], input=text, capture_output=True, text=True)
        return time.perf_counter() - start, done


def tell(name, made):
    told = []
    for count in (499, 998):
        spent, done = timed(made(count))
        good = done.stdout.count("HTTP/1.1 200 OK")
        told.append("%d requests %.2f s (%d done, status %d)" % (count, spent, good, done.returncode))
    print("%-20s %s" % (name, ", ".join(told)))


for name, way in WAYS.items():
    tell(name, lambda count: requests(count, way))
tell("for 99 done and one", late)
