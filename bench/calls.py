#!/usr/bin/env python3
"""Runs the curl lines of docs/CALLS.md, in their order, over `farm answer` behind examples/listen.py: each has to be answered with 200, and
what it tells has to be what the rules give. Prints a line for each, and ends with 1 where one is answered otherwise.

usage: python3 bench/calls.py [PORT]        (in the repository's folder; FARM_PROGRAM, if it is set, is run in place of ./farm)
"""
import json
import os
import re
import socket
import subprocess
import sys
import time

# what each line's reply has to tell, worked out from the rules: a test of the reply by the line's place
STATE = lambda told, *names: [told["status"]["state"], [run["state"] for run in told["status"]["runs"]]] == [names[0], list(names[1:])]
WANTED = [
    lambda told: told == {"alive": True},
    lambda told: STATE(told, "pending", "pending"),
    lambda told: STATE(told, "unscheduled"),
    lambda told: told["payload"] == {"command": ["make", "all"]} and told["retries"] == 5,
    lambda told: STATE(told, "pending", "pending"),
    lambda told: told["pendingTasks"] == 1 and told["taskQueueId"] == "prov/wt",
    lambda told: [it["runId"] for it in told["tasks"]] == [0] and told["tasks"][0]["workerId"] == "one",
    lambda told: told["runId"] == 0 and "takenUntil" in told,
    lambda told: STATE(told, "pending", "exception", "pending") and told["status"]["retriesLeft"] == 4,
    lambda told: [it["runId"] for it in told["tasks"]] == [1],
    lambda told: STATE(told, "failed", "exception", "failed"),
    lambda told: STATE(told, "pending", "exception", "failed", "pending"),
    lambda told: [it["runId"] for it in told["tasks"]] == [2],
    lambda told: STATE(told, "completed", "exception", "failed", "completed"),
    lambda told: STATE(told, "pending", "pending"),
    lambda told: [it["status"]["taskId"][-1] for it in told["tasks"]] == ["A"] and "continuationToken" not in told,
    lambda told: [it["status"]["taskId"][-1] for it in told["tasks"]] == ["Q"],
    lambda told: STATE(told, "exception", "exception"),
    lambda told: STATE(told, "pending", "pending") and told["status"]["taskGroupId"] == told["status"]["taskId"],
]

port = int(sys.argv[1]) if len(sys.argv) > 1 else 8080
block = re.findall(r"```sh\n(F=.*?)```", open("docs/CALLS.md").read(), re.S)[0].splitlines()
first, lines = block[0].replace("8080", str(port)), block[1:]
server = subprocess.Popen([sys.executable, "examples/listen.py", "examples/workers.toml", str(port)])
try:
    for _ in range(600):
        with socket.socket() as probe:
            if not probe.connect_ex(("localhost", port)):
                break
        time.sleep(0.1)
    bad = len(lines) != len(WANTED)
    for line, is_wanted in zip(lines, WANTED):
        command = line.split("  #")[0].strip().replace("curl", "curl -s -w '\\n%{http_code}'", 1)
        body, _, status = subprocess.run(["sh", "-c", f"{first}; {command}"], capture_output=True, text=True, env=os.environ).stdout.rpartition("\n")
        well = status == "200" and is_wanted(json.loads(body))
        bad |= not well
        print("well" if well else "OTHERWISE", status, line.split("#")[-1].strip() if well else f"{line}\n{body}")
finally:
    server.terminate()
print(f"{len(lines)} lines, {'not all' if bad else 'all'} answered as they have to be")
sys.exit(bad)
