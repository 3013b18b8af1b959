#!/usr/bin/env python3
"""Tells what the proof of each function of a crate takes, in seconds of a processor, the dearest last.

    python3 bench/proof_times.py CRATE [--test] [WORDS of rt check..]

Run it at the top of the repository. It runs `rt check --jobs 1 --progress` in crates/CRATE, and at each function that is told as checked reads what the
check and the processes below it have taken since the one before. The first has what the check begins with, which is loading the crates below. Functions that
are kept from an earlier check take nothing: `rm -r crates/CRATE/out` first, where the crates below have been checked. Beside other work the figures are
higher. It ends with the status of `rt check`.
"""
import os
import re
import subprocess
import sys


def taken(root):
    """The seconds of a processor that a process, those below it, and those below it that have ended, have taken."""
    below, ticks, left = {}, 0, [root]
    for line in subprocess.run(["ps", "-eo", "pid=,ppid="], capture_output=True, text=True).stdout.splitlines():
        child, parent = map(int, line.split())
        below.setdefault(parent, []).append(child)
    while left:
        process = left.pop()
        left += below.get(process, [])
        try:
            with open(f"/proc/{process}/stat") as file:
                ticks += sum(map(int, file.read().rsplit(")", 1)[1].split()[11:15]))
        except OSError:
            pass
    return ticks / os.sysconf("SC_CLK_TCK")


def main():
    if not sys.argv[1:] or sys.argv[1].startswith("-"):
        print(__doc__, end="")
        return 2
    words = ["rt", "check", "--jobs", "1", "--progress", *sys.argv[2:]]
    check = subprocess.Popen(words, cwd=f"crates/{sys.argv[1]}", stdout=subprocess.PIPE, stderr=subprocess.STDOUT, text=True, errors="replace")
    rows, before, last = [], 0.0, ""
    for line in check.stdout:
        found = re.match(r"checked (\S+), \d+ of \d+", line)
        if found:
            now = taken(check.pid)
            rows.append((now - before, found.group(1)))
            before = now
        elif line.strip():
            last = line.rstrip()
    for seconds, name in sorted(rows):
        print(f"{seconds:7.1f} {name}")
    print(f"{sum(row[0] for row in rows):7.1f} in all")
    print(last)
    return check.wait()


if __name__ == "__main__":
    sys.exit(main())
