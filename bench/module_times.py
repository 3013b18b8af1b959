#!/usr/bin/env python3
"""Tells where the time of a run of `rt ci` goes, function by function, without taking any: it reads what the checks leave as they go on.

    python3 bench/module_times.py watch FILE          beside the run: writes each module that a check has written to FILE, until it is interrupted
    python3 bench/module_times.py tell FILE [COUNT]   then: of each crate the kinds of modules, and its COUNT dearest functions (10 if left out)

A check writes the modules of each function, one after the other, into a folder `rattle-logic-built-locked-..` below /tmp, and removes it at its end. What a
module took is the time between it and the one before, so seconds are those of the clock, and right where a check has one job and a processor of its own. `Lts`
is what a function owns, step by step, `Proof` what the search finds, `Tie` what ties the code to its statement, `Answers` what is given by hand.
It looks every three seconds, and proves nothing.
"""
import collections
import os
import re
import sys
import time

PLACE, BEGIN = "/tmp", "rattle-logic-built-locked-"
MODULE = re.compile(r"Rattle-([a-z0-9_]+)-(?:proofs|specs)\.(.*?)\.?([A-Za-z_\-]+)(?:\.decls)?\.oantt$")


def new_modules(seen):
    """The modules that were not seen yet: the check, when it was written, its bytes, and its name."""
    for folder in filter(lambda it: it.startswith(BEGIN), os.listdir(PLACE)):
        for at, _, names in os.walk(f"{PLACE}/{folder}"):
            for path in (f"{at}/{name}" for name in names):
                if path not in seen:
                    try:
                        found = os.stat(path)
                    except OSError:
                        # (the check has ended)
                        continue
                    seen.add(path)
                    yield folder[len(BEGIN) :], found.st_mtime, found.st_size, os.path.basename(path)


def watch(file):
    seen = set()
    with open(file, "a") as out:
        while True:
            for check, at, size, name in new_modules(seen):
                out.write(f"{check} {at:.2f} {size} {name}\n")
            out.flush()
            time.sleep(3)


def tell(file, count):
    checks = collections.defaultdict(list)
    for line in open(file):
        check, at, size, name = line.rstrip("\n").split(" ", 3)
        checks[check].append((float(at), int(size), name))
    for rows in checks.values():
        rows.sort()
        kinds, functions, sizes, crates, before = collections.Counter(), collections.Counter(), collections.Counter(), collections.Counter(), rows[0][0]
        for at, size, name in rows:
            found = MODULE.match(name)
            crate, function, kind = found.groups() if found else ("", "", name.split(".")[0])
            crates[crate] += bool(crate)
            kinds[kind] += at - before
            functions[function or kind] += at - before
            sizes[function or kind] += size
            before = at
        told = ", ".join(f"{kind} {seconds:.0f}" for kind, seconds in kinds.most_common(6))
        print(f"{crates.most_common(1)[0][0]}: {rows[-1][0] - rows[0][0]:.0f} seconds of the clock; {told}")
        for function, seconds in functions.most_common(count):
            print(f"{seconds:8.1f} s {sizes[function] / 1e6:6.1f} MB  {function}")


def main():
    if len(sys.argv) == 3 and sys.argv[1] == "watch":
        try:
            watch(sys.argv[2])
        except KeyboardInterrupt:
            return 0
    if len(sys.argv) in (3, 4) and sys.argv[1] == "tell":
        tell(sys.argv[2], int(sys.argv[3]) if sys.argv[3:] else 10)
        return 0
    print(__doc__, end="")
    return 2


if __name__ == "__main__":
    sys.exit(main())
