#!/usr/bin/env python3
"""Times `farm check` of a farm file that is refused for a cycle of all its roles, at half of the limit and at all of it.

Run it at the top of the repository, with the built program as first word (else ./farm): python3 bench/cycles.py [PROGRAM]
Beside it stands the same file with its cycle cut open, which is taken.
"""
import subprocess
import sys
import tempfile
import time

PROGRAM = sys.argv[1] if len(sys.argv) > 1 else "./farm"


def roles_of(count, closed):
    """Roles `rXXXX-*` of which each leads to the next, and the last one to the first where the cycle is closed."""
    rows = []
    for i in range(count):
        scope = "assume:r%04d-<..>" % ((i + 1) % count) if closed or i + 1 < count else "last"
        rows.append('[[role]]\nid = "r%04d-*"\nscopes = ["%s"]\n' % (i, scope))
    return "\n".join(rows)


def timed(text):
    with tempfile.NamedTemporaryFile("w", suffix=".toml") as file:
        file.write(text)
        file.flush()
        start = time.perf_counter()
        done = subprocess.run([PROGRAM, "check", file.name], input="", capture_output=True, text=True)
        return time.perf_counter() - start, done


for count in (5000, 10000):
    cut, taken = timed(roles_of(count, False))
    closed, refused = timed(roles_of(count, True))
    print("%d roles: on one cycle %.2f s (status %d), without one %.2f s (status %d)" % (count, closed, refused.returncode, cut, taken.returncode))
    print("    " + refused.stderr.strip()[-160:])
