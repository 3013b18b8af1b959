#!/usr/bin/env python3
"""Times `farm check` of a farm file whose roles all point forward, and `farm expand` over 10,000 roles beside a plain worklist.

Run it at the top of the repository, with the built program as first word (else ./farm): python3 bench/roles.py [PROGRAM]
The worklist is Python's: a dict from role ids to scopes and a set of the scopes that are found, for the same input, in the same run.
"""
import subprocess
import sys
import tempfile
import time

PROGRAM = sys.argv[1] if len(sys.argv) > 1 else "./farm"


def role(name, scopes):
    listed = ", ".join('"%s"' % scope for scope in scopes)
    return '[[role]]\nid = "%s"\nscopes = [%s]\n' % (name, listed)


def forward(count, each):
    """Roles `nXXXX-*`, each with as many scopes `assume:nYYYY-<..>` of roles behind it."""
    rows = []
    for i in range(count):
        rows.append(role("n%04d-*" % i, ["assume:n%04d-<..>" % j for j in range(i + 1, min(i + 1 + each, count))]))
    return "\n".join(rows)


def as_many_as_fit(count, size):
    low, high = 1, 2000
    while low < high:
        middle = (low + high + 1) // 2
        if len(forward(count, middle)) <= size:
            low = middle
        else:
            high = middle - 1
    return forward(count, low)


def timed(words, stdin):
    start = time.perf_counter()
    done = subprocess.run([PROGRAM, *words], input=stdin, capture_output=True, text=True)
    return time.perf_counter() - start, done


def write(text):
    file = tempfile.NamedTemporaryFile("w", suffix=".toml", delete=False)
    file.write(text)
    file.close()
    return file.name


def plain_worklist(roles, start):
    found = set(start)
    left = list(start)
    while left:
        held = left.pop()
        for scope in roles.get(held[len("assume:"):], ()) if held.startswith("assume:") else ():
            if scope not in found:
                found.add(scope)
                left.append(scope)
    return sorted(found)


for count, size in ((1000, 4194304 // 10), (10000, 4194304)):
    text = as_many_as_fit(count, size)
    seconds, done = timed(["check", write(text)], "")
    print("check, %d roles that point forward, %d bytes: %.2f s, %s" % (count, len(text), seconds, done.stdout.strip()))

# 10,000 roles of which each gives the next: 9,999 scopes are derived from the first.
ids = ["r%04d" % i for i in range(10000)]
roles = {ids[i]: ["assume:" + ids[i + 1]] if i + 1 < 9999 else [] for i in range(10000)}
farm = write("\n".join(role(name, scopes) for name, scopes in roles.items()))
empty, _ = timed(["check", farm], "")
seconds, done = timed(["expand", farm], "assume:r0000\n")
start = time.perf_counter()
plain = plain_worklist(roles, ["assume:r0000"])
python = time.perf_counter() - start
same = done.stdout.split() == plain
print("expand, 10000 roles: %.3f s, of which %.3f s read the file; the plain worklist: %.3f s; same scopes: %s" % (seconds, empty, python, same))
