#!/usr/bin/env python3
"""Times `farm render` of templates of one shape each, at half of the greatest input and at all of it.

Run it at the top of the repository, with the built program as first word (else ./farm): python3 bench/templates.py [PROGRAM]
Each row is one shape: how long a run took over 524,288 bytes and over 1,048,576, the least of three, and how many times as long the second is. The start of
the program is taken off. Twice as many bytes should take about twice as long. A row whose template is refused names the status and the fault: what costs more
than 1,000,000, or is no expression, is refused where that is found.
"""
import json
import subprocess
import sys
import time

PROGRAM = sys.argv[1] if len(sys.argv) > 1 else "./farm"
LIMIT = 1048576
EMPTY = '{"context":{},"template":%s}'


def filled(front, piece, back, size):
    """The pieces between front and back that a template of so many bytes, with its context, has room for."""
    room = size - len(EMPTY % "") - len(front) - len(back)
    return front + piece * (room // len(piece)) + back


def numbered(front, piece, back, size):
    """The same of pieces that have their number in them."""
    count = (size - len(EMPTY % "") - len(front) - len(back)) // len(piece % 0)
    return front + ",".join(piece[:-1] % number for number in range(count)) + back


def nested(size):
    """As many lists that nest 60 deep as there is room for."""
    return filled("[0", "," + "[" * 60 + "0" + "]" * 60, "]", size)


SHAPES = [
    ("many `${1}`", lambda size: filled('"', "${1}", '"', size)),
    ("many `${` in a text, of which none ends", lambda size: filled('"', "${", '"', size)),
    ("many `$${`", lambda size: filled('"', "$${", '"', size)),
    ("many `}` behind one `${`", lambda size: filled('"${', "}", '"', size)),
    ("many `}` in the quotes of one `${`", lambda size: filled("\"${'", "}", "'}\"", size)),
    ("many `{}` in the list of one `${`", lambda size: filled('"${len([', "{},", '{}])}"', size)),
    ("many `(` behind one `${`", lambda size: filled('"${', "(", '}"', size)),
    ("many `{` behind one `${`", lambda size: filled('"${', "{", '}"', size)),
    ("a sum of many terms", lambda size: filled('"${0', "+1", '}"', size)),
    ("one long text", lambda size: filled('"', "x", '"', size)),
    ("one long text in an expression", lambda size: filled("\"${'", "x", "'}\"", size)),
    ("many keys", lambda size: numbered("{", '"key%06d":1,', "}", size)),
    ("many keys that are rendered", lambda size: numbered("{", '"${1}%06d":1,', "}", size)),
    ("a long list", lambda size: filled("[0", ",1", "]", size)),
    ("lists that nest 60 deep", nested),
    ("`$map` over a long list", lambda size: filled('{"$map":[0', ",1", '],"each(x)":{"$eval":"x"}}', size)),
    ("`$sort` of a long list", lambda size: filled('{"$sort":[0', ",1", ']}', size)),
    ("`$merge` of many maps", lambda size: numbered('{"$merge":[', '{"key%06d":1},', "]}", size)),
    ("`$flattenDeep` of many lists", lambda size: filled('{"$flattenDeep":[0', ",[[1]]", "]}", size)),
    ("`$switch` of many branches", lambda size: numbered('{"$switch":{', '"1==%06d+2":1,', "}}", size)),
]


def timed(text):
    start = time.perf_counter()
    done = subprocess.run([PROGRAM, "render"], input=text, capture_output=True, text=True)
    return time.perf_counter() - start, done


def least(text):
    runs = [timed(text) for _ in range(3)]
    return min(seconds for seconds, _ in runs), runs[0][1]


def main():
    begin, done = least(EMPTY % "0")
    if done.returncode != 0 or json.loads(done.stdout) != 0:
        raise SystemExit("%s does not render: %s" % (PROGRAM, done.stderr.strip()))
    print("a template `0`: %.3f s" % begin)
    for name, made in SHAPES:
        half, _ = least(EMPTY % made(LIMIT // 2))
        whole, done = least(EMPTY % made(LIMIT))
        half, whole = max(half - begin, 0.0005), max(whole - begin, 0.0005)
        said = "" if done.returncode == 0 else ", status %d %s" % (done.returncode, done.stderr.strip()[-70:])
        print("%-42s %8.3f s %8.3f s %5.1f times%s" % (name, half, whole, whole / half, said))


if __name__ == "__main__":
    main()
