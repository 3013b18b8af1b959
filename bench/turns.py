#!/usr/bin/env python3
"""What templates cost that have a long text in each of many turns, or nest deep, by `farm render`.

usage: python3 bench/turns.py        (in the repository's folder; FARM_PROGRAM, if it is set, is run in place of ./farm)
"""
import os
import subprocess
import time

PROGRAM = os.environ.get("FARM_PROGRAM", "./farm")
LIMIT = 120


def render(name, template):
    """Renders a template with no context, and prints how long that took, and how it ended."""
    start = time.time()
    try:
        ran = subprocess.run([PROGRAM, "render"], input=('{"context":{},"template":' + template + "}").encode(), capture_output=True, timeout=LIMIT)
        ended = f"status {ran.returncode}, {len(ran.stdout)} bytes"
    except subprocess.TimeoutExpired:
        ended = f"not ended after {LIMIT} s"
    print(f"{time.time() - start:8.2f} s  {name}: {ended}", flush=True)


subprocess.run([PROGRAM, "--help"], capture_output=True)
for spaces in (1_000, 10_000, 100_000):
    render(f"$map of 2,000 turns, {spaces} spaces", '{"$map":{"$eval":"range(0,2000)"},"each(x)":{"$eval":"0<' + " " * spaces + '1"}}')
for items in (1_000, 10_000):
    render(f"$map of 2,000 turns, true||[{items} items]", '{"$map":{"$eval":"range(0,2000)"},"each(x)":{"$eval":"true||[' + "0," * items + '0]"}}')
for items in (10_000, 100_000):
    render(f"$find of 2,000 turns, false&&[{items} items]", '{"$find":{"$eval":"range(0,2000)"},"each(x)":"false&&[' + "0," * items + '0]"}')
for turns in (5, 20):
    texts = ",".join('{"$eval":"0<' + " " * 506 + str(1000 + i) + '"}' for i in range(1_900))
    render(f"$map of {turns} turns, each over 1,900 texts of 512 bytes that differ in their last ones", '{"$map":{"$eval":"range(0,' + str(turns) + ')"},"each(x)":[' + texts + "]}")
for spaces in (10_000, 100_000):
    render(f"$map of 2,000 turns, ${{..}} with {spaces} spaces", '{"$map":{"$eval":"range(0,2000)"},"each(x)":"${0<' + " " * spaces + '1}"}')
for items in (5_000, 50_000):
    render(f"$map of 2,000 turns, ${{true||[{items} items]}}", '{"$map":{"$eval":"range(0,2000)"},"each(x)":"${true||[' + "0," * items + '0]}"}')
for turns in (10, 60, 90):
    render(f"$reduce of {turns} turns, 120 lists each", '{"$reduce":{"$eval":"range(0,' + str(turns) + ')"},"initial":0,"each(a,v)":' + "[" * 120 + '{"$eval":"a"}' + "]" * 120 + "}")
for share, turns, long in (("half", 75_000, 500_000), ("all", 150_000, 1_000_000)):
    print(f"in each of {turns} turns, {share} of the limits, with {long} bytes:")
    half = long // 2
    outer = '{"$reduce":{"$eval":"range(0,' + str(turns) + ')"},"initial":0,"each(a,v)":'
    render("`$map` with a long name", outer + '{"$map":[],"each(' + "n" * long + ')":0}}')
    render("`$map` with two long names", outer + '{"$map":[],"each(' + "n" * half + "," + "m" * half + ')":0}}')
    render("`$find` with a long name", outer + '{"$find":[],"each(' + "n" * long + ')":"0"}}')
    render("`$switch` with a long condition", outer + '{"$switch":{"' + " " * long + '1":0}}}')
    render("`$match` with a long condition", outer + '{"$match":{"' + " " * long + '1":0}}}')
    render("a number with zeros before it", outer + '{"$eval":"' + "0" * long + '1"}}')
    render("a long expression", outer + '{"$eval":"' + " " * long + '1"}}')
    render("a long `${e}`", outer + '"${' + " " * long + '1}"}')
