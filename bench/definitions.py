#!/usr/bin/env python3
"""What reading a task's definition costs, beside what serde_json alone takes for the same bytes.

    bench/definitions.py       from the top of the repository, with rt on the path

It works on a copy of the repository's crates in a temporary folder, in which it adds a program that is proved and built by `rt run` (some minutes). For each
input the program reads the same line several times, by serde_json alone (`serde`), as a document (`doc`), and as a definition (`task`). A cost is the number of
instructions that `valgrind` counts, less those of reading the line once, so it is the same each time, whatever else the machine does; a processor's time was not.
It ends with 1 where the worked definition takes more than three times what serde_json takes for it, or where twice as much input takes more than three times as much.
"""
import json
import os
import re
import shutil
import subprocess
import sys
import tempfile

LIMIT = 3.0

PROGRAM = """//! Reads each line's definition, after `serde `, `doc ` or `task `, as often as the last number says.
#![tactic(auto)]

use farm_text::{Doc, SlugId};
use serde_json::Value;
use std::alloc::Global;
use std::io;
use task_defs::read_task;

fn task(alloc: Global, bytes: &[u8]) -> bool {
    match Doc::read(alloc, bytes) {
        Ok(doc) => match SlugId::read(b"AAAAAAAAQACAAAAAAAAAAA") {
            Some(id) => read_task(alloc, &doc, id).is_ok(),
            None => false,
        },
        Err(_) => false,
    }
}

fn once(alloc: Global, mode: &str, bytes: &[u8]) -> bool {
    match mode {
        "serde" => Value::from_slice(alloc, bytes).is_ok(),
        "doc" => Doc::read(alloc, bytes).is_ok(),
        _ => task(alloc, bytes),
    }
}

fn often(alloc: Global, line: &str, count: u32) -> bool {
    match line.split_once(' ') {
        Some((mode, text)) => {
            for _ in 0..count {
                if !once(alloc, mode, text.as_bytes()) {
                    return false;
                }
            }
            true
        }
        None => false,
    }
}

fn main(rt: HostRuntime) -> io::Result<()> {
    let alloc = rt.alloc();
    let mut count = 0;
    for line in rt.lines(alloc) {
        let line = line?;
        match line.as_str().parse::<u32>() {
            Ok(n) => count = n,
            Err(_) => println!(rt; "{}", often(alloc, line.as_str(), count))?,
        }
    }
    Ok(())
}
"""

PLAIN = json.loads('{"created":"2024-01-01T00:00:00.000Z","deadline":"2024-01-02T00:00:00.000Z","metadata":{"description":"d","name":"n",'
                   '"owner":"o@example.com","source":"https://example.com/"},"payload":{},"taskQueueId":"prov/wt"}')


def with_members(**members):
    return json.dumps({**PLAIN, **members}, separators=(",", ":"))


def build(copy):
    """The program, built in a copy of the crates."""
    top = os.path.dirname(os.path.dirname(os.path.abspath(__file__)))
    for name in ("causes", "farm_text", "scope_sets", "task_types", "task_defs"):
        shutil.copytree(os.path.join(top, "crates", name), os.path.join(copy, "crates", name), ignore=shutil.ignore_patterns("out"))
    with open(os.path.join(top, "crates.txt")) as f:
        lines = [line for line in f if line.split(":")[0] in ("causes", "farm_text", "scope_sets", "task_types", "task_defs")]
    with open(os.path.join(copy, "crates.txt"), "w") as f:
        f.write("".join(lines) + "read_costs: farm_text task_defs serde_json\n")
    crate = os.path.join(copy, "crates", "read_costs")
    os.makedirs(os.path.join(crate, "src"))
    with open(os.path.join(crate, "src", "main.rt"), "w") as f:
        f.write(PROGRAM)
    for name in ("stdin", "stdout"):
        open(os.path.join(crate, name), "w").close()
    subprocess.run(["rt", "run"], cwd=crate, check=True, stdout=subprocess.DEVNULL)
    return os.path.join(crate, "out", "read_costs")


def instructions(program, mode, text, count):
    """How many instructions the program takes to read a text so often."""
    words = ["valgrind", "--tool=callgrind", "--callgrind-out-file=/dev/null", program]
    ended = subprocess.run(words, input=f"{count}\n{mode} {text}\n", capture_output=True, text=True, check=True)
    if ended.stdout != "true\n":
        sys.exit(f"{mode} of {text[:200]} gives {ended.stdout!r}")
    return int(re.search(r"Collected : (\d+)", ended.stderr)[1])


def cost(program, mode, text):
    count = max(2, 20_000 // (len(text) + 200))
    return (instructions(program, mode, text, count + 1) - instructions(program, mode, text, 1)) / count


def row(program, name, text):
    costs = [cost(program, mode, text) for mode in ("serde", "doc", "task")]
    print("%-44s %8d bytes  serde %13d  doc %13d  task %13d instructions  %5.2f times" % (name, len(text), *costs, costs[2] / costs[0]), flush=True)
    return costs


def main():
    with tempfile.TemporaryDirectory() as copy:
        program = sys.argv[1] if len(sys.argv) > 1 else build(copy)
        plain = row(program, "the worked definition", with_members())
        well = plain[2] <= LIMIT * plain[0]
        doubles = [
            ("scopes of 4,096 bytes", [with_members(scopes=["a" * 4092 + "%04d" % i for i in range(n)]) for n in (500, 1000)]),
            ("scopes of 6 bytes", [with_members(scopes=["s:%04d" % i for i in range(n)]) for n in (500, 1000)]),
            ("a payload of one text", [with_members(payload={"a": "x" * n}) for n in (500_000, 1_000_000)]),
            ("a payload of members", [with_members(payload={"k%06d" % i: i for i in range(n)}) for n in (30_000, 60_000)]),
            ("a payload of items", [with_members(payload={"a": [1] * n}) for n in (250_000, 500_000)]),
            ("tags", [with_members(tags={"k%06d" % i: "v" for i in range(n)}) for n in (30_000, 60_000)]),
        ]
        for name, (half, whole) in doubles:
            less, more = row(program, name + ", half", half), row(program, name, whole)
            well = well and more[2] <= 3 * less[2]
        deep = {}
        for _ in range(124):
            deep = {"a": deep}
        row(program, "as deep as may be", with_members(payload=deep))
    return 0 if well else 1


if __name__ == "__main__":
    sys.exit(main())
