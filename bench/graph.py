#!/usr/bin/env python3
"""What a graph of 100,000 tasks costs, beside one of half as many.

    bench/graph.py             from the top of the repository, with rt on the path

It works on a copy of the crate dep_graph in a temporary folder, in which it adds a program that is proved and built by `rt run` (some minutes). The program
adds so many tasks, each of which depends on none, on the one before it, on the first, or on two before it, and then takes the least ready task and completes it,
until all are completed. As a hub the first task, on which all others depend, is scheduled 10,000 times before, as claims and retries do, which serves none of them. A time is the processor's time of the program, the least of several runs. It ends with 1 where twice as many tasks take more than three
times as long.
"""
import os
import resource
import shutil
import subprocess
import sys
import tempfile

RUNS = 3
LIMIT = 3.0
ROWS = 100_000

PROGRAM = """//! Runs a graph of as many tasks as the number of each line says, after `alone `, `chain `, `first `, `hub ` or `two `.
#![tactic(auto)]

use dep_graph::{Graph, Progress, Requires};
use std::alloc::Global;
use std::io;

const COMPLETED: Progress = Progress {
    unscheduled: false,
    was_completed: true,
    was_resolved: true,
};

const CREATED: Progress = Progress {
    unscheduled: true,
    was_completed: false,
    was_resolved: false,
};

const SCHEDULED: Progress = Progress {
    unscheduled: false,
    was_completed: false,
    was_resolved: false,
};

fn add(alloc: Global, graph: &mut Graph, row: u32, on: &[u32]) -> bool {
    if !graph.may_add(row, on) {
        return false;
    }
    match graph.reserve(alloc, row, on) {
        Ok(()) => {
            graph.add(row, Requires::AllCompleted, on);
            true
        }
        Err(_) => false,
    }
}

fn added(alloc: Global, graph: &mut Graph, mode: &str, row: u32) -> bool {
    if row < 2 {
        return add(alloc, graph, row, &[]);
    }
    match mode {
        "chain" => add(alloc, graph, row, &[row - 1]),
        "first" | "hub" => add(alloc, graph, row, &[0]),
        "two" => add(alloc, graph, row, &[row - 1, row / 2 - 1]),
        _ => add(alloc, graph, row, &[]),
    }
}

fn complete(graph: &mut Graph) -> bool {
    match graph.ready() {
        Some(row) => {
            if !graph.holds(row) {
                return false;
            }
            graph.state_changed(row, COMPLETED);
            true
        }
        None => false,
    }
}

fn schedule_first(graph: &mut Graph) -> bool {
    for _ in 0..10_000 {
        if !graph.holds(0) {
            return false;
        }
        graph.state_changed(0, SCHEDULED);
    }
    graph.holds(0) && {
        graph.state_changed(0, CREATED);
        true
    }
}

fn all(alloc: Global, mode: &str, count: u32) -> bool {
    let mut graph = Graph::new(alloc);
    for row in 0..count {
        if !added(alloc, &mut graph, mode, row) {
            return false;
        }
    }
    if mode == "hub" && !schedule_first(&mut graph) {
        return false;
    }
    for _ in 0..count {
        if !complete(&mut graph) {
            return false;
        }
    }
    graph.ready().is_none()
}

fn main(rt: HostRuntime) -> io::Result<()> {
    let alloc = rt.alloc();
    for line in rt.lines(alloc) {
        let line = line?;
        match line.as_str().split_once(' ') {
            Some((mode, number)) => match number.parse::<u32>() {
                Ok(count) => println!(rt; "{}", all(alloc, mode, count))?,
                Err(_) => println!(rt; "no number")?,
            },
            None => println!(rt; "no line")?,
        }
    }
    Ok(())
}
"""


def build(copy):
    """The program, built in a copy of the crate."""
    top = os.path.dirname(os.path.dirname(os.path.abspath(__file__)))
    shutil.copytree(os.path.join(top, "crates", "dep_graph"), os.path.join(copy, "crates", "dep_graph"), ignore=shutil.ignore_patterns("out"))
    with open(os.path.join(copy, "crates.txt"), "w") as f:
        f.write("dep_graph:\ngraph_costs: dep_graph\n")
    crate = os.path.join(copy, "crates", "graph_costs")
    os.makedirs(os.path.join(crate, "src"))
    with open(os.path.join(crate, "src", "main.rt"), "w") as f:
        f.write(PROGRAM)
    for name in ("stdin", "stdout"):
        open(os.path.join(crate, name), "w").close()
    subprocess.run(["rt", "run"], cwd=crate, check=True, stdout=subprocess.DEVNULL)
    return os.path.join(crate, "out", "graph_costs")


def used(program, mode, count):
    """The processor's time of a graph, in seconds."""
    least = None
    for _ in range(RUNS):
        before = resource.getrusage(resource.RUSAGE_CHILDREN)
        out = subprocess.run([program], input=f"{mode} {count}\n", capture_output=True, text=True, check=True).stdout
        after = resource.getrusage(resource.RUSAGE_CHILDREN)
        if out != "true\n":
            sys.exit(f"{mode} of {count} gives {out!r}")
        took = after.ru_utime + after.ru_stime - before.ru_utime - before.ru_stime
        least = took if least is None else min(least, took)
    return least


def main():
    well = True
    with tempfile.TemporaryDirectory() as copy:
        program = sys.argv[1] if len(sys.argv) > 1 else build(copy)
        for mode in ("alone", "chain", "first", "hub", "two"):
            half, whole = used(program, mode, ROWS // 2), used(program, mode, ROWS)
            print("%-6s %d tasks %7.1f ms   %d tasks %7.1f ms   %5.2f times" % (mode, ROWS // 2, 1e3 * half, ROWS, 1e3 * whole, whole / half), flush=True)
            well = well and whole <= LIMIT * half
    return 0 if well else 1


if __name__ == "__main__":
    sys.exit(main())
