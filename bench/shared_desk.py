#!/usr/bin/env python3
"""Asks of a trivial object at a shared desk, beside a mutex around the same object, from 1, 2 and 4 threads; and 64 callers that wait.

    bench/shared_desk.py [ASKS]       from the top of the repository, with rt on the path

For each number of threads it prints the nanoseconds of one ask, the least of several rounds in turn, and their quotient; then how many
of the machine's processors are busy while 63 callers wait for one that sleeps. It ends with 1 where one thread's ask costs more than twice
a mutex's. It works on a copy of the repository in a temporary folder, in which it adds a program, which is proved first, since only what is proved is built for speed.
"""
import os, shutil, subprocess, sys, tempfile

LIMIT = 2.0

PROGRAM = """//! Asks at a shared desk and at a mutex, and how long they took.
#![tactic(auto)]

ghost use Rattle.std.specs.Prelude.{◌≡◌, ◌<◌, ℕ, [], Some};

use farm_desk::{Desk, Object, Spare};
use history::Machine;
use shared_desk::Shared;
use std::alloc::{AllocError, Global};
use std::sync::{Mutex, Wait};
use std::thread;
use std::thread::Threads;
use std::time::{Clock, CpuClock, Duration, Instant};

const ASKS: u64 = ASKS_OF_ONE;

struct Counting {}

impl Machine for Counting {
    type Question = u64;
    type Answer = u64;
    type State = ();
    type Entry = (u64, u64);
    type Reply = u64;
    type Opening = ();
    ghost rules = { record { lawful = λ state entry. Unit {0}; after = λ state entry. state; reply = λ state entry. Some (entry.1); asked = λ entry. Some (entry.0); ticks = λ state question answer. []; told = λ answer. answer; } };
    ghost start = { λ opening. opening };
}

#[derive(Drop)]
struct Count {
    sum: u64,
}

impl Count {
    fn add(&mut self, number: u64) -> u64 {
        self.sum = self.sum.wrapping_mul(3).wrapping_add(number);
        self.sum
    }
}

impl Object for Count {
    type Question = u64;
    type Answer = u64;
    type Law = Counting;
    ghost state = { λ object. tt };

    fn ask(&mut self, question: u64) -> u64 {
        self.add(question)
    }
}

/// An object whose asks sleep, as those that sync a disk do.
#[derive(Drop)]
struct Sleeping<'a, R> {
    rt: &'a R,
}

impl<'a, R: Clock> Object for Sleeping<'a, R> {
    type Question = u64;
    type Answer = u64;
    type Law = Counting;
    ghost state = { λ object. tt };

    fn ask(&mut self, question: u64) -> u64 {
        thread::sleep(self.rt, Duration::from_millis(30));
        question
    }
}

/// Asks until none is left.
fn ask_all<K: Desk<Question = u64, Answer = u64>>(desk: &mut K) {
    for n in 0..u64::MAX {
        if desk.left() == 0 {
            return;
        }
        desk.ask(n);
    }
}

/// Adds as often under a lock.
fn add_all<R: Wait>(rt: &R, shared: &Mutex<Count>) {
    for n in 0..ASKS {
        shared.lock(rt).add(n);
    }
}

fn at_desk<R: Threads + Wait + Clock + Sync>(rt: &R, alloc: Global, threads: usize) -> anyhow::Result<Duration>
    requires { 0 < threads }
{
    let Ok((shared, token)) = Shared::new(alloc, Count { sum: 1 }) else {
        return Err(AllocError.into());
    };
    let mut first = shared.pass(rt, token);
    let mut passes = Vec::new(alloc);
    for _ in 0..threads {
        if first.left() < ASKS {
            break;
        }
        passes.push(first.split(ASKS))?;
    }
    let start = Instant::now(rt)?;
    thread::for_each_mut(rt, passes.as_mut_slice(), threads, &|_, pass| ask_all(pass));
    Ok(Instant::now(rt)?.duration_since(start))
}

fn at_mutex<R: Threads + Wait + Clock + Sync>(rt: &R, alloc: Global, threads: usize) -> anyhow::Result<Duration>
    requires { 0 < threads }
{
    let shared = Mutex::new(Count { sum: 1 });
    let mut seats = Vec::from_elem(alloc, 0u8, threads)?;
    let start = Instant::now(rt)?;
    thread::for_each_mut(rt, seats.as_mut_slice(), threads, &|_, _| add_all(rt, &shared));
    Ok(Instant::now(rt)?.duration_since(start))
}

/// What 64 callers take who ask once each, and the processors' time that they use.
fn waiting<R: Threads + Wait + Clock + CpuClock + Sync>(rt: &R, alloc: Global) -> anyhow::Result<(Duration, Duration)> {
    let Ok((shared, token)) = Shared::new(alloc, Sleeping { rt }) else {
        return Err(AllocError.into());
    };
    let mut first = shared.pass(rt, token);
    let mut passes = Vec::new(alloc);
    for _ in 0..64u32 {
        if first.left() < 1 {
            break;
        }
        passes.push(first.split(1))?;
    }
    let start = Instant::now(rt)?;
    let before = rt.process_cpu_time()?;
    thread::for_each_mut(rt, passes.as_mut_slice(), 64, &|_, pass| ask_all(pass));
    let used = rt.process_cpu_time()?.saturating_sub(before);
    Ok((Instant::now(rt)?.duration_since(start), used))
}

fn main(rt: HostRuntime) -> anyhow::Result<()> {
    let alloc = rt.alloc();
    for threads in [1usize, 2, 4] {
        for _ in 0..3u32 {
            let desk = at_desk(&rt, alloc, threads)?.as_nanos();
            let mutex = at_mutex(&rt, alloc, threads)?.as_nanos();
            println!(rt; "asks {threads} {desk} {mutex}")?;
        }
    }
    let (took, used) = waiting(&rt, alloc)?;
    let (took, used) = (took.as_nanos(), used.as_nanos());
    println!(rt; "wait {took} {used}")?;
    Ok(())
}
"""


PROOF = """use Rattle.std.proofs.Common.{rules}
use Rattle.desk_bench.proofs.OBJECT.ask.Goals as goal

pub returns : goal.returns
returns WHERE = ((c.args.question, ANSWER), search rules, λ opening seen leads held. tt)
"""


def program(crate, asks):
    """Writes the program and what its proof needs: which entry the call of an ask is."""
    os.makedirs(os.path.join(crate, "src"))
    with open(os.path.join(crate, "src", "main.rt"), "w") as file:
        file.write(PROGRAM.replace("ASKS_OF_ONE", str(asks)))
    for name, where, answer in (("CountObject", "c", "c.add.result"), ("SleepingObject", "g c", "c.args.question")):
        folder = os.path.join(crate, "proofs", name, "ask")
        os.makedirs(folder)
        with open(os.path.join(folder, "Answers.antt"), "w") as file:
            file.write(PROOF.replace("OBJECT", name).replace("WHERE", where).replace("ANSWER", answer))


def main():
    asks = int(sys.argv[1]) if len(sys.argv) > 1 else 100_000
    with tempfile.TemporaryDirectory() as copy:
        for name in ("history", "farm_desk", "shared_desk"):
            shutil.copytree(os.path.join("crates", name), os.path.join(copy, "crates", name), ignore=shutil.ignore_patterns("out"))
        crate = os.path.join(copy, "crates", "desk_bench")
        program(crate, asks)
        shutil.copy("HANDLES", copy)
        with open(os.path.join(copy, "crates.txt"), "w") as file:
            file.write("history:\nfarm_desk: history atomic_table\nshared_desk: history farm_desk atomic_table\ndesk_bench: history farm_desk shared_desk atomic_table anyhow\n")
        out = subprocess.run(["rt", "run"], cwd=crate, capture_output=True, text=True)
    rows = [line.split() for line in out.stdout.split("\n")]
    costs = {}
    for row in rows:
        if row[:1] == ["asks"]:
            costs.setdefault(int(row[1]), []).append((int(row[2]), int(row[3])))
    if not costs:
        sys.exit(out.stdout + out.stderr)
    for threads, rounds in costs.items():
        desk, mutex = (min(r[k] for r in rounds) / (asks * threads) for k in (0, 1))
        print("%d threads: an ask at the desk %7.1f ns, at a mutex %7.1f ns, quotient %.2f" % (threads, desk, mutex, desk / mutex))
        costs[threads] = desk / mutex
    for row in rows:
        if row[:1] == ["wait"]:
            print("64 callers at one desk whose asks sleep 30 ms each: %.2f s, processors busy %.2f" % (int(row[1]) / 1e9, int(row[2]) / int(row[1])))
    return 0 if costs[1] <= LIMIT else 1


if __name__ == "__main__":
    sys.exit(main())
