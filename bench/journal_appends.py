#!/usr/bin/env python3
"""Appends to a journal in a real file, beside a program of Python that makes the same two writes and two syncs.

    bench/journal_appends.py [APPENDS]       from the top of the repository, with rt on the path

For bodies of 28 and of 800 bytes it prints the appends a second of both, each the median of rounds in turn, and their quotient. It works on a copy of the
repository in a temporary folder, in which it adds a program that is proved and built as rt builds each program.
"""
import os, shutil, statistics, subprocess, sys, tempfile, time

ROUNDS = 7

PROGRAM = """//! Appends to a journal in a real file, and tells how long they took.
#![tactic(auto)]

use disk_base::FileDisk;
use disk_journal::{Framed, Journal, frame};
use std::time::Instant;

/// Appends this frame so many times, and says whether all did.
fn append_all(journal: &mut Journal<FileDisk>, framed: &Framed, count: u32) -> bool {
    for _ in 0..count {
        if journal.append(framed).is_err() {
            return false;
        }
    }
    true
}

fn main(rt: HostRuntime) -> anyhow::Result<()> {
    let alloc = rt.alloc();
    let body = [7u8; BODY];
    let disk = FileDisk::open(&rt, "journal.bin")?;
    if let Ok((mut journal, _)) = Journal::open(alloc, disk) {
        let framed = frame(alloc, &body)?;
        let start = Instant::now(&rt)?;
        let done = append_all(&mut journal, &framed, APPENDS);
        let took = Instant::now(&rt)?.duration_since(start).as_nanos();
        println!(rt; "{done} {took}")?;
    }
    Ok(())
}
"""


def written(copy, body, appends):
    crate = os.path.join(copy, "crates", f"append_{body}")
    os.makedirs(os.path.join(crate, "src"), exist_ok=True)
    with open(os.path.join(crate, "src", "main.rt"), "w") as f:
        f.write(PROGRAM.replace("BODY", str(body)).replace("APPENDS", str(appends)))
    return crate


def built(crate, body):
    out = subprocess.run(["rt", "run"], cwd=crate, capture_output=True, text=True)
    program = os.path.join(crate, "out", f"append_{body}")
    if not os.path.exists(program):
        sys.exit(out.stdout + out.stderr)
    return program


def ours(folder, program, appends):
    if os.path.exists(os.path.join(folder, "journal.bin")):
        os.remove(os.path.join(folder, "journal.bin"))
    done, took = subprocess.run([program], cwd=folder, capture_output=True, text=True, check=True).stdout.split()
    if done != "true":
        sys.exit("an append failed")
    return appends / (int(took) / 1e9)


def theirs(folder, body, appends):
    text = body.to_bytes(4, "big") + bytes([7]) * body + b"\0"
    fd = os.open(os.path.join(folder, "other.bin"), os.O_RDWR | os.O_CREAT | os.O_TRUNC)
    os.pwrite(fd, b"\0", 0)
    os.fsync(fd)
    end = 0
    start = time.monotonic()
    for _ in range(appends):
        os.pwrite(fd, text, end + 1)
        os.fsync(fd)
        os.pwrite(fd, b"\xa5", end)
        os.fdatasync(fd)
        end += len(text)
    took = time.monotonic() - start
    os.close(fd)
    return appends / took


def main():
    appends = int(sys.argv[1]) if len(sys.argv) > 1 else 2000
    with tempfile.TemporaryDirectory() as copy:
        subprocess.run(["git", "init", "-q", copy], check=True)
        for name in ("causes", "disk_base", "disk_journal"):
            shutil.copytree(os.path.join("crates", name), os.path.join(copy, "crates", name), ignore=shutil.ignore_patterns("out"))
        with open(os.path.join(copy, "crates.txt"), "w") as f:
            f.write("causes:\ndisk_base: causes\ndisk_journal: causes disk_base\n")
            f.writelines(f"append_{body}: causes disk_base disk_journal anyhow\n" for body in (28, 800))
        shutil.copy("HANDLES", copy)
        crates = {body: written(copy, body, appends) for body in (28, 800)}
        programs = {body: built(crate, body) for body, crate in crates.items()}
        for body, program in programs.items():
            rounds = [(ours(copy, program, appends), theirs(copy, body, appends)) for _ in range(ROUNDS)]
            mine, other = (statistics.median(r[k] for r in rounds) for k in (0, 1))
            print(f"{body} bytes: {mine:.0f} appends a second, Python {other:.0f}, quotient {mine / other:.2f}")


main()
