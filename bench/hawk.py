#!/usr/bin/env python3
"""What the check of a signed request costs, beside what its hashes alone take, and what a signed ping costs.

    bench/hawk.py       from the top of the repository, with rt on the path

It works on a copy of the repository's crates in a temporary folder, in which it adds a program that is proved and built by `rt run` (some minutes). The program
checks one signed request with a body of 1 KiB many times, over a farm of 10 roles (`check`), or makes the four hashes that this takes (`hashes`), with SHA-256
over as many bytes: the token, which is longer than a block (66 bytes); the inner pass of the MAC (a pad of 64 bytes and a message of 133); its outer pass (a pad
and 32 bytes); and the body's (1,024 bytes, and 33 of its lines). It then checks a ping of a client whose scopes expand to 2, 100 and 9,000 (`wide N`).
A time is the processor's time of the program less that of doing it once, over the number of times; the least of several runs. It ends with 1 where a check takes
more than twice what its hashes take.
"""
import os
import resource
import shutil
import subprocess
import sys
import tempfile

RUNS = 7
LIMIT = 2.0
BELOW = ("causes", "farm_text", "scope_sets", "role_expand", "hawk_auth")

PROGRAM = """//! Checks a signed request, or makes its four hashes, as often as the last number says.
#![tactic(auto)]

use farm_text::{Moment, Text};
use hawk_auth::{AuthHead, Client, ClientBook, Parts, payload_hash, sign};
use role_expand::{Role, RoleSet};
use scope_sets::Scope;
use sha2::{Digest, Sha256};
use std::alloc::Global;
use std::io;
use std::str;

const TOKEN: &str = "0123456789012345678901234567890123456789012345678901234567890123AB";

fn scopes(alloc: Global, text: &str) -> Option<Vec<Scope>> {
    let mut scopes = Vec::new(alloc);
    scopes.push(Scope::new(String::from_str(alloc, text).ok()?)?).ok()?;
    Some(scopes)
}

/// Ten roles, of which the last gives so many scopes.
fn roles(alloc: Global, wide: u32) -> Option<RoleSet> {
    let mut roles = Vec::new(alloc);
    for n in 0..9u8 {
        let id = format!(in alloc; "role-{n}").ok()?;
        let gives = format!(in alloc; "queue:get-artifact:{n}").ok()?;
        let scopes = scopes(alloc, gives.as_str())?;
        roles.push(Role { id, scopes }).ok()?;
    }
    let mut scopes = Vec::new(alloc);
    for n in 0..wide {
        scopes.push(Scope::new(format!(in alloc; "queue:status:{n}").ok()?)?).ok()?;
    }
    let id = String::from_str(alloc, "role-9").ok()?;
    roles.push(Role { id, scopes }).ok()?;
    RoleSet::build(alloc, roles).ok()
}

fn book(alloc: Global, scope: &str) -> Option<ClientBook> {
    let mut clients = Vec::new(alloc);
    clients
        .push(Client {
            id: Text::from_str(alloc, "worker/one").ok()?,
            token: Text::from_str(alloc, TOKEN).ok()?,
            scopes: scopes(alloc, scope)?,
            expires: Moment::from_millis(2_000_000)?,
            disabled: false,
        })
        .ok()?;
    ClientBook::build(alloc, clients).ok()
}

fn signed(alloc: Global, hash: Option<&str>) -> Option<Text> {
    sign(
        alloc,
        &Parts {
            id: "worker/one",
            token: TOKEN,
            ts: "1000",
            nonce: "j4h3g2",
            method: b"PUT",
            target: b"/api/queue/v1/task/AAAAAAAAQACAAAAAAAAAAA",
            host: "localhost",
            port: 8080,
            hash,
            ext: None,
        },
    )
    .ok()
}

fn repeat<'a>(alloc: Global, roles: &RoleSet, book: &ClientBook, header: &'a str, body: &'a [u8], count: u32) -> Option<bool> {
    let moment = Moment::from_millis(1_000_000)?;
    let head = AuthHead {
        header: Some(header.as_bytes()),
        count: 1,
        method: b"PUT",
        target: b"/api/queue/v1/task/AAAAAAAAQACAAAAAAAAAAA",
        content_type: Some(b"application/json"),
        body,
        host: "localhost",
        port: 8080,
    };
    let mut all = true;
    for _ in 0..count {
        all &= book.check(alloc, roles, &head, moment).is_ok();
    }
    Some(all)
}

/// A request with a body and its hash, of a client with one role.
fn check(alloc: Global, count: u32) -> Option<bool> {
    let body = [b'x'; 1024];
    let hash = payload_hash(Some(b"application/json"), body.as_slice());
    let hash = str::from_utf8(&hash).ok()?;
    let header = signed(alloc, Some(hash))?;
    let roles = roles(alloc, 1)?;
    let book = book(alloc, "assume:role-7")?;
    repeat(alloc, &roles, &book, header.as_str(), body.as_slice(), count)
}

/// A request without a body, of a client whose role gives so many scopes.
fn wide(alloc: Global, scopes: u32, count: u32) -> Option<bool> {
    let header = signed(alloc, None)?;
    let roles = roles(alloc, scopes)?;
    let book = book(alloc, "assume:role-9")?;
    repeat(alloc, &roles, &book, header.as_str(), b"", count)
}

/// The four hashes, over bytes from the hash before.
fn hashes(count: u32) -> bool {
    let mut seed = 1u8;
    for _ in 0..count {
        let token = Sha256::digest([seed; 66].as_slice());
        let inner = Sha256::digest([token[0]; 197].as_slice());
        let outer = Sha256::digest([inner[0]; 96].as_slice());
        let payload = Sha256::digest([outer[0]; 1057].as_slice());
        seed = payload[0];
    }
    seed != 0 || count != 0
}

fn obeyed(alloc: Global, mode: &str, scopes: u32, count: u32) -> Option<bool> {
    match mode {
        "hashes" => Some(hashes(count)),
        "check" => check(alloc, count),
        _ => wide(alloc, scopes, count),
    }
}

/// A line is a mode, how many scopes, and how often.
fn often(alloc: Global, line: &str) -> Option<bool> {
    let (mode, numbers) = line.split_once(' ')?;
    let (scopes, count) = numbers.split_once(' ')?;
    let scopes = scopes.parse::<u32>().ok()?;
    let count = count.parse::<u32>().ok()?;
    obeyed(alloc, mode, scopes, count)
}

fn main(rt: HostRuntime) -> io::Result<()> {
    let alloc = rt.alloc();
    for line in rt.lines(alloc) {
        let line = line?;
        println!(rt; "{}", often(alloc, line.as_str()).unwrap_or(false))?;
    }
    Ok(())
}
"""


def build(copy):
    """The program, built in a copy of the crates."""
    top = os.path.dirname(os.path.dirname(os.path.abspath(__file__)))
    for name in BELOW:
        shutil.copytree(os.path.join(top, "crates", name), os.path.join(copy, "crates", name), ignore=shutil.ignore_patterns("out"))
    with open(os.path.join(top, "crates.txt")) as f:
        lines = [line for line in f if line.split(":")[0] in BELOW]
    with open(os.path.join(copy, "crates.txt"), "w") as f:
        f.write("".join(lines) + "check_costs: farm_text scope_sets role_expand hawk_auth sha2\n")
    crate = os.path.join(copy, "crates", "check_costs")
    os.makedirs(os.path.join(crate, "src"))
    with open(os.path.join(crate, "src", "main.rt"), "w") as f:
        f.write(PROGRAM)
    for name in ("stdin", "stdout"):
        open(os.path.join(crate, name), "w").close()
    subprocess.run(["rt", "run"], cwd=crate, check=True, stdout=subprocess.DEVNULL)
    return os.path.join(crate, "out", "check_costs")


def used(program, mode, scopes, count):
    """The processor's time of so many, in seconds."""
    least = None
    for _ in range(RUNS):
        before = resource.getrusage(resource.RUSAGE_CHILDREN)
        out = subprocess.run([program], input=f"{mode} {scopes} {count}\n", capture_output=True, text=True, check=True).stdout
        after = resource.getrusage(resource.RUSAGE_CHILDREN)
        if out != "true\n":
            sys.exit(f"{mode} {scopes} gives {out!r}")
        took = after.ru_utime + after.ru_stime - before.ru_utime - before.ru_stime
        least = took if least is None else min(least, took)
    return least


def cost(program, mode, scopes, count):
    return (used(program, mode, scopes, count) - used(program, mode, scopes, 1)) / (count - 1)


def main():
    with tempfile.TemporaryDirectory() as copy:
        program = sys.argv[1] if len(sys.argv) > 1 else build(copy)
        check, hashes = (cost(program, mode, 1, 20_000) for mode in ("check", "hashes"))
        print("check %6.2f us  its four hashes %6.2f us  %5.2f times" % (1e6 * check, 1e6 * hashes, check / hashes), flush=True)
        for scopes, count in ((0, 20_000), (98, 5_000), (8_998, 100)):
            print("a signed ping, %5d scopes: %8.1f us" % (scopes + 2, 1e6 * cost(program, "wide", scopes, count)), flush=True)
    return 0 if check <= LIMIT * hashes else 1


if __name__ == "__main__":
    sys.exit(main())
