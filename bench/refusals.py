#!/usr/bin/env python3
"""What the built program does where memory is refused to it: each allocation in turn, and each later one with it.

    bench/refusals.py PROGRAM [STEP]

PROGRAM is the built program itself; `cc` has to be there. A small library that is loaded before the program refuses its allocation number N, alone, and in a
second round that one and all behind it. N goes from the first one on by STEP (else 1; over sockets ten times that) until a run has fewer. Whatever is refused,
a run has to end by itself, without a signal, and:
- with 0 or 7; with 0, and no reply that says that memory ran out, its output is that of a run with ample memory;
- of `answer` each reply is of an expected status, or 503;
- with a disk, `check --disk` opens it afterwards, with ample memory; of `answer` it finds at least as many records as changes were answered with 200, less two,
  since a call with nothing to do is answered so without a record. Over sockets records are not counted.
It ends with 1 at the first run that does not.
"""
import os
import socket
import subprocess
import sys
import tempfile

import peers

PROGRAM = os.path.abspath(sys.argv[1])
STEP = int(sys.argv[2]) if len(sys.argv) > 2 else 1

LIBRARY = r"""
#define _GNU_SOURCE
#include <dlfcn.h>
#include <errno.h>
#include <fcntl.h>
#include <stdlib.h>
#include <unistd.h>
static long made, first, last, is_ready;
static void begin(void) {
    if (is_ready) return;
    is_ready = 1;
    const char *number = getenv("REFUSED"), *on = getenv("REFUSED_ON");
    first = number ? atol(number) : -1;
    last = on ? 1L << 62 : first;
}
static int refused(void) {
    begin();
    long number = __sync_add_and_fetch(&made, 1);
    if (number < first || number > last) return 0;
    int mark = open(getenv("REFUSED_MARK"), O_WRONLY | O_CREAT, 0600);
    if (mark >= 0) close(mark);
    errno = ENOMEM;
    return 1;
}
#define NEXT(type, name) ((type)dlsym(RTLD_NEXT, name))
void *malloc(size_t size) { return refused() ? 0 : NEXT(void *(*)(size_t), "malloc")(size); }
void *realloc(void *at, size_t size) { return refused() ? 0 : NEXT(void *(*)(void *, size_t), "realloc")(at, size); }
void *aligned_alloc(size_t by, size_t size) { return refused() ? 0 : NEXT(void *(*)(size_t, size_t), "aligned_alloc")(by, size); }
int posix_memalign(void **at, size_t by, size_t size) { return refused() ? ENOMEM : NEXT(int (*)(void **, size_t, size_t), "posix_memalign")(at, by, size); }
"""

FARM = peers.FARM + """
[[role]]
id = "hook-id:g/h"
scopes = ["*"]

[[hook]]
group = "g"
id = "h"
task = '{"metadata":{"description":"d","name":"n","owner":"o","source":"s"},"payload":{},"routes":["r.${payload.x}"],"taskQueueId":"prov/wt"}'
"""


class Failure(Exception):
    pass


def library(folder):
    source, made = os.path.join(folder, "refuse.c"), os.path.join(folder, "refuse.so")
    with open(source, "w") as file:
        file.write(LIBRARY)
    subprocess.run(["cc", "-O1", "-shared", "-fPIC", "-o", made, source, "-ldl"], check=True)
    return made


def refusing(preload, mark, number, is_from_there_on):
    """The environment in which allocation `number` is refused."""
    env = dict(os.environ, LD_PRELOAD=preload, REFUSED=str(number), REFUSED_MARK=mark)
    if is_from_there_on:
        env["REFUSED_ON"] = "1"
    return env


def statuses(replies):
    return [int(reply[:3]) for reply in replies.split(b"HTTP/1.1 ")[1:]]


def conversation():
    """One connection with a call of each kind that takes memory."""
    first, second = 1, 2
    body = peers.definition()
    waits = body[:-1] + ',"dependencies":["%s"]}' % peers.task_id(first)
    messages = [peers.PING, peers.signed_ping(1), peers.creation(first, body), peers.creation(second, waits), peers.creation(first, body), peers.status_of(first), peers.claim()]
    messages += [peers.request("POST", "/task/%s/runs/0/reclaim" % peers.task_id(first)), peers.completion(peers.task_id(first), 0)]
    messages += [peers.request("GET", "/task/" + peers.task_id(second)), peers.request("GET", "/task-group/%s/list" % peers.task_id(first))]
    messages += [peers.request("GET", "/pending/prov/wt"), peers.request("POST", "/task/%s/cancel" % peers.task_id(second)), peers.request("POST", "/task/%s/rerun" % peers.task_id(second))]
    hook = b'POST /api/hooks/v1/hooks/g/h/trigger HTTP/1.1\r\nContent-Length: 11\r\n\r\n{"x":"one"}'
    return b"".join(messages) + hook


# Of these a 200 has a record: the calls of the conversation by their places.
CHANGES = (2, 3, 6, 7, 8, 12, 13, 14)
ALLOWED = {200, 400, 404, 409, 503}


def run(words, stdin, env=None, folder=None):
    done = subprocess.run([PROGRAM, *words], input=stdin, capture_output=True, env=env, cwd=folder, timeout=60)
    return done.returncode, done.stdout


def records(folder):
    status, line = run(["check", "farm.toml", "--disk", "farm.disk"], b"", folder=folder)
    if status:
        raise Failure("the disk is opened with status %d" % status)
    return int(line.split(b"records=")[1].split()[0])


def judge(words, status, output, ample, folder):
    if status not in (0, 7):
        raise Failure("status %d" % status)
    if words[0] != "answer":
        if status == 0 and output != ample:
            raise Failure("status 0 and another output")
        return
    told = statuses(output)
    if not set(told) <= ALLOWED:
        raise Failure("replies of %s" % told)
    if status == 0 and 503 not in told and told != statuses(ample):
        raise Failure("status 0, no 503, and replies of %s" % told)
    if "--disk" in words:
        kept = sum(1 for place, code in enumerate(told) if code == 200 and place in CHANGES)
        # (a createTask that comes again, or a call with nothing to do, answers 200 without a record)
        if records(folder) < kept - 2:
            raise Failure("%d changes were answered, and %d records are kept" % (kept, records(folder)))


def sweep(name, words, stdin, folder, preload, step):
    mark = os.path.join(folder, "mark")
    disk = os.path.join(folder, "farm.disk")
    ample = None
    for is_from_there_on in (False, True):
        number, runs = 0, 0
        while True:
            for path in (mark, disk):
                if os.path.exists(path):
                    os.remove(path)
            env = refusing(preload, mark, number, is_from_there_on) if number else None
            status, output = run(words, stdin, env, folder)
            runs += 1
            if not number:
                if status:
                    raise Failure("%s: status %d with ample memory" % (name, status))
                if words[0] == "answer" and set(statuses(output)) != {200}:
                    raise Failure("%s: replies of %s with ample memory" % (name, statuses(output)))
                ample, number = output, 1
                continue
            if not os.path.exists(mark):
                break
            try:
                judge(words, status, output, ample, folder)
            except Failure as failure:
                raise Failure("%s, allocation %d refused%s: %s" % (name, number, " and all behind it" if is_from_there_on else "", failure))
            number += step
        print("%-8s %s: %d runs" % (name, "from there on" if is_from_there_on else "alone", runs), flush=True)


def one_service(env, folder):
    """A connection to a service whose memory is refused so: the replies that came, and its status."""
    address = peers.free_address()
    words = [PROGRAM, "serve", "farm.toml", "--disk", "farm.disk", "--listen", "%s:%d" % address, "--workers", "2", "--connections", "1"]
    service = subprocess.Popen(words, stdout=subprocess.PIPE, stderr=subprocess.DEVNULL, env=env, cwd=folder)
    told = b""
    if service.stdout.readline() == b"ready\n":
        for _ in range(2):
            try:
                with socket.create_connection(address, timeout=30) as peer:
                    peer.sendall(conversation())
                    peer.shutdown(socket.SHUT_WR)
                    while True:
                        piece = peer.recv(65536)
                        if not piece:
                            break
                        told += piece
            except OSError:
                pass
    service.stdout.read()
    return service.wait(timeout=60), told


def sweep_service(folder, preload, step):
    mark, disk = os.path.join(folder, "mark"), os.path.join(folder, "farm.disk")
    number, runs = 1, 0
    while True:
        for path in (mark, disk):
            if os.path.exists(path):
                os.remove(path)
        status, told = one_service(refusing(preload, mark, number, False), folder)
        runs += 1
        if not os.path.exists(mark):
            break
        if status not in (0, 7):
            raise Failure("serve, allocation %d refused: status %d" % (number, status))
        if not set(statuses(told)) <= ALLOWED:
            raise Failure("serve, allocation %d refused: replies of %s" % (number, statuses(told)))
        if os.path.exists(disk):
            records(folder)
        number += step
    print("serve    alone: %d runs" % runs, flush=True)


def main():
    with tempfile.TemporaryDirectory() as folder:
        preload = library(folder)
        with open(os.path.join(folder, "farm.toml"), "w") as file:
            file.write(FARM)
        sign = "sign --id dh37fgj492je --token werxhqb98rpaxn39848xrunpaw3489ruxnpa98w4rxn --method GET --target / --host h --port 1 --ts 1 --nonce n --type text/plain"
        template = b'{"context":{"name":"world"},"template":{"a":"hello ${name}","b":{"$map":[1,2],"each(x)":{"$eval":"x+1"}}}}'
        try:
            sweep("check", ["check", "farm.toml"], b"", folder, preload, STEP)
            sweep("expand", ["expand", "farm.toml"], b"assume:anonymous\nb\n", folder, preload, STEP)
            sweep("sign", sign.split(), b"body", folder, preload, STEP)
            sweep("render", ["render"], template, folder, preload, STEP)
            sweep("bulk", ["bulk", "--seed", "0", "--tasks", "3"], b"", folder, preload, STEP)
            sweep("answer", ["answer", "farm.toml"], conversation(), folder, preload, STEP)
            sweep("disk", ["answer", "farm.toml", "--disk", "farm.disk"], conversation(), folder, preload, STEP)
            sweep_service(folder, preload, 10 * STEP)
        except Failure as failure:
            print("FAILED: %s" % failure)
            return 1
    return 0


if __name__ == "__main__":
    sys.exit(main())
