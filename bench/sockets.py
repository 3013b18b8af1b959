#!/usr/bin/env python3
"""Whether `serve` keeps to its rules over real sockets: peers that keep alive, pipeline, half-close, tear, crawl and idle, many of them, and kills under load.

python3 bench/sockets.py PROGRAM [PART..]

PROGRAM is the built program itself (not a script that starts it, which would be killed in its place). Without a PART all are run, in some two minutes;
KILLS, if it is set, is how often the part `kills` kills (else 20). Each part prints one line, and the script ends with 1 where one failed.
"""
import json
import multiprocessing
import os
import random
import sys
import tempfile
import time

import peers
from peers import PING, Ended, Farm, Peer

PROGRAM = os.path.abspath(sys.argv[1])
ALIVE = b'{"alive":true}'
# how many seconds the server waits for a read
PATIENCE = 30


class Wrong(Exception):
    """What the program did, where it is not what it has to do."""


def need(holds, what):
    if not holds:
        raise Wrong(what)


def pings(peer, message=PING):
    status, head, body = peer.ask(message)
    need(status == 200 and body == ALIVE, "a ping was answered with %d and %r" % (status, body))
    return head


def still_serves(farm):
    with Peer(farm.address) as peer:
        pings(peer)


def kept_alive(folder):
    """A connection has a thousand requests, of which the last is told so, and then the next connection begins."""
    with Farm(PROGRAM, folder, workers=1) as farm, Peer(farm.address) as peer:
        for number in range(1, 1001):
            need(peers.closes(pings(peer)) == (number == 1000), "the reply to request %d says wrongly whether it closes" % number)
        need(peer.is_over(), "the connection goes on behind its thousandth reply")
        still_serves(farm)
    return "1,000 requests on one connection"


def asked_to_close(folder):
    """A request that closes has the last reply of its connection, and so has one of HTTP/1.0."""
    with Farm(PROGRAM, folder, workers=1) as farm:
        for message in (peers.request("GET", "/ping", fields=(("Connection", "close"),)), PING.replace(b"HTTP/1.1", b"HTTP/1.0")):
            with Peer(farm.address) as peer:
                need(peers.closes(pings(peer, message)) and peer.is_over(), "the connection goes on after %r" % message)
    return "by the field, and by the version"


def pipelined(folder):
    """Requests that come at once are answered in their order, and so are those that come byte by byte."""
    with Farm(PROGRAM, folder) as farm, Peer(farm.address) as peer:
        messages = [PING if number % 3 else peers.status_of(number) for number in range(300)]
        peer.send(b"".join(messages))
        for number in range(300):
            status, _, body = peer.reply()
            right = (200, ALIVE) if number % 3 else (404, body)
            need((status, body) == right and (status == 200 or peers.task_id(number).encode() in body), "reply %d is out of its order" % number)
        for byte in peers.creation(1, peers.definition()):
            peer.send(bytes([byte]))
        need(peer.reply()[0] == 200, "a creation that comes byte by byte is refused")
    return "300 requests at once, one in single bytes"


def half_closed(folder):
    """A peer that sends no more has its replies, and then the end."""
    with Farm(PROGRAM, folder, workers=1) as farm, Peer(farm.address) as peer:
        peer.send(PING + PING)
        peer.socket.shutdown(1)
        for _ in range(2):
            need(peer.reply()[2] == ALIVE, "a half-closed connection has no reply")
        need(peer.is_over(), "a half-closed connection is not closed")
        still_serves(farm)
    return "two replies, and then the end"


def torn(folder):
    """Connections that end in a head, in a body, by an error, or before their reply is read end alone."""
    with Farm(PROGRAM, folder, workers=2) as farm:
        body = peers.creation(1, peers.definition())
        for message in (b"", PING[:9], body[:-9], PING * 500):
            for ends in (Peer.close, Peer.reset):
                peer = Peer(farm.address)
                peer.send(message)
                ends(peer)
                still_serves(farm)
        with Peer(farm.address) as peer:
            need(peer.ask(peers.status_of(1))[0] == 404, "a task was made of half a creation")
    return "8 torn connections"


def refused(folder):
    """What is no request is answered, and ends its connection alone."""
    far = b"POST %s/task/x/cancel HTTP/1.1\r\nContent-Length: 1048577\r\n\r\n" % peers.PATH.encode()
    cut = b"POST %s/task/x/cancel HTTP/1.1\r\nTransfer-Encoding: chunked\r\n\r\n" % peers.PATH.encode()
    with Farm(PROGRAM, folder, workers=1) as farm:
        for message, code in ((b"no request\r\n\r\n", 400), (far, 413), (cut, 411), (b"GET / HTTP/1.1\r\nA: " + b"a" * 16384, 431)):
            with Peer(farm.address) as peer:
                status, head, _ = peer.ask(message)
                need(status == code, "%r is answered with %d" % (message[:40], status))
                need(peer.is_over(), "the connection goes on after %d" % code)
            still_serves(farm)
    return "400, 411, 413 and 431"


def many_workers(folder):
    """64 workers serve 64 connections side by side."""
    with Farm(PROGRAM, folder, workers=64) as farm:
        everyone = [Peer(farm.address) for _ in range(64)]
        for _ in range(20):
            for peer in everyone:
                peer.send(PING)
            for peer in everyone:
                need(peer.reply()[2] == ALIVE, "one of 64 connections has no reply")
        for peer in everyone:
            peer.close()
        still_serves(farm)
    return "64 connections at once, 20 pings each"


def one_after_the_other(folder):
    """10,000 connections leave nothing behind."""
    with Farm(PROGRAM, folder) as farm:
        still_serves(farm)
        before = farm.descriptors()
        for _ in range(10000):
            still_serves(farm)
        time.sleep(0.5)
        after = farm.descriptors()
        need(after <= before + 4, "%d descriptors were open, and then %d" % (before, after))
    return "10,000 connections, %d descriptors at first and %d at last" % (before, after)


def slow_peers(folder):
    """Three peers that send a byte a second, and one that sends nothing, hold a worker each, and no other; the idle one is given up."""
    with Farm(PROGRAM, folder, workers=5) as farm:
        crawling, idle = [Peer(farm.address) for _ in range(3)], Peer(farm.address)
        begun, longest = time.monotonic(), 0.0
        for byte in PING:
            for peer in crawling:
                peer.send(bytes([byte]))
            until = time.monotonic() + 1
            while time.monotonic() < until:
                before = time.monotonic()
                still_serves(farm)
                longest = max(longest, time.monotonic() - before)
                time.sleep(0.005)
        for peer in crawling:
            need(peer.reply()[2] == ALIVE, "a peer that sends a byte a second has no reply")
        need(longest < 1, "beside slow peers a ping took %.1f s" % longest)
        need(idle.is_over(), "an idle connection has bytes")
        spent = time.monotonic() - begun
        need(PATIENCE - 1 < spent, "an idle connection was closed within %.1f s" % spent)
    return "a ping beside them took at most %.0f ms; the idle one was closed within %.0f s" % (1000 * longest, spent)


def comes_to_its_end(folder):
    """Two workers of three connections end with the number of the messages that were asked, and a torn connection tells in the status alone."""
    for last, wanted in ((b"", 0), (PING[:9], 8)):
        with Farm(PROGRAM, folder, workers=2, connections=3) as farm:
            for number in range(5):
                with Peer(farm.address) as peer:
                    for _ in range(number):
                        pings(peer)
            with Peer(farm.address) as peer:
                peer.send(last)
            status, out, err = farm.end()
        need((status, out) == (wanted, "served 10\n"), "it ended with %d, %r and %r" % (status, out, err))
    return "6 connections, 10 messages, statuses 0 and 8"


# ---- kills under load

# what was acknowledged of a task, from the first to the last
CREATED, CLAIMED, COMPLETED = range(3)
STATES = {"pending": CREATED, "running": CLAIMED, "completed": COMPLETED}


def change(address, place, first, told):
    """Creates, claims and completes tasks on a queue of its own until the server is gone, and tells what was acknowledged."""
    queue = "prov/wt%d" % place
    body, number = peers.definition(queue), first

    def asks(message):
        status, _, body = peer.ask(message)
        if status != 200:
            told.put((None, "answered with %d: %s" % (status, body.decode())))
            raise Ended
        return json.loads(body)

    try:
        while True:
            with Peer(address) as peer:
                for _ in range(300):
                    asks(peers.creation(number, body))
                    told.put((number, CREATED))
                    work = asks(peers.claim(queue))["tasks"]
                    if work:
                        claimed = int(work[0]["status"]["taskId"][:8])
                        told.put((claimed, CLAIMED))
                        asks(peers.completion(peers.task_id(claimed), work[0]["runId"]))
                        told.put((claimed, COMPLETED))
                    number += 1
    except (Ended, OSError):
        told.put((None, number))


def load_and_kill(folder, first, acknowledged):
    """Four clients at work until the server is killed: the number from which the next tasks count."""
    with Farm(PROGRAM, folder) as farm:
        told = multiprocessing.Queue()
        clients = [multiprocessing.Process(target=change, args=(farm.address, place, first + place * 10000, told)) for place in range(4)]
        for client in clients:
            client.start()
        time.sleep(random.uniform(0.05, 1.0))
        farm.kill()
        gone, most = 0, 0
        while gone < len(clients):
            number, what = told.get(timeout=60)
            if number is not None:
                acknowledged[number] = max(what, acknowledged.get(number, CREATED))
            elif isinstance(what, str):
                raise Wrong(what)
            else:
                gone, most = gone + 1, max(most, (what - first) % 10000)
        for client in clients:
            client.join()
    return first + most + 1


def check_all(folder, acknowledged):
    """Each acknowledged change is found on the disk that was opened again."""
    with Farm(PROGRAM, folder) as farm:
        numbers = sorted(acknowledged)
        for begin in range(0, len(numbers), 900):
            with Peer(farm.address) as peer:
                for number in numbers[begin:begin + 900]:
                    status, _, body = peer.ask(peers.status_of(number))
                    need(status == 200, "task %d was acknowledged and is gone" % number)
                    state = json.loads(body)["status"]["state"]
                    need(STATES[state] >= acknowledged[number], "task %d is %s again" % (number, state))


def kills(folder):
    """Each change that was acknowledged before a kill is there when the disk is opened again."""
    rounds, acknowledged, first = int(os.environ.get("KILLS", "20")), {}, 0
    for _ in range(rounds):
        first = load_and_kill(folder, first, acknowledged)
        check_all(folder, acknowledged)
    need(acknowledged, "no change was acknowledged")
    changes = sum(what + 1 for what in acknowledged.values())
    return "%d kills, %d changes acknowledged, none lost" % (rounds, changes)


PARTS = (
    kept_alive, asked_to_close, pipelined, half_closed, torn, refused, many_workers, one_after_the_other, comes_to_its_end, kills, slow_peers,
)


def main():
    chosen = [part for part in PARTS if len(sys.argv) == 2 or part.__name__ in sys.argv[2:]]
    if len(sys.argv) > 2 and len(chosen) < len(sys.argv) - 2:
        sys.exit("parts are " + " ".join(part.__name__ for part in PARTS))
    failed = 0
    for part in chosen:
        with tempfile.TemporaryDirectory() as folder:
            try:
                print("ok    %s: %s" % (part.__name__, part(folder)), flush=True)
            except (Wrong, Ended, OSError) as error:
                failed += 1
                print("WRONG %s: %s" % (part.__name__, error or type(error).__name__), flush=True)
    sys.exit(1 if failed else 0)


if __name__ == "__main__":
    main()
