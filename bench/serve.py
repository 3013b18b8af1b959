#!/usr/bin/env python3
"""What calls cost over sockets, beside what this machine's disk and a plain loop over sockets can do, in one run.

python3 bench/serve.py PROGRAM [SECONDS]

PROGRAM is the built program itself. It runs `serve` with 4 workers over a disk in a temporary folder (TMPDIR says on which file system), and each row asks
for so many seconds (else 3): pings and signed pings on one connection and on four that are kept alive, and creations, claims and completions of tasks, each of
which is on the disk before it is answered, from one client and from four. A connection serves 1,000 requests, and is then made anew.
Below them stand what the clients here reach with a loop in the server's place that reads and writes as many bytes, how often a record of the size
that a change had can be written and synced, and its gate too, as the program does it, and what the clients reach with both, one after the other: a loop
that writes and syncs so before it replies. A loop that took no time of its own would come to that, also where all requests are sent ahead. Changes that are sent ahead, a thousand on a connection, wait for no client: they
show what the farm itself comes to. Each client is a process; a client in Python takes some
twenty microseconds a call, so pings tell no more than that the program is not slower.

A disk that others use, too, is now fast and now slow, so all rows with a disk are measured in turn, in five rounds, and the table has each row's median round. The last two columns are the median, over the rounds, of what a row came to beside the disk
alone in the same round: beside records each of which is written behind the end of the file, and beside records in room that the file has already, where a sync has no new length to keep.
"""
import json
import multiprocessing
import os
import socket
import sys
import tempfile
import threading
import time

import peers

PROGRAM = os.path.abspath(sys.argv[1])
SECONDS = float(sys.argv[2]) if len(sys.argv) > 2 else 3.0
CYCLES = 333
ROUNDS = 5
ROOM, PIECE = 16 << 20, 65536
PLAIN_REPLY = b"HTTP/1.1 200 OK\r\nContent-Length: 14\r\nContent-Type: application/json\r\n\r\n{\"alive\":true}"


class Line:
    """A connection that is made again where a reply closed it, and that keeps how long each call took."""

    def __init__(self, address):
        self.address, self.peer, self.times = address, peers.Peer(address), []

    def close(self):
        self.peer.close()

    def ask(self, message):
        begin = time.perf_counter()
        status, head, body = self.peer.ask(message)
        self.times.append(time.perf_counter() - begin)
        if status != 200:
            raise SystemExit("answered with %d: %s" % (status, body.decode()))
        if peers.closes(head):
            self.peer.close()
            self.peer = peers.Peer(self.address)
        return body


def pings(line, place, until):
    while time.perf_counter() < until:
        line.ask(peers.PING)


def signed_pings(line, place, until):
    number = place * 1000000
    while time.perf_counter() < until:
        message = peers.signed_ping(number)
        number += 1
        line.ask(message)


def changes(first):
    """Creates, claims and completes tasks on a queue of the client's own; ids count from `first` on."""

    def client(line, place, until):
        queue = "prov/wt%d" % place
        body, number = peers.definition(queue), first + place * 100000
        while time.perf_counter() < until:
            line.ask(peers.creation(number, body))
            work = json.loads(line.ask(peers.claim(queue)))["tasks"]
            if not work:
                raise SystemExit("a task was created, and none could be claimed")
            line.ask(peers.completion(work[0]["status"]["taskId"], work[0]["runId"]))
            number += 1

    return client


def changes_sent_ahead(first):
    """The same changes, which a connection brings all at once, a thousand requests with a ping at the end: no client is waited for between two."""

    def client(line, place, until):
        queue, worker = "prov/wt%d" % place, "w"
        body, number = peers.definition(queue), first + place * 100000
        while time.perf_counter() < until:
            sent = []
            for number in range(number, number + CYCLES):
                sent += [peers.creation(number, body), peers.claim(queue, worker), peers.completion(peers.task_id(number), 0)]
            number += 1
            line.close()
            begin = time.perf_counter()
            replies = peers.all_replies(line.address, b"".join(sent + [peers.PING]))
            each = (time.perf_counter() - begin) / len(sent)
            if replies.count(b"HTTP/1.1 200 ") != len(sent) + 1:
                raise SystemExit("a thousand requests were sent ahead, and %d were answered with 200" % replies.count(b"HTTP/1.1 200 "))
            line.times += [each] * len(sent)

    return client


def pings_sent_ahead(line, place, until):
    """A thousand pings to the plain loop, which come to it all at once."""
    many, whole = peers.PING * 1000, len(PLAIN_REPLY) * 1000
    while time.perf_counter() < until:
        line.close()
        begin, came = time.perf_counter(), 0
        with socket.create_connection(line.address, timeout=60) as peer:
            sender = threading.Thread(target=peer.sendall, args=(many,))
            sender.start()
            while came < whole:
                piece = peer.recv(1 << 20)
                if not piece:
                    raise SystemExit("the plain loop ended a connection")
                came += len(piece)
            sender.join()
        line.times += [(time.perf_counter() - begin) / 1000] * 1000


def run_client(client, address, place, begin, results):
    line = Line(address)
    begin.wait()
    client(line, place, time.perf_counter() + SECONDS)
    results.put(line.times)


def measure(client, address, clients):
    """How long each call took of so many clients side by side."""
    begin, results = multiprocessing.Barrier(clients + 1), multiprocessing.Queue()
    tasks = [multiprocessing.Process(target=run_client, args=(client, address, place, begin, results)) for place in range(clients)]
    for task in tasks:
        task.start()
    begin.wait()
    times = [one for _ in tasks for one in results.get(timeout=SECONDS + 60)]
    for task in tasks:
        task.join()
    return sorted(times)


def rate(clients, times):
    """Calls a second of so many clients. What a client does between two calls, as signing, is not counted."""
    return clients * len(times) / sum(times)


def quotient(clients, rounds, disk):
    """What so many clients came to beside the disk alone in the same round: the round in the middle."""
    quotients = sorted(rate(clients, it) / rate(1, alone) for it, alone in zip(rounds, disk))
    return "%.2f" % quotients[len(quotients) // 2]


def row(what, clients, rounds, *disks):
    """A line of the table, for the round in the middle of these, and beside each of these disks."""
    times = sorted(rounds, key=lambda it: rate(clients, it))[len(rounds) // 2]
    shown = ["%.0f us" % (1e6 * times[min(len(times) - 1, int(len(times) * part))]) for part in (0.5, 0.99)]
    shown += [quotient(clients, rounds, disk) for disk in disks] or ["", ""]
    print("| %s | %d | %.0f | %s | %s | %s | %s |" % (what, clients, rate(clients, times), *shown), flush=True)


def keep(handle, place, record):
    """Writes a record and syncs, then one byte before it and syncs."""
    os.pwrite(handle, record, place + 1)
    os.fsync(handle)
    os.pwrite(handle, b"\xa5", place)
    os.fdatasync(handle)


def plain_server(doors, asked, reply, turn=None, handle=None, record=b""):
    """Reads as many bytes as a request has, and writes a reply, on each connection in turn. With a handle it keeps a record before each reply, when it is
    its turn."""
    place = 0
    while True:
        peer, _ = doors.accept()
        peer.setsockopt(socket.IPPROTO_TCP, socket.TCP_NODELAY, 1)
        while True:
            left = asked
            while left > 0:
                piece = peer.recv(left)
                if not piece:
                    break
                left -= len(piece)
            if left:
                break
            if handle is not None:
                with turn:
                    keep(handle, place, record)
                place += len(record)
            peer.sendall(reply)
        peer.close()


def plain_loop(clients, client, *kept):
    with socket.socket() as doors:
        doors.bind(("127.0.0.1", 0))
        doors.listen()
        servers = [multiprocessing.Process(target=plain_server, args=(doors, len(peers.PING), PLAIN_REPLY, *kept), daemon=True) for _ in range(clients)]
        for server in servers:
            server.start()
        times = measure(client, doors.getsockname(), clients)
        for server in servers:
            server.terminate()
            server.join()
    return times


def file_with_room(path, room):
    """A file anew, with so many bytes written, piece by piece, and synced. (In a file that was written in one large piece a sync was slower.)"""
    handle = os.open(path, os.O_RDWR | os.O_CREAT | os.O_TRUNC)
    for place in range(0, room, PIECE):
        os.pwrite(handle, b"\0" * PIECE, place)
    os.fsync(handle)
    return handle


def disk_alone(folder, size, room):
    """Keeps a record of this size, again and again, each behind the last one: at the end of the file, or in so much room that it has already."""
    handle = file_with_room(os.path.join(folder, "alone.disk"), room)
    place, record, times, until = 0, b"\0" * size, [], time.perf_counter() + SECONDS
    while time.perf_counter() < until:
        begin = time.perf_counter()
        keep(handle, place, record)
        times.append(time.perf_counter() - begin)
        place += size
    os.close(handle)
    return sorted(times)


def disk_and_loop(folder, size, clients, client):
    """The plain loop, which keeps a record of this size before each reply, in room that the file has."""
    handle = file_with_room(os.path.join(folder, "loop.disk"), ROOM)
    times = plain_loop(clients, client, multiprocessing.Lock(), handle, b"\0" * size)
    os.close(handle)
    return times


def pings_rows(farm):
    for clients in (1, 4):
        row("ping", clients, [measure(pings, farm.address, clients)])
        row("ping to the plain loop", clients, [plain_loop(clients, pings)])
    for clients in (1, 4):
        row("signed ping", clients, [measure(signed_pings, farm.address, clients)])


def changes_rows(farm, folder):
    """The rows with a disk, in rounds. The size of a record is that of the first changes."""
    found = {}
    measure(changes_sent_ahead(100000), farm.address, 1)
    count, size = peers.records(os.path.join(folder, "farm.disk"))
    size //= count
    for turn in range(ROUNDS):
        first = 1000000 * (turn + 1)
        found.setdefault("growing", []).append(disk_alone(folder, size, 0))
        found.setdefault("in room", []).append(disk_alone(folder, size, ROOM))
        for clients in (1, 4):
            made = measure(changes(first + clients * 10000), farm.address, clients)
            found.setdefault(("create, claim, complete: a change each", clients), []).append(made)
            made = measure(changes_sent_ahead(first + 500000 + clients * 10000), farm.address, clients)
            found.setdefault(("the same, a thousand requests sent ahead", clients), []).append(made)
            made = disk_and_loop(folder, size, clients, pings)
            found.setdefault(("the plain loop, with such a record before each reply", clients), []).append(made)
            made = disk_and_loop(folder, size, clients, pings_sent_ahead)
            found.setdefault(("the plain loop, a thousand requests sent ahead", clients), []).append(made)
    disks = [found.pop("growing"), found.pop("in room")]
    row("the disk alone: a record of %d bytes and its gate, behind the end of the file" % size, 1, disks[0], *disks)
    row("the disk alone: the same in room that the file has", 1, disks[1], *disks)
    for (what, clients), rounds in found.items():
        row(what, clients, rounds, *disks)


def main():
    with tempfile.TemporaryDirectory() as folder:
        print("| what | clients | calls a second | median | 99 of 100 | beside the disk, growing | in room |\n|---|---|---|---|---|---|---|")
        with peers.Farm(PROGRAM, folder) as farm:
            pings_rows(farm)
            changes_rows(farm, folder)


if __name__ == "__main__":
    main()
