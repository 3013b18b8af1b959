#!/usr/bin/env python3
"""What a loop in C comes to beside the disk alone, that keeps a record before each reply, by the time that it takes itself and how its workers wait.

    python3 bench/disk_turns.py [SECONDS [ROUNDS]]

`cc` has to be there. Requests are sent ahead, a thousand on a connection, from one client and from four (Python). Each row asks for so many seconds (else 1) in each of
so many rounds (else 5), in turn with the disk alone in room that its file has. A row is told by its microseconds in its turn and before it.
"""
import os
import subprocess
import sys
import tempfile

SECONDS, ROUNDS = sys.argv[1] if len(sys.argv) > 1 else "1", int(sys.argv[2]) if len(sys.argv) > 2 else 5
HERE = os.path.dirname(os.path.abspath(__file__))
SIZE = 202
WAYS = ["a mutex", "tickets; the next yields", "tickets; each sleeps on a word of its own"]
ROWS = [(1, 0, 0, 0)] + [(4, way, inside, outside) for inside, outside in ((0, 0), (0, 20), (12, 20)) for way in range(3)]

sys.argv = ["serve.py", "/bin/true", SECONDS]
import peers
import serve


def loop(program, folder, clients, way, inside, outside):
    """How long each call took, and the processor's seconds of the loop."""
    words = [clients, len(peers.PING), SIZE, os.path.join(folder, "loop.disk"), way, inside, outside]
    with subprocess.Popen([program, *map(str, words)], stdout=subprocess.PIPE) as child:
        times = serve.measure(serve.pings_sent_ahead, ("127.0.0.1", int(child.stdout.readline())), clients)
        with open("/proc/%d/stat" % child.pid) as counts:
            user, system = counts.read().rsplit(")", 1)[1].split()[11:13]
        child.kill()
    return times, (int(user) + int(system)) / os.sysconf("SC_CLK_TCK")


def main():
    with tempfile.TemporaryDirectory() as folder:
        program = os.path.join(folder, "disk_turns")
        subprocess.run(["cc", "-O2", "-pthread", "-o", program, os.path.join(HERE, "disk_turns.c")], check=True)
        disk, found = [], {row: [] for row in ROWS}
        for _ in range(ROUNDS):
            disk.append(serve.disk_alone(folder, SIZE, serve.ROOM))
            for row in ROWS:
                found[row].append(loop(program, folder, *row))
    print("the disk alone, us a record: %s" % ", ".join("%.0f" % (1e6 / serve.rate(1, it)) for it in disk))
    print("| clients | in turn | before it | workers wait by | beside the disk alone | us of a processor, a request |\n|---|---|---|---|---|---|")
    for (clients, way, inside, outside), rounds in found.items():
        times = [it for it, _ in rounds]
        each = 1e6 * sum(used for _, used in rounds) / sum(map(len, times))
        print("| %d | %d us | %d us | %s | %s | %.0f |" % (clients, inside, outside, WAYS[way], serve.quotient(clients, times, disk), each))


if __name__ == "__main__":
    main()
