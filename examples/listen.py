#!/usr/bin/env python3
"""Lets curl reach `farm answer`: listens on a port of this machine, and hands each request to one running `farm answer FARM`.

usage: python3 examples/listen.py FARM [PORT]

It stands in the repository's folder, and PORT is 8080 where it is not said. The farm keeps its tasks until this is ended. `farm answer` serves one
connection, so requests go to it one after the other, and it ends after a thousand; a request that closes its connection would end it, too,
so that field is left out. FARM_PROGRAM, if it is set, is run in place of ./farm.
"""
import os
import socketserver
import subprocess
import sys
import threading


def message(source, keeps):
    """Reads one request or reply: its head, without the fields that `keeps` refuses, and its body. None where there is no more."""
    head, length = [source.readline()], 0
    if not head[0]:
        return None
    for line in iter(source.readline, b"\r\n"):
        if not line:
            return None
        name, _, value = line.partition(b":")
        if name.lower() == b"content-length":
            length = int(value)
        if keeps(name.lower()):
            head.append(line)
    return b"".join(head) + b"\r\n" + source.read(length)


class Connection(socketserver.StreamRequestHandler):
    def handle(self):
        for request in iter(lambda: message(self.rfile, lambda name: name != b"connection"), None):
            with self.server.turn:
                self.server.farm.stdin.write(request)
                self.server.farm.stdin.flush()
                reply = message(self.server.farm.stdout, lambda name: True)
            if reply is None:
                print("the farm has ended", file=sys.stderr)
                os._exit(1)
            self.wfile.write(reply)


class Server(socketserver.ThreadingTCPServer):
    allow_reuse_address = daemon_threads = True


if len(sys.argv) not in (2, 3):
    sys.exit(__doc__)
with Server(("localhost", int(sys.argv[2]) if len(sys.argv) == 3 else 8080), Connection) as server:
    server.turn = threading.Lock()
    program = os.environ.get("FARM_PROGRAM", "./farm")
    server.farm = subprocess.Popen([program, "answer", sys.argv[1]], stdin=subprocess.PIPE, stdout=subprocess.PIPE)
    try:
        server.serve_forever()
    except KeyboardInterrupt:
        server.farm.terminate()
