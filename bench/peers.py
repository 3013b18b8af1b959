"""A running `serve` and connections to it, for serve.py and sockets.py."""
import base64
import datetime
import hashlib
import hmac
import json
import os
import signal
import socket
import subprocess
import sys
import threading
import time

PATH = "/api/queue/v1"
CLIENT, TOKEN = "bench/one", "0123456789012345678901234567"
FARM = """[farm]
host = "localhost"
port = 8080
claim_timeout = 3600

[[role]]
id = "anonymous"
scopes = ["*"]

[[client]]
id = "%s"
token = "%s"
scopes = ["queue:*"]
expires = "2099-01-01T00:00:00Z"
""" % (CLIENT, TOKEN)


def records(path):
    """How many open records the file of a disk begins with, and how many bytes they have."""
    with open(path, "rb") as file:
        bytes_ = file.read()
    count = at = 0
    while at + 5 <= len(bytes_) and bytes_[at] == 0xA5:
        at += 5 + int.from_bytes(bytes_[at + 1:at + 5], "big")
        count += 1
    return count, at


class Ended(Exception):
    """The connection ended before a reply, or inside it."""


def free_address():
    """An address of this machine with a port that was free a moment ago."""
    with socket.socket() as door:
        door.bind(("127.0.0.1", 0))
        return door.getsockname()


class Farm:
    """A `serve` over a farm file and a disk in a folder. It is listening once this was made."""

    def __init__(self, program, folder, workers=4, connections=None):
        self.address = free_address()
        with open(os.path.join(folder, "farm.toml"), "w") as file:
            file.write(FARM)
        words = [program, "serve", "farm.toml", "--disk", "farm.disk", "--listen", "%s:%d" % self.address, "--workers", str(workers)]
        if connections is not None:
            words += ["--connections", str(connections)]
        self.process = subprocess.Popen(words, cwd=folder, stdin=subprocess.DEVNULL, stdout=subprocess.PIPE, stderr=subprocess.PIPE)
        line = self.process.stdout.readline()
        if line != b"ready\n":
            self.process.kill()
            sys.exit("serve wrote %r and then %r" % (line, self.process.stderr.read().decode()))

    def kill(self):
        self.process.send_signal(signal.SIGKILL)
        self.process.wait()
        self.process.stdout.close()
        self.process.stderr.close()

    def end(self, seconds=60):
        """Waits for the end: the status, what was written behind `ready`, and what was noted."""
        out, err = self.process.communicate(timeout=seconds)
        return self.process.returncode, out.decode(), err.decode()

    def descriptors(self):
        return len(os.listdir("/proc/%d/fd" % self.process.pid))

    def __enter__(self):
        return self

    def __exit__(self, *_):
        if self.process.poll() is None:
            self.kill()


class Peer:
    """One connection, which asks and reads replies."""

    def __init__(self, address, seconds=60):
        self.socket = socket.create_connection(address, timeout=seconds)
        self.socket.setsockopt(socket.IPPROTO_TCP, socket.TCP_NODELAY, 1)
        self.held = b""

    def send(self, message):
        self.socket.sendall(message)

    def more(self):
        try:
            piece = self.socket.recv(65536)
        except ConnectionResetError:
            raise Ended from None
        if not piece:
            raise Ended
        self.held += piece

    def reply(self):
        """The status, the head and the body of the next reply."""
        while True:
            end = self.held.find(b"\r\n\r\n")
            if end >= 0:
                break
            self.more()
        head = self.held[:end + 4]
        length = next((int(line[15:]) for line in head.split(b"\r\n") if line.lower().startswith(b"content-length:")), 0)
        while len(self.held) < end + 4 + length:
            self.more()
        body, self.held = self.held[end + 4:end + 4 + length], self.held[end + 4 + length:]
        return int(head[9:12]), head, body

    def ask(self, message):
        self.send(message)
        return self.reply()

    def is_over(self):
        """Whether the other side has closed, and sent nothing more."""
        try:
            return not self.held and not self.socket.recv(1)
        except ConnectionResetError:
            return True

    def reset(self):
        """Closes so that the other side is told of an error."""
        self.socket.setsockopt(socket.SOL_SOCKET, socket.SO_LINGER, b"\1\0\0\0\0\0\0\0")
        self.socket.close()

    def close(self):
        self.socket.close()

    def __enter__(self):
        return self

    def __exit__(self, *_):
        self.close()


def all_replies(address, messages):
    """What comes back on one connection for these messages, which are sent while replies are read, until the farm closes it."""
    with socket.create_connection(address, timeout=60) as peer:
        sender = threading.Thread(target=peer.sendall, args=(messages,))
        sender.start()
        pieces = []
        while True:
            piece = peer.recv(1 << 20)
            if not piece:
                break
            pieces.append(piece)
        sender.join()
    return b"".join(pieces)


def closes(head):
    return b"connection: close" in head.lower()


def request(method, path, body=None, fields=()):
    lines = ["%s %s%s HTTP/1.1" % (method, PATH, path)] + ["%s: %s" % field for field in fields]
    if body is not None:
        lines.append("Content-Length: %d" % len(body))
    return ("\r\n".join(lines) + "\r\n\r\n" + (body or "")).encode()


def hawk(method, path, nonce, seconds):
    """The Authorization field by which the client makes this call without a body (Hawk, scheme 1)."""
    lines = ["hawk.1.header", str(seconds), nonce, method, PATH + path, "localhost", "8080", "", ""]
    mac = hmac.new(TOKEN.encode(), ("\n".join(lines) + "\n").encode(), hashlib.sha256).digest()
    return ("Authorization", 'Hawk id="%s", ts="%d", nonce="%s", mac="%s"' % (CLIENT, seconds, nonce, base64.b64encode(mac).decode()))


PING = request("GET", "/ping")


def signed_ping(number):
    return request("GET", "/ping", fields=(hawk("GET", "/ping", "n%d" % number, int(time.time())),))


def task_id(number):
    """A slugid whose first digits count."""
    return "%08dQACAAAAAAAAAAA" % number


def definition(queue="prov/wt"):
    now = datetime.datetime.now(datetime.timezone.utc)
    moments = [moment.strftime("%Y-%m-%dT%H:%M:%S.000Z") for moment in (now, now + datetime.timedelta(days=1))]
    task = {
        "created": moments[0],
        "deadline": moments[1],
        "metadata": {"description": "d", "name": "n", "owner": "o@example.com", "source": "https://example.com/"},
        "payload": {},
        "taskQueueId": queue,
    }
    return json.dumps(task, separators=(",", ":"))


def creation(number, body):
    return request("PUT", "/task/" + task_id(number), body)


def status_of(number):
    return request("GET", "/task/%s/status" % task_id(number))


def claim(queue="prov/wt", worker="w"):
    return request("POST", "/claim-work/" + queue, '{"tasks":1,"workerGroup":"g","workerId":"%s"}' % worker)


def completion(task, run):
    return request("POST", "/task/%s/runs/%d/completed" % (task, run))
