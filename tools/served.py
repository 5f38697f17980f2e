"""A running `tzdistd serve` or `tzdistd mirror` with its console, and connections to it, for tests
and measurements.

Every wait has a bound; what is started ends with its `with` block. Python's standard library only.
"""

import collections
import os
import queue
import socket
import struct
import subprocess
import threading
import time

ROOT = os.path.dirname(os.path.dirname(os.path.abspath(__file__)))
PROGRAM = os.path.join(ROOT, "crates/tzdistd/out/tzdistd")
DATA = os.path.join(ROOT, "crates/tzdistd")
HOST = "127.0.0.1"
# How long anything may take on a busy machine, in seconds.
PATIENCE = 60


class Failure(Exception):
    """What was seen is not what was promised."""


def address_of(port, host=HOST):
    """The word ADDRESS of a port at a host."""
    return f"[{host}]:{port}" if ":" in host else f"{host}:{port}"


# Descriptors of sockets that keep the last ports of `free_port` from other processes.
HELD = collections.deque()
MOST_HELD = 256


def free_port(host=HOST):
    """A port at which nothing listens, and which nobody else gets while this process runs. A server
    may listen there, since it and the socket here allow that the address is used twice."""
    with socket.socket(socket.AF_INET6 if ":" in host else socket.AF_INET) as held:
        held.setsockopt(socket.SOL_SOCKET, socket.SO_REUSEADDR, 1)
        held.bind((host, 0))
        port = held.getsockname()[1]
        HELD.append(held.detach())
    if len(HELD) > MOST_HELD:
        os.close(HELD.popleft())
    return port


class Served:
    """A server over folders at a free port, which has said that it is ready, within so many
    seconds. It is started by the words `by`, which end by running those that come after them."""

    command = "serve"

    def __init__(self, folders, workers=2, program=PROGRAM, at=DATA, host=HOST, by=(), within=2 * PATIENCE):
        for again in (True, True, False):
            self.port = free_port(host)
            self.address = address_of(self.port, host)
            words = [*by, program, self.command, self.address, str(workers), *folders]
            self._start(words, at)
            try:
                first = self.line(timeout=within)
                break
            except Failure:
                # another process may have taken the port meanwhile
                taken = self.child.poll() == 6
                self.close()
                if not (taken and again):
                    raise
        word, _, self.token = first.partition(" ")
        if word != "ready":
            self.close()
            raise Failure(f"the first line is {first!r}")

    def _start(self, words, at):
        pipe = subprocess.PIPE
        self.child = subprocess.Popen(words, cwd=at, stdin=pipe, stdout=pipe, stderr=pipe)
        self.pid = self.child.pid
        self.errors = b""
        self._lines = queue.Queue()
        self._readers = [
            threading.Thread(target=self._read_lines, args=(self.child.stdout,), daemon=True),
            threading.Thread(target=self._read_errors, args=(self.child.stderr,), daemon=True),
        ]
        for reader in self._readers:
            reader.start()

    def _read_lines(self, stream):
        for line in stream:
            self._lines.put(line)
        self._lines.put(None)

    def _read_errors(self, stream):
        for line in stream:
            self.errors += line

    def line(self, timeout=PATIENCE):
        """The next line that the console says, without its line feed."""
        try:
            line = self._lines.get(timeout=timeout)
        except queue.Empty:
            raise Failure(f"the console said nothing for {timeout} seconds") from None
        if line is None:
            self._lines.put(None)
            self.child.poll()
            raise Failure(f"the output ended; standard error: {self.errors!r}")
        if not line.endswith(b"\n"):
            raise Failure(f"the output ended inside the line {line!r}")
        return line[:-1].decode("ascii")

    def write(self, text):
        """Writes bytes to the console."""
        self.child.stdin.write(text)
        self.child.stdin.flush()

    def say(self, line, timeout=PATIENCE):
        """Writes a line to the console, and returns its reply."""
        self.write(line.encode() + b"\n")
        return self.line(timeout)

    def end_input(self):
        """Ends the input of the console."""
        self.child.stdin.close()

    def ended(self, timeout=PATIENCE):
        """The status with which the server ended, and what the console said that was not read."""
        try:
            status = self.child.wait(timeout)
        except subprocess.TimeoutExpired:
            raise Failure(f"the server had not ended after {timeout} seconds") from None
        for reader in self._readers:
            reader.join(5)
        rest = []
        while (line := self._lines.get(timeout=PATIENCE)) is not None:
            rest.append(line)
        return status, b"".join(rest)

    def quit(self, timeout=PATIENCE):
        """Ends the server by its console, and returns its status."""
        if (said := self.say("quit")) != "bye":
            raise Failure(f"quit was answered {said!r}")
        return self.ended(timeout)[0]

    def close(self):
        if self.child.poll() is None:
            self.child.kill()
        self.child.wait()
        for reader in self._readers:
            reader.join(5)
        for stream in (self.child.stdin, self.child.stdout, self.child.stderr):
            try:
                stream.close()
            except OSError:
                pass

    def __enter__(self):
        return self

    def __exit__(self, *_):
        self.close()


class Mirror(Served):
    """A mirror of the server at an address, which has said that it is ready."""

    command = "mirror"

    def __init__(self, upstream, **more):
        super().__init__([upstream], **more)


class Reply:
    """The head of a reply as it was read, and its status, fields and body."""

    def __init__(self, head, body):
        self.head, self.body = head, body
        first, *lines = head.decode("ascii").split("\r\n")
        self.status = int(first.split(" ")[1])
        self.fields = dict(line.split(": ", 1) for line in lines)

    @property
    def closes(self):
        return self.fields.get("Connection") == "close"


class Client:
    """A connection to a server."""

    def __init__(self, port, host=HOST, timeout=PATIENCE):
        self.socket = socket.create_connection((host, port), timeout)
        self.socket.setsockopt(socket.IPPROTO_TCP, socket.TCP_NODELAY, 1)
        self.held = b""

    def send(self, data):
        self.socket.sendall(data)

    def _more(self, until):
        left = until - time.monotonic()
        if left <= 0:
            raise Failure(f"no whole reply in time; so far {self.held[:200]!r}")
        self.socket.settimeout(left)
        try:
            piece = self.socket.recv(1 << 18)
        except socket.timeout:
            return
        if not piece:
            raise Failure(f"the connection ended inside a reply: {self.held[:200]!r}")
        self.held += piece

    def reply(self, head_only=False, timeout=PATIENCE):
        """The next reply. After a request for only a head it waits for no body."""
        until = time.monotonic() + timeout
        while (end := self.held.find(b"\r\n\r\n")) < 0:
            self._more(until)
        head = self.held[:end]
        reply = Reply(head, b"")
        size = 0 if head_only else int(reply.fields.get("Content-Length", "0"))
        while len(self.held) < end + 4 + size:
            self._more(until)
        reply.body = self.held[end + 4 : end + 4 + size]
        self.held = self.held[end + 4 + size :]
        return reply

    def ask(self, target, *lines, method="GET", timeout=PATIENCE):
        """The reply to one request."""
        self.send(request(target, *lines, method=method))
        return self.reply(method == "HEAD", timeout)

    def seconds_to_end(self, timeout):
        """The seconds until the peer ended the connection, before which it sends nothing."""
        begin = time.monotonic()
        self.socket.settimeout(timeout)
        try:
            piece = self.held or self.socket.recv(1 << 16)
        except socket.timeout:
            raise Failure(f"the connection was still open after {timeout} seconds") from None
        except ConnectionResetError:
            piece = b""
        if piece:
            raise Failure(f"bytes came where the connection should end: {piece[:200]!r}")
        return time.monotonic() - begin

    def end_sending(self):
        self.socket.shutdown(socket.SHUT_WR)

    def reset(self):
        """Ends the connection by a reset."""
        self.socket.setsockopt(socket.SOL_SOCKET, socket.SO_LINGER, struct.pack("ii", 1, 0))
        self.socket.close()

    def close(self):
        self.socket.close()

    def __enter__(self):
        return self

    def __exit__(self, *_):
        self.close()


def request(target, *lines, method="GET"):
    """A request."""
    return "\r\n".join([f"{method} {target} HTTP/1.1", "Host: x", *lines, "", ""]).encode()


def slim_zone(hours):
    """A TZif file of one type, so many hours (1 to 9) east of UTC all the time."""
    name = f"+0{hours}".encode()

    def header(types, letters):
        return b"TZif2" + bytes(15) + struct.pack(">6I", 0, 0, 0, 0, types, letters)

    second = struct.pack(">iBB", hours * 3600, 0, 0) + name + b"\0"
    footer = b"\n<" + name + f">-{hours}\n".encode()
    return header(1, 1) + bytes(7) + header(1, len(name) + 1) + second + footer
