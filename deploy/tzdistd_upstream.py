"""A port of this machine that passes the requests of a mirror to another server, and the server of
its last copy.

A mirror has one upstream for its whole run. So where it starts from its last copy, its upstream is
this port. It passes requests to the server of the copy first, and to the real upstream from then
on. Python's standard library only.
"""

import contextlib
import http.client
import re
import select
import socket
import struct
import subprocess
import threading

from tzdistd_copy import host_and_port
from tzdistd_service import Failed, Settings

LOOPBACK = "127.0.0.1"
MOST_HEAD_BYTES = 16_384
# The most requests at once. A mirror makes one.
MOST_REQUESTS = 8
# Seconds without a byte, after which the mirror itself gives up, too.
SILENCE = 12
# How long a slow machine may take to check and serve a copy.
READY_SECONDS = 600


def mirror_settings(environment=None):
    """The settings of a mirror: those of the environment come before those of its file."""
    settings = Settings(environment, "/etc/default/tzdistd-mirror")
    state = settings.environment.get("STATE_DIRECTORY", "").split(":")[0]
    settings.state = state or "/var/lib/tzdistd-mirror"
    settings.runtime = settings.value("RUNTIME_DIRECTORY", "/run/tzdistd-mirror").split(":")[0]
    return settings


def answers(address):
    """Whether a server of time zones answers at an address."""
    try:
        server = http.client.HTTPConnection(*host_and_port(address), timeout=SILENCE)
        with contextlib.closing(server):
            server.request("GET", "/tzdist/capabilities", headers={"Connection": "close"})
            return server.getresponse().status == 200
    except (OSError, http.client.HTTPException):
        return False


class Passage:
    """The port. Each request that comes there is passed on to `to`, with that in its Host field."""

    def __init__(self, to):
        self.to, self.free = to, threading.Semaphore(MOST_REQUESTS)
        self.listener = socket.create_server((LOOPBACK, 0), backlog=64)
        self.address = f"{LOOPBACK}:{self.listener.getsockname()[1]}"
        threading.Thread(target=self._accept, daemon=True).start()

    def lead(self, to):
        """Passes later requests to another address."""
        self.to = to

    def close(self):
        # a waiting accept would keep the port
        with contextlib.suppress(OSError):
            self.listener.shutdown(socket.SHUT_RDWR)
        self.listener.close()

    def _accept(self):
        while True:
            try:
                client = self.listener.accept()[0]
            except OSError:
                return
            if self.free.acquire(blocking=False):
                threading.Thread(target=self._serve, args=(client, self.to), daemon=True).start()
            else:
                reset(client)

    def _serve(self, client, to):
        try:
            client.settimeout(SILENCE)
            head = head_of(client)
            with socket.create_connection(host_and_port(to), SILENCE) as server:
                host = b"Host: " + to.encode()
                server.sendall(re.sub(rb"(?im)^Host:[^\r\n]*", host, head, count=1))
                while True:
                    piece = server.recv(65_536)
                    if not piece:
                        break
                    client.sendall(piece)
            client.close()
        except (OSError, Failed):
            # so the mirror sees a failed upstream, and no answer that ended too early
            reset(client)
        finally:
            self.free.release()


def reset(client):
    """Closes a connection by a reset."""
    with contextlib.suppress(OSError):
        client.setsockopt(socket.SOL_SOCKET, socket.SO_LINGER, struct.pack("ii", 1, 0))
    client.close()


def head_of(client):
    """The bytes of a request without a body."""
    head = b""
    while b"\r\n\r\n" not in head:
        piece = client.recv(MOST_HEAD_BYTES)
        head += piece
        if not piece or len(head) > MOST_HEAD_BYTES:
            raise Failed("no request")
    return head


class CopyServer:
    """The program, which serves a copy at a free port of this machine until the end of a `with`
    block."""

    def __init__(self, program, folder):
        for again in (True, True, False):
            self.address = f"{LOOPBACK}:{free_port()}"
            self.child = subprocess.Popen(
                [program, "serve", self.address, "1", folder],
                stdin=subprocess.PIPE, stdout=subprocess.PIPE, bufsize=0,
            )
            line = self._first_line()
            if line.startswith("ready "):
                return
            status = self._close()
            # another process may have taken the port meanwhile
            if status != 6 or not again:
                raise Failed(f"{folder}: {line or f'status {status}'}")

    def _first_line(self):
        ready, _, _ = select.select([self.child.stdout], [], [], READY_SECONDS)
        return self.child.stdout.readline().decode("utf-8", "replace").strip() if ready else ""

    def _close(self):
        # the end of its input ends the program
        self.child.stdin.close()
        try:
            status = self.child.wait(10)
        except subprocess.TimeoutExpired:
            self.child.kill()
            status = self.child.wait()
        self.child.stdout.close()
        return status

    def __enter__(self):
        return self

    def __exit__(self, *_):
        self._close()


def free_port():
    """A port at which nothing listens at the moment."""
    with socket.socket() as probe:
        probe.bind((LOOPBACK, 0))
        return probe.getsockname()[1]
