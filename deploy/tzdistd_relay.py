"""The program as the child of a service script. Its console is a FIFO, its replies go to a file,
and what happens goes to the journal.

A line of the FIFO is passed on once the reply to the line before it has come. So each reply is
known by its line. SIGTERM and SIGINT end the program by `quit`; SIGHUP ends nothing. Python's
standard library only.
"""

import contextlib
import os
import selectors
import signal
import socket
import subprocess
import time

from tzdistd_priority import FirstThread, can_return
from tzdistd_service import say

# A longer line is no command of the console; the program answers this many bytes of it as it
# answers the whole.
MOST_LINE_BYTES = 1101
# Replies that peers have not read yet are sent for two seconds after `quit`. Then the program is
# ended.
QUIT_SECONDS = 2.7
BUSY_SECONDS = 20


def notify(text):
    """Reports a state of the service to systemd, where systemd waits for one."""
    path = os.environ.get("NOTIFY_SOCKET")
    if not path:
        return
    with contextlib.suppress(OSError), socket.socket(socket.AF_UNIX, socket.SOCK_DGRAM) as to:
        to.sendto(text.encode(), "\0" + path[1:] if path[0] == "@" else path)


class Watcher:
    """What a service does for the lines of its console. Each method may be overridden."""

    def before(self, line):
        """A reply to give at once, so that the program does not get the line, or None."""

    def after(self, line, reply):
        """Called with a line and its reply, of which `news` has several, before an operator can
        read it."""

    def ready(self, token):
        """Called once the program serves."""


class Lines:
    """Whole lines from a descriptor, with a limit on the length of each."""

    def __init__(self, descriptor, most=None):
        self.descriptor, self.most, self.held, self.waiting = descriptor, most, b"", []

    def read(self):
        """Reads what is there. Returns False at the end of the stream."""
        try:
            piece = os.read(self.descriptor, 65536)
        except BlockingIOError:
            return True
        *lines, rest = (self.held + piece).split(b"\n")
        self.waiting += lines
        if self.most is not None:
            self.waiting = [line[: self.most] for line in self.waiting]
            rest = rest[: self.most]
        self.held = rest
        return bool(piece)

    def next(self):
        return self.waiting.pop(0) if self.waiting else None


class Relay:
    """The program with its console in the folder `at`."""

    def __init__(self, at, watcher):
        self.at, self.watcher = at, watcher
        self.child, self.asked, self.is_ready, self.fault = None, None, False, None
        self.stop_by, self.reply = None, []
        self.can_yield, self.first_thread = can_return(), None
        self._signals()
        self._console()

    def _signals(self):
        self.woken, waker = os.pipe()
        for end in (self.woken, waker):
            os.set_blocking(end, False)
        signal.set_wakeup_fd(waker, warn_on_full_buffer=False)
        for number in (signal.SIGTERM, signal.SIGINT):
            signal.signal(number, lambda *_: None)
        # the program inherits this
        signal.signal(signal.SIGHUP, signal.SIG_IGN)

    def _console(self):
        """Makes the files of the console. The replies of the run before stay in another file."""
        fifo, replies = self._path("console"), self._path("replies")
        with contextlib.suppress(FileNotFoundError):
            os.unlink(fifo)
        with contextlib.suppress(FileNotFoundError):
            os.replace(replies, replies + ".last")
        # a watch of an earlier run is no subscriber of this one
        for name in os.listdir(self.at):
            if name.startswith("watch-") and name.endswith(".number"):
                os.unlink(self._path(name))
        self.replies = open(replies, "wb", buffering=0)
        with open(self._path("lock"), "ab"):
            pass
        os.mkfifo(fifo, 0o660)
        # open for reading and writing, so that it stays open while no operator is there
        self.lines = Lines(os.open(fifo, os.O_RDWR | os.O_NONBLOCK | os.O_CLOEXEC), MOST_LINE_BYTES)

    def _path(self, name):
        return os.path.join(self.at, name)

    def start(self, words):
        """Starts the program. Returns once it serves, with None, or once it has ended, with its
        status. The fault for which it refused a start is then in `fault`."""
        self.is_ready, self.fault, self.asked, self.reply = False, None, None, []
        try:
            self.child = subprocess.Popen(
                words, stdin=subprocess.PIPE, stdout=subprocess.PIPE, start_new_session=True, bufsize=0
            )
        except OSError as error:
            say(f"{words[0]}: {error.strerror}", 3)
            return 127
        with open(self._path("pid"), "w", encoding="ascii") as file:
            file.write(f"{self.child.pid}\n")
        self.first_thread = FirstThread(self.child.pid, self.can_yield)
        self.answers = Lines(self.child.stdout.fileno())
        return self._loop(lambda: self.is_ready)

    def serve(self):
        """Relays the console until the program has ended, and returns its status."""
        return self._loop(lambda: False)

    def close(self):
        """Removes the console, so that nobody waits for a reply from it."""
        for name in ("console", "pid"):
            with contextlib.suppress(FileNotFoundError):
                os.unlink(self._path(name))
        if self.child is not None and self.child.poll() is None:
            self.child.kill()
            self.child.wait()

    def _loop(self, done):
        with selectors.DefaultSelector() as events:
            events.register(self.child.stdout, selectors.EVENT_READ)
            events.register(self.woken, selectors.EVENT_READ)
            listening = False
            while not done():
                may_ask = self.is_ready and self.asked is None and self.stop_by is None
                if may_ask and not self.lines.waiting and not listening:
                    events.register(self.lines.descriptor, selectors.EVENT_READ)
                    listening = True
                elif listening and not may_ask:
                    events.unregister(self.lines.descriptor)
                    listening = False
                if may_ask and self.lines.waiting:
                    self._ask(self.lines.next().decode("utf-8", "surrogateescape"))
                    continue
                if not self._step(events):
                    return self._ended()
        return None

    def _step(self, events):
        """Handles what is there. Returns False once the program has ended its output."""
        times = [it for it in (self.stop_by, self.first_thread.until) if it is not None]
        found = events.select(max(0, min(times) - time.monotonic()) if times else None)
        self.first_thread.look()
        if not found and self.stop_by is not None and time.monotonic() >= self.stop_by:
            say("the program did not end in time, and is ended", 4)
            self.child.kill()
            self.stop_by += 60
        for key, _ in found:
            if key.fd == self.woken:
                self._woken()
            elif key.fd == self.lines.descriptor:
                self.lines.read()
            else:
                goes_on = self.answers.read()
                while (line := self.answers.next()) is not None:
                    self._answer(line)
                if not goes_on:
                    return False
        return True

    def _woken(self):
        with contextlib.suppress(BlockingIOError):
            os.read(self.woken, 64)
        if self.stop_by is None:
            notify("STOPPING=1")
            say("a stop was requested")
            self.stop_by = time.monotonic() + (QUIT_SECONDS if self.asked is None else BUSY_SECONDS)
            self.first_thread.end()
            self._write(b"quit\n")

    def _write(self, line):
        with contextlib.suppress(OSError):
            self.child.stdin.write(line)

    def _ask(self, line):
        # the program removes one carriage return, too
        self.asked = line[:-1] if line.endswith("\r") else line
        reply = self.watcher.before(self.asked)
        if reply is None:
            self.first_thread.begin()
            self._write(line.encode("utf-8", "surrogateescape") + b"\n")
        else:
            self._answer(reply.encode())

    def _answer(self, raw):
        """A line of the program. What it means is recorded before an operator can read it."""
        line = raw.decode("utf-8", "replace")
        if not self.is_ready:
            word, _, rest = line.partition(" ")
            self.is_ready = word == "ready"
            if self.is_ready:
                self.watcher.ready(rest)
            else:
                self.fault = rest if word == "refused" else line
                return
        else:
            self.reply.append(line)
            if not (line.startswith("news ") and (self.asked or "").startswith("news ")):
                self.first_thread.end()
                if self.asked is not None:
                    self.watcher.after(self.asked, self.reply)
                self.asked, self.reply = None, []
        self.replies.write(raw + b"\n")

    def _ended(self):
        status = self.child.wait()
        self.child.stdin.close()
        self.child.stdout.close()
        if self.stop_by is not None and status < 0:
            return 0
        if status < 0:
            say(f"the program was ended by the signal {-status}", 3)
            return 128 - status
        return status
