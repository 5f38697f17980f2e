"""Lets requests go before installs and syncs.

The first thread of the program runs the console, with all installs and syncs; the other threads
answer requests. While the first thread works on a line of the console, it gets the scheduling
policy SCHED_IDLE. So a thread with a request need not wait until its time slice is over. Where
requests leave no processor time, the policy ends after a second: they delay an install, and do not
stop it.

Linux and Python's standard library only.
"""

import contextlib
import os
import time

# How long a line of the console lets requests go first, in seconds.
YIELDING_SECONDS = 1.0


def can_return():
    """Whether a process may leave SCHED_IDLE again. It needs CAP_SYS_NICE, or a limit RLIMIT_NICE
    of at least 20. A child tries it, since a process without the right keeps the policy."""
    child = os.fork()
    if child == 0:
        status = 1
        with contextlib.suppress(OSError, AttributeError):
            for policy in (os.SCHED_IDLE, os.SCHED_OTHER):
                os.sched_setscheduler(0, policy, os.sched_param(0))
            status = 0
        os._exit(status)
    status = os.waitpid(child, 0)[1]
    return os.WIFEXITED(status) and os.WEXITSTATUS(status) == 0


class FirstThread:
    """The first thread of a program that was started by this process."""

    def __init__(self, pid, is_allowed):
        self.pid, self.is_allowed = pid, is_allowed
        # until when it yields, by the monotonic clock, or None
        self.until = None

    def _set(self, policy):
        # the number of a process stands for its first thread only
        with contextlib.suppress(OSError):
            os.sched_setscheduler(self.pid, policy, os.sched_param(0))

    def begin(self):
        """A line of the console begins."""
        if self.is_allowed:
            self._set(os.SCHED_IDLE)
            self.until = time.monotonic() + YIELDING_SECONDS

    def look(self):
        """Ends the policy where its time is over."""
        if self.until is not None and time.monotonic() >= self.until:
            self.end()

    def end(self):
        """The line was answered, or takes long."""
        if self.until is not None:
            self._set(os.SCHED_OTHER)
            self.until = None
