#!/usr/bin/env python3
"""Starts a server of this system's time zones: packs a release, proves and builds the program, and
serves.

    tools/start.py                       proves first, which takes long; what is proved is kept
    tools/start.py --look                serves after two minutes, compiled and not proved
    tools/start.py --address 127.0.0.1:9000 --workers 4 --release DIR

Each step is done only where its result is missing: the release in `release/`, and the program in
`crates/tzdistd/out/`. It is proved in a temporary copy of 2 GB, in the folder that TMPDIR names.
Lines that are typed go to the server's console. Ctrl-C, SIGTERM and `quit` end the server in order,
and its status is the script's.

Python's standard library only.
"""

import argparse
import os
import signal
import subprocess
import sys
import threading
from pathlib import Path

from builds import TOP, BuildFailed, compiled_program, proved_program, say

ZONEINFO = Path("/usr/share/zoneinfo")
# How long the server may take to end after the request for that, in seconds.
TIME_TO_END = 20


class NotStarted(Exception):
    """The server could not be started: what was seen, and what to do about it."""


def release_in(folder, zoneinfo):
    """A folder with a release, which is packed from a tree of zone files where there is none."""
    if (folder / "manifest.json").is_file():
        say(f"The release in {folder} is there already.")
        return folder
    if not zoneinfo.is_dir():
        raise NotStarted(f"{zoneinfo} does not exist: install tzdata, or give a release with --release")
    say(f"Packing the zone files of {zoneinfo} into {folder}.")
    words = [sys.executable, str(TOP / "tools" / "pack_zoneinfo.py"), str(zoneinfo), str(folder)]
    if subprocess.run(words, stdout=subprocess.DEVNULL).returncode:
        raise NotStarted(f"the release was not packed, for the reason above: {folder} must be a new folder")
    return folder


def program_for(given):
    """The program to start: the one that was named, the compiled one, or the proved one."""
    if given.program:
        if not os.access(given.program, os.X_OK):
            raise NotStarted(f"{given.program} is no program that can be started: give the built tzdistd")
        return given.program
    return compiled_program() if given.look else proved_program(given.jobs)


def say_what_to_do(address, look):
    """Prints what can be done with the server."""
    say(f"The server is ready at http://{address}/tzdist/. In another terminal:")
    say(f"    curl 'http://{address}/tzdist/zones?pattern=*lisbon'   # look for a zone")
    say(f"    curl http://{address}/tzdist/zones/Europe%2FLisbon   # a zone as a calendar")
    say(f"    python3 tools/fetch_zoneinfo.py http://{address} ../zoneinfo   # a device's tree of zones")
    say("Here, `status` prints what is served, and `install DIR` adds a release. Ctrl-C ends the server.")
    if look:
        say(
            "This program is compiled with checks at run time, and is NOT proved. "
            "The same command without --look proves it first."
        )


class Server:
    """A running server whose console is forwarded to and from this terminal."""

    def __init__(self, program, address, workers, release):
        words = [str(program), "serve", address, str(workers), str(release)]
        pipe = subprocess.PIPE
        # a session of its own: Ctrl-C reaches this script only, which ends the server in order
        self.child = subprocess.Popen(words, stdin=pipe, stdout=pipe, start_new_session=True)
        self.writing = threading.Lock()

    def first_line(self):
        """The first line of the console: `ready` and a token, or why the server did not start."""
        return self.child.stdout.readline().decode("ascii", "replace").strip()

    def write(self, line):
        """Writes a line to the console; a server that has ended takes none."""
        with self.writing:
            try:
                self.child.stdin.write(line)
                self.child.stdin.flush()
            except (BrokenPipeError, ValueError):
                pass

    def forward_input(self):
        """Forwards what is typed. A terminal's end of input ends the server, a file's does not."""
        # by the system's call: a buffered reader that waits would abort the end of this script
        held = b""
        while (piece := os.read(sys.stdin.fileno(), 65_536)):
            *lines, held = (held + piece).split(b"\n")
            for line in lines:
                self.write(line + b"\n")
        if held:
            self.write(held + b"\n")
        if os.isatty(sys.stdin.fileno()):
            self.write(b"quit\n")

    def print_replies(self):
        for line in self.child.stdout:
            say(line.decode("ascii", "replace").rstrip("\n"))

    def ended(self):
        """Waits for the end of the server, and returns its status."""
        try:
            return self.child.wait(TIME_TO_END)
        except subprocess.TimeoutExpired:
            self.child.kill()
            self.child.wait()
            raise NotStarted(f"the server had not ended {TIME_TO_END} seconds after it was asked to") from None


def serve(program, given, release):
    """Serves until the console is over, and returns the server's status."""
    server = Server(program, given.address, given.workers, release)
    first = server.first_line()
    if not first.startswith("ready "):
        status = server.ended()
        raise NotStarted(
            f"the server ended with status {status}: {first or 'see the line above'}. "
            "README.md says what each status means; another --address helps where it is taken."
        )
    for number in (signal.SIGINT, signal.SIGTERM):
        signal.signal(number, lambda *_: threading.Thread(target=server.write, args=(b"quit\n",)).start())
    say(first)
    say_what_to_do(given.address, given.look)
    threading.Thread(target=server.forward_input, daemon=True).start()
    server.print_replies()
    return server.ended()


def words():
    flags = argparse.ArgumentParser(
        description="Starts a server of this system's time zones.",
        epilog="example: tools/start.py --look --address 127.0.0.1:9000",
    )
    flags.add_argument("--look", action="store_true", help="compile only, without proofs: two minutes")
    flags.add_argument("--release", type=Path, default=TOP / "release", metavar="DIR",
                       help="the release to serve; packed where it is not there (default: release/)")
    flags.add_argument("--zoneinfo", type=Path, default=ZONEINFO, metavar="TREE",
                       help=f"the zone files to pack (default: {ZONEINFO})")
    flags.add_argument("--address", default="127.0.0.1:8008", metavar="HOST:PORT",
                       help="where to serve (default: 127.0.0.1:8008)")
    flags.add_argument("--workers", type=int, default=2, metavar="N",
                       help="threads that answer, 1 to 64 (default: 2)")
    flags.add_argument("--jobs", type=int, metavar="N",
                       help="crates to prove at once (default: by processors and memory)")
    flags.add_argument("--program", type=Path, metavar="FILE", help="start this built tzdistd")
    given = flags.parse_args()
    if not 1 <= given.workers <= 64:
        flags.error("--workers is a number from 1 to 64")
    if given.jobs is not None and given.jobs < 1:
        flags.error("--jobs is a number from 1")
    given.release = given.release.resolve()
    return given


def main():
    given = words()
    signal.signal(signal.SIGTERM, signal.default_int_handler)
    try:
        release = release_in(given.release, given.zoneinfo.resolve())
        program = program_for(given)
        return serve(program, given, release)
    except (BuildFailed, NotStarted) as fault:
        print(f"start.py: {fault}", file=sys.stderr)
        return 1
    except KeyboardInterrupt:
        print("start.py: stopped; what is proved so far is kept", file=sys.stderr)
        return 130


if __name__ == "__main__":
    sys.exit(main())
