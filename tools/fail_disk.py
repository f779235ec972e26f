#!/usr/bin/env python3
"""Lets the disk of `centre serve` fail or be full under load, again and again, and looks whether all that its clients were told stays true.

    python3 tools/fail_disk.py PROGRAM [--faults N] [--a-store N] [--seconds N] [--seed N] [--first N] [--only WAY] [--keep]

PROGRAM is the built program. It serves three nodes over files, with the clients of tools/kill.py. At a random moment under load, after --seconds (1) at most,
the disk begins to fail: by turns for some milliseconds, and for good. That happens N times in all (200), and stores are fresh after each --a-store (10) of
them. One store fails in one way, the next in the other:

    long    no file of `serve` may be longer than so many octets: a write behind that fails, and one across it is cut short (`prlimit`)
    full    the stores lie in a small file system in memory, in which another file takes the room that is left, or all but a few pages of it. It needs root

What must hold, besides what tools/kill.py asks of all that clients read in all lives of a store:

    goes on    `serve` serves on, and each node whose store failed has started anew; or it ended by itself, with status 1, and its last line says of which node
               the store failed
    plain      on standard error stand no lines but those that docs/OPERATING.md has
    in order   if it serves on, all messages are queried in this life, too, and it ends with status 0

Then the disk is well, `serve` is started again over the same stores, and all messages are queried. The exit status is 1 if something did not hold.
"""
import contextlib
import pathlib
import re
import resource
import subprocess
import sys
import time

sys.path.insert(0, str(pathlib.Path(__file__).resolve().parent / "clients"))

from centres import STORES
from kill import END_SECONDS, Store, play_stores, reader_of, serve_ready
from plain_esme import Ended
from serving import LINES

FAILED = re.compile(r"node (\d+): its store failed; it starts anew")
ANEW = re.compile(r"node (\d+): started anew, incarnation \d+")
LOST = re.compile(r"node (\d+) can't be started anew: its store failed")
PLAIN = [*LINES, FAILED, LOST]
# The room of the small file system, and its pages, in octets.
ROOM, PAGE = 24_000_000, 4096
# For how many seconds a fault lasts that passes, at most, and one that does not; for how long the load goes on behind it; and in what time a node starts anew.
PASSES, STAYS, BEHIND, SETTLES = 0.3, 8, 0.7, 60


class Long:
    """No file of the process may be longer than so many octets."""

    def __init__(self, choices, serving):
        self.process = serving.process.pid
        longest = max(one.stat().st_size for one in (serving.folder / STORES).iterdir())
        self.octets = choices.randint(0, longest + PAGE)

    def set(self, octets):
        with contextlib.suppress(ProcessLookupError):
            resource.prlimit(self.process, resource.RLIMIT_FSIZE, (octets, resource.RLIM_INFINITY))

    def begin(self):
        self.set(self.octets)

    def end(self):
        self.set(resource.RLIM_INFINITY)

    @staticmethod
    @contextlib.contextmanager
    def prepared(serving):
        """Without the signal a process is told of such a write as of any other that fails."""
        serving.command = ["env", "--ignore-signal=XFSZ", *serving.command]
        yield


class Full:
    """No room is left in the file system of the stores, or that of a few pages."""

    def __init__(self, choices, serving):
        self.ballast, self.left = serving.folder / STORES / "ballast", choices.choice((0, 0, 1, 4, 20)) * PAGE

    def begin(self):
        with open(self.ballast, "wb", buffering=0) as ballast:
            for octets in (256 * PAGE, PAGE):
                with contextlib.suppress(OSError):
                    while ballast.write(bytes(octets)):
                        pass
            ballast.truncate(max(0, ballast.tell() - self.left))

    def end(self):
        self.ballast.unlink(missing_ok=True)

    @staticmethod
    @contextlib.contextmanager
    def prepared(serving):
        """The folder of the stores has a file system of its own."""
        stores = str(serving.folder / STORES)
        subprocess.run(["mount", "-t", "tmpfs", "-o", f"size={ROOM}", "tomveul", stores], check=True)
        try:
            yield
        finally:
            serving.kill()
            subprocess.run(["umount", stores], check=True)


WAYS = {"long": Long, "full": Full}


class Failing(Store):
    """The lives of `serve` over one set of stores whose disk fails."""

    def __init__(self, number, given, serving, ports):
        super().__init__(number, given, serving, ports)
        names = [given.only] if given.only else list(WAYS)
        self.name = names[number % len(names)]

    def play(self, count):
        with WAYS[self.name].prepared(self.serving):
            for self.life in range(count):
                self.start()
                self.check(False)
                self.fail(stays=self.life % 2 == 1)
            self.life = count
            self.start()
            self.check(True)
            self.end_in_order()

    def fail(self, stays):
        """One fault of the disk under load, and what `serve` makes of it."""
        fault = WAYS[self.name](self.random, self.serving)
        begins = time.monotonic() + self.random.uniform(0.02, self.given.seconds)
        self.load(lambda: time.monotonic() < begins)
        fault.begin()
        try:
            ends = time.monotonic() + (STAYS if stays else self.random.uniform(0.001, PASSES))
            self.load(lambda: time.monotonic() < ends)
        finally:
            fault.end()
        ends = time.monotonic() + BEHIND
        self.load(lambda: time.monotonic() < ends)
        self.look(f"{self.name}, a fault that {'stays' if stays else 'passes'}")

    def look(self, what):
        """What `serve` said, and whether it goes on or ended as it has to."""
        end = time.monotonic() + SETTLES
        while self.serving.is_up() and not self.failed() <= self.named(ANEW) and time.monotonic() < end:
            serve_ready(self.senders + self.getters, 0.05)
        try:
            is_up = self.serving.is_up() and self.goes_on()
        except Ended:
            is_up = False
        if is_up:
            self.count(f"{what}: {'nodes started anew' if self.failed() else 'no store failed'}")
            self.end_in_order()
        else:
            self.ended_by_itself(what)
        for line in self.said():
            if not any(one.fullmatch(line) for one in PLAIN):
                self.told.fault(f"it said: {line}")

    def goes_on(self):
        """It goes on, and so it answers for all messages; `Ended` if it ends meanwhile, since a node starts anew once what it delivers is answered."""
        self.check(False)
        if not self.failed() <= self.named(ANEW):
            self.told.fault(f"nodes {self.failed()} failed, and {self.named(ANEW)} started anew")
        return self.serving.is_up()

    def ended_by_itself(self, what):
        self.count(f"{what}: it ended")
        self.close()
        self.serving.kill()
        if self.serving.process.returncode != 1 or not LOST.fullmatch(self.said()[-1]):
            self.told.fault(f"it ended by itself: {self.serving.said()}")

    def failed(self):
        """The nodes whose stores failed in this life."""
        return self.named(FAILED)

    def named(self, line):
        return {found[1] for said in self.said() if (found := line.fullmatch(said))}

    def end_in_order(self):
        self.close()
        if self.serving.end(END_SECONDS) != 0:
            self.told.fault(f"it did not end in order: {self.serving.said()}")

    def count(self, what):
        self.told.counts[what] += 1

    def said(self):
        """The lines of this life."""
        return self.serving.lines[self.serving.first:]


def main():
    reader = reader_of(__doc__, 1.0)
    reader.add_argument("--faults", type=int, default=200)
    reader.add_argument("--only", choices=WAYS)
    given = reader.parse_args()
    play_stores(given, given.faults, "faults", Failing)


if __name__ == "__main__":
    main()
