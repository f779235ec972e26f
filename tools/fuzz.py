#!/usr/bin/env python3
"""Feeds the built program octets that are PDUs, almost PDUs or none: through scripts, and over TCP.

    python3 tools/fuzz.py PROGRAM [--count N] [--tcp N] [--seed N] [--first N] [--jobs N] [--keep FOLDER]

Inputs are drawn from good PDUs (those of the worked scripts, and others): whole, cut, with octets replaced, put in or taken out, with lengths that lie,
with optional parameters that lie, joined, or by chance (clients/mutants.py). A piece that one kind gives is one input.

Scripts: --count inputs (1,000,000) in scripts of 2,000 each over one node or three, on many sessions, with settles, ticks, grants and restarts between; in one
of ten scripts a line is bad. Behind each line an enquire_link on a session of its own marks what the line wrote. What must hold: status 0 and nothing on
standard error, or at a bad line status 2 and `bad line K`; each PDU that is written is a good one; each request is answered exactly once, by its response or
a generic_nack with its sequence_number, unless its session is gone; a session is gone after an unbind and a wrong length, and else not.

TCP: --tcp inputs (20,000) in sessions of some 40 bursts at two nodes, three sessions at a time, with fresh stores after each 4,000; what must hold is the
same, a marker is answered within 10 seconds, and a client of its own process (clients/steady.py) sees only right answers meanwhile.

Script or session K draws all its choices from the seed and K: `--seed SEED --first K --count 2000 --tcp 0` plays script K again. A script that fails is written
to --keep. The exit status is 1 if anything failed. It uses the standard library alone, and ends what it started.
"""
import argparse
import collections
import contextlib
import multiprocessing
import pathlib
import random
import signal
import subprocess
import sys
import threading
import time

TOOLS = pathlib.Path(__file__).resolve().parent
sys.path[:0] = [str(TOOLS), str(TOOLS / "clients")]

import pdus
from answers import Stream, check_body, parsed
from centres import PASSWORD, centre, octets_of, program_of, started
from chart_pdus import is_response, name_of
from mutants import Mutants
from plain_esme import Ended, Esme
from script_grammar import is_good_line, spoiled
from steady import DESTINATION, NAME, Steady

A_SCRIPT, A_ROUND = 2_000, 4_000
SCRIPT_SECONDS, MARKER_SECONDS, LAST_SECONDS, PATIENCE = 300, 10, 45, 5
FIRST_MOMENT = 946_684_800
MARKER_SESSION = 99
# As many as a line has room for.
MOST_OCTETS = 9_990
MARKER = pdus.HEADER.pack(16, pdus.ENQUIRE_LINK, 0, 0)[:12]
MARKED = "pdu 1 99 " + pdus.HEADER.pack(16, pdus.ENQUIRE_LINK | pdus.RESPONSE, 0, 0)[:12].hex()
MARKED_LENGTH = len(MARKED) + 8
NODES, PEERS = 2, 3


class Script:
    """A script, what it sends, and whether its output is as it has to be."""

    def __init__(self, seed, number):
        self.random = random.Random(f"script {seed} {number}")
        self.nodes = self.random.choice((1, 1, 3))
        binds = [pdus.bind_body(name, password, version) for name, password in (("sme1", "pw1"), ("sme2", "pw2"), ("sme1", "no")) for version in (0x33, 0x34)]
        ids = [f"{self.random.randint(1, self.nodes)}{life:04d}{serial:05d}" for life in (1, 1, 1, 2) for serial in (1, 2, 3, *range(4, 160, 10))]
        self.mutants, self.ids = Mutants(self.random, binds, ids), ids
        self.sessions = self.random.choice((3, 20, 98))
        self.moment, self.lines, self.steps, self.bad = FIRST_MOMENT, [f"nodes {self.nodes}"], [], None
        self.streams, self.is_restart, self.told = collections.defaultdict(Stream), False, collections.Counter()

    def made(self):
        """Writes its lines."""
        for _ in range(A_SCRIPT):
            self.add_input()
            if self.random.random() < 0.2:
                self.add_other()
        self.add("settle")
        for _ in range(2):
            self.moment += 40
            for node in range(1, self.nodes + 1):
                self.add(f"tick {node} {self.moment}")
            self.add("settle")
        if self.random.random() < 0.1:
            self.spoil()
        return self

    def add(self, line, heard=None):
        """A line, and what it sends if it sends something; then the marker."""
        self.lines += [line, f"pdu 1 {MARKER_SESSION} {MARKER.hex()}{len(self.steps):08x}"]
        self.steps.append((line, heard))

    def add_input(self):
        key = (self.random.randint(1, self.nodes), self.random.randint(1, self.sessions))
        octets = self.mutants.next()[:MOST_OCTETS]
        self.add(f"pdu {key[0]} {key[1]} {octets.hex()}", (key, octets))
        # A long PDU that does not come would swallow many inputs.
        if self.random.random() < 0.02:
            octets = b"\xff" * self.random.choice((16, 8_192))
            self.add(f"pdu {key[0]} {key[1]} {octets.hex()}", (key, octets))

    def add_other(self):
        node, chance = self.random.randint(1, self.nodes), self.random.random()
        if chance < 0.6:
            self.add("settle")
        elif chance < 0.8:
            self.moment += self.random.choice((0, 1, 10, 31, 61))
            self.add(f"tick {node} {self.moment}")
        elif chance < 0.995:
            self.add(f"grant {node} {self.random.choice(self.ids)}")
        else:
            self.add(f"restart {node}")

    def spoil(self):
        """Makes a line bad, if the line that is drawn can be made so."""
        place = self.random.randrange(1, len(self.lines))
        line = spoiled(self.lines[place].encode(), self.random)
        if not is_good_line(line, self.nodes):
            self.bad = place + 1
            self.lines[place] = line
            # The step whose line it is, or whose marker.
            del self.steps[(place - 1) // 2:]

    def octets(self):
        return b"".join((line if isinstance(line, bytes) else line.encode()) + b"\n" for line in self.lines)

    def fault(self, program):
        """What is wrong with a run of it, or None."""
        try:
            run = subprocess.run([program, "script"], input=self.octets(), capture_output=True, timeout=SCRIPT_SECONDS)
        except subprocess.TimeoutExpired:
            return f"it takes more than {SCRIPT_SECONDS} seconds"
        status, said = (0, b"") if self.bad is None else (2, b"bad line %d\n" % self.bad)
        if (run.returncode, run.stderr) != (status, said):
            return f"status {run.returncode}, standard error {run.stderr[:200]}; wanted {status}, {said}"
        try:
            self.judge(run.stdout.decode("ascii").split("\n"))
        except ValueError as found:
            return str(found)
        return None

    def judge(self, lines):
        """ValueError if these lines of output are not as they have to be."""
        if lines.pop() != "":
            raise ValueError("the last line of the output is no whole one")
        place = 0
        for number, (line, heard) in enumerate(self.steps):
            if heard:
                self.streams[heard[0]].hear(heard[1])
            self.is_restart = line.startswith("restart")
            try:
                place = self.judge_step(lines, place, f"{MARKED}{number:08x}")
                self.judge_late(line, heard, number)
            except (ValueError, IndexError) as found:
                raise ValueError(f"line {2 * number + 2}, {line[:80]}: {found}") from found
        # At a bad line its step may have been written, and not its marker.
        if self.bad is None and place != len(lines):
            raise ValueError(f"lines behind the end: {lines[place:place + 3]}")

    def judge_step(self, lines, place, mark):
        while lines[place] != mark:
            self.judge_line(lines[place])
            place += 1
        return place + 1

    def judge_line(self, line):
        words = line.split(" ")
        if words[0] == "pdu" and len(words) == 4:
            pdu = parsed(bytes.fromhex(words[3]))
            self.told[kind_of(pdu)] += 1
            if pdu.command != pdus.DELIVER_SM:
                self.streams[int(words[1]), int(words[2])].told(pdu)
        elif words[0] == "gone" and len(words) == 3:
            stream = self.streams[int(words[1]), int(words[2])]
            if not stream.is_ending and not self.is_restart:
                raise ValueError(f"{line}: nothing ended it")
            stream.begin()
        elif words[0] not in ("refused", "unsettled"):
            raise ValueError(f"a line of output: {line[:80]}")

    def judge_late(self, line, heard, number):
        """What has to be told once this line is through."""
        streams = [self.streams[heard[0]]] if heard else []
        if number == len(self.steps) - 1 and self.bad is None:
            streams = self.streams.values()
            left = [one.pdu for stream in streams for one in stream.owed]
            if left:
                raise ValueError(f"never answered: {left[:3]}")
        for stream in streams:
            if stream.is_ending:
                raise ValueError("it is not gone")
            if late := stream.late():
                raise ValueError(late)


def kind_of(pdu):
    """The name of a PDU, with its command_status if it answers something."""
    name = "generic_nack" if pdu.command == pdus.GENERIC_NACK else name_of(pdu)
    return f"{name} 0x{pdu.status:02x}" if is_response(pdu) else name


def run_script(work):
    """The number of a script, what is wrong with it, or None, how many inputs it had, and what was told."""
    program, seed, number, keep = work
    script = Script(seed, number).made()
    fault = script.fault(program)
    if fault and keep:
        (pathlib.Path(keep) / f"fuzz-{seed}-{number}.script").write_bytes(script.octets())
    return number, fault, sum(1 for _, heard in script.steps if heard), script.told


def begin_worker():
    """Leaves an interrupt to the first process, which ends this one by SIGTERM."""
    signal.signal(signal.SIGINT, signal.SIG_IGN)
    signal.signal(signal.SIGTERM, signal.SIG_DFL)


def run_scripts(program, given):
    """Runs the scripts, and gives how many failed."""
    begun, done, scripts, wrong, all_told = time.monotonic(), 0, 0, 0, collections.Counter()
    last = given.first + -(-given.count // A_SCRIPT)
    works = ((program, given.seed, number, given.keep) for number in range(given.first, last))
    with multiprocessing.Pool(given.jobs, begin_worker) as pool:
        for number, fault, inputs, told in pool.imap_unordered(run_script, works):
            done, scripts, all_told = done + inputs, scripts + 1, all_told + told
            if fault:
                wrong += 1
                print(f"not ok script {number} of seed {given.seed}: {fault}", flush=True)
            if scripts % 100 == 0:
                print(f"   {done:,} inputs in {time.monotonic() - begun:.0f} s", flush=True)
        # Workers end by themselves. One that is ended by a signal may hold what another one waits for.
        pool.close()
        pool.join()
    print(f"   told: {', '.join(f'{count:,} {kind}' for kind, count in all_told.most_common())}")
    print(f"scripts: {done:,} inputs in {scripts:,} scripts, seed {given.seed}, {time.monotonic() - begun:.0f} s: {wrong} wrong", flush=True)
    return wrong


class Peer(Esme):
    """A session over TCP that sends inputs."""

    def __init__(self, port, choices):
        super().__init__(port)
        self.stream, self.choices, self.marker, self.is_marked, self.told = Stream(), choices, 0, False, 0

    def serve(self, pdu):
        check_body(pdu)
        self.told += 1
        if pdu.command == pdus.DELIVER_SM:
            if self.choices.random() < 0.8:
                self.push(pdus.frame(pdu.command | pdus.RESPONSE, pdu.sequence, b"\0", self.choices.choice((0, 0, 0, 0x64, 0x65, 0x66))))
        elif pdu.sequence == self.marker and pdu.command == pdus.ENQUIRE_LINK | pdus.RESPONSE:
            self.is_marked = True
        else:
            self.stream.told(pdu)

    def push(self, octets):
        """Sends what the centre may not read any more, since it has ended the session."""
        with contextlib.suppress(OSError):
            self.send(octets)

    def mark(self):
        """Whether all that was sent before has been served."""
        self.marker, self.is_marked = 0xF0000000 + self.choices.randrange(1 << 24), False
        self.push(pdus.frame(pdus.ENQUIRE_LINK, self.marker))
        return self.wait_for(lambda: self.is_marked, MARKER_SECONDS)

    def wait_for(self, test, seconds):
        """Serves what comes until the test is true; false if it is not in time. Ended if the session ends."""
        end = time.monotonic() + seconds
        while not test():
            if time.monotonic() > end:
                return False
            self.socket.settimeout(0.05)
            with contextlib.suppress(TimeoutError):
                # What is there is left for `take`.
                self.socket.recv(1, 2)
            self.take()
        return True


class Session:
    """One session of inputs."""

    def __init__(self, seed, number, ports):
        self.random = random.Random(f"session {seed} {number}")
        binds = [pdus.bind_body("peer", password, version) for password in (PASSWORD, PASSWORD, "no") for version in (0x33, 0x34)]
        ids = [f"{self.random.randint(1, NODES)}0001{serial:05d}" for serial in (1, 2, 3, *range(4, 400, 10))]
        self.mutants = Mutants(self.random, binds, ids)
        self.port = self.random.choice(ports)
        self.inputs = self.told = 0

    def play(self):
        """What is wrong with it, or None."""
        peer = Peer(self.port, self.random)
        try:
            with contextlib.suppress(ConnectionError):
                self.bursts(peer)
        except Ended:
            if not peer.stream.is_ending:
                return f"it ended by itself, owed {len(peer.stream.owed)}"
        except (ValueError, OSError, IndexError) as fault:
            return f"{type(fault).__name__}: {fault}"
        finally:
            self.told = peer.told
            if self.random.random() < 0.3:
                peer.vanish()
            peer.close()
        return None

    def bursts(self, peer):
        """Bursts of inputs; ValueError if something is not as it has to be, Ended once the centre has ended the session."""
        if self.random.random() < 0.8:
            self.send(peer, self.mutants.frame(pdus.BIND_TRANSCEIVER, self.mutants.binds[1]))
        for _ in range(self.random.randint(1, 80)):
            count = self.random.choice((1, 1, 1, 2, 3, 8))
            self.inputs += count
            self.send(peer, b"".join(self.mutants.next() for _ in range(count)))
            # What has lost its place is led to its end.
            while peer.stream.rest and not peer.stream.is_lost:
                self.send(peer, b"\xff" * (max(0, peer.stream.wanted()) + 8))
            if not peer.mark():
                raise ValueError(f"no answer to a marker within {MARKER_SECONDS} seconds")
            if peer.stream.is_lost or (late := peer.stream.late()):
                raise ValueError("it goes on behind a wrong length" if peer.stream.is_lost else late)
        if self.random.random() < 0.4:
            # What it is owed then is told to nobody, and least of all to the next session that has its number.
            self.send(peer, b"".join(self.mutants.well() for _ in range(8)))
            return
        if not peer.wait_for(lambda: not peer.stream.owed, LAST_SECONDS):
            raise ValueError(f"never answered: {[one.pdu for one in peer.stream.owed][:3]}")

    def send(self, peer, octets):
        """Sends octets in some pieces."""
        peer.stream.hear(octets)
        at = self.random.randrange(len(octets) + 1) if self.random.random() < 0.3 else len(octets)
        peer.push(octets[:at])
        peer.push(octets[at:])


class Round:
    """Sessions against one `serve`, some at a time, until so many inputs were sent."""

    def __init__(self, seed, first, ports, wanted):
        self.seed, self.next, self.ports, self.left = seed, first, ports, wanted
        self.inputs, self.told, self.faults, self.lock = 0, 0, [], threading.Lock()

    def work(self):
        while True:
            with self.lock:
                if self.inputs >= self.left:
                    return
                number, self.next = self.next, self.next + 1
            session = Session(self.seed, number, self.ports)
            fault = session.play()
            with self.lock:
                self.inputs, self.told = self.inputs + session.inputs, self.told + session.told
                if fault:
                    self.faults.append(fault)
                    print(f"not ok session {number} of seed {self.seed}: {fault}", flush=True)

    def run(self):
        workers = [threading.Thread(target=self.work, daemon=True) for _ in range(PEERS)]
        for worker in workers:
            worker.start()
        for worker in workers:
            worker.join()


def run_round(program, seed, first, wanted):
    """A round over fresh stores: it, with the faults of the steady client and of the end of `serve` among its own."""
    accounts = {NAME: DESTINATION, "peer": "1", "other": "2"}
    with centre(program, NODES, accounts, idle_seconds=120, write_seconds=10) as (serving, ports):
        started(serving)
        before, steady = octets_of(serving.process)[0], Steady(ports)
        try:
            played = Round(seed, first, ports, wanted)
            steady.part("fuzz")
            played.run()
            saw = steady.end()
        finally:
            steady.kill()
        late = [seconds for seconds in saw["slowest"].values() if seconds > PATIENCE]
        for fault in (*saw["wrong"], *(f"the steady client waited {seconds:.1f} s" for seconds in late)):
            played.faults.append(fault)
            print(f"not ok steady client beside sessions {first} to {played.next - 1} of seed {seed}: {fault}", flush=True)
        after = octets_of(serving.process)[1] if serving.is_up() else 0
        if serving.end() != 0:
            played.faults.append("the end")
            print(f"not ok end of serve: {serving.said()}", flush=True)
        print(f"   {played.inputs:,} inputs, {played.told:,} PDUs told; the steady client: {saw['answers']:,} answers, the slowest after "
              f"{max(saw['slowest'].values()):.2f} s; memory {before / 1e6:.1f} MB, at most {after / 1e6:.1f} MB; {serving.lines[-1]}", flush=True)
        return played


def run_tcp(program, given):
    """Rounds until all inputs were sent; how many faults there were."""
    begun, inputs, number, faults = time.monotonic(), 0, given.first, 0
    while inputs < given.tcp:
        played = run_round(program, given.seed, number, min(A_ROUND, given.tcp - inputs))
        inputs, number, faults = inputs + played.inputs, played.next, faults + len(played.faults)
    if given.tcp:
        print(f"TCP: {inputs:,} inputs in {number - given.first:,} sessions, seed {given.seed}, {time.monotonic() - begun:.0f} s: {faults} wrong", flush=True)
    return faults


def main():
    reader = argparse.ArgumentParser(description=__doc__, formatter_class=argparse.RawDescriptionHelpFormatter)
    reader.add_argument("program", metavar="PROGRAM")
    reader.add_argument("--count", type=int, default=1_000_000)
    reader.add_argument("--tcp", type=int, default=20_000)
    reader.add_argument("--seed", type=int, default=random.randrange(1_000_000))
    reader.add_argument("--first", type=int, default=1)
    reader.add_argument("--jobs", type=int, default=2)
    reader.add_argument("--keep", metavar="FOLDER")
    given = reader.parse_args()
    program = program_of(given.program)
    print(f"seed {given.seed}", flush=True)
    wrong = run_scripts(program, given) if given.count else 0
    wrong += run_tcp(program, given)
    sys.exit(1 if wrong else 0)


if __name__ == "__main__":
    main()
