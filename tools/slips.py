#!/usr/bin/env python3
"""Uses `centre serve` as an operator does who slips, under a clock that steps, over pipes that are full, and with a reader that rests.

    python3 tools/slips.py PROGRAM [--only PART ..] [--long] [--keep]

PROGRAM is the built program. Each part starts it over files of its own, in three nodes but for some of the stores:

    slow_reader         an ESME asks and does not read, until what is written to it stands still or nearly so; a message for it is taken, its attempt given up,
                        and the message cancelled: once it reads on, no deliver_sm comes that cannot have been written before
    refused_submits     of a node with sixty serials a hundred submit_sm are refused: it does not start anew, and thirty good ones get serials one after another
    taken_port          somebody has the port of node 2: each of twenty starts (a hundred with --long) says so, ends, and uses up no incarnation
    clock               the system's clock alone goes back by an hour for two minutes, then ahead by thirty days for five seconds (needs Debian's faketime)
    silent_log          nobody reads standard error, and its pipe is full: binds and answers go on, and what was left out is told to who reads later
    closed_descriptors  serve is started without standard input, output or error: no connection and no store gets one of their numbers, an ESME reads PDUs alone,
                        no store has a line of the log, and it starts again
    ends                sessions end in each way that one peer alone can bring about, and a bind is refused: a line tells who ended it, whose it was, and
                        from where
    stores              a store is missing (also one that no other names), empty, older, another node's or two nodes' own, its key is misspelled, or there are
                        fewer or more nodes than before: each start is refused by status 1 and one line that names node and file, and no file is changed; a
                        start is killed between two stores; stores of an earlier program go on; files and memory together start once
    threads             the user of serve may start few more threads: who is bound goes on, and somebody new once others have gone (needs root)
    memory              serve may take no more memory: it says so and goes on, and once it may again everybody is served, and knows each message that was taken

It prints `ok NAME` or `not ok NAME: SEEN` for each check, `left out: ..` for what this machine lacks, figures in lines that begin with spaces, and at last
`N checks, M wrong`; the exit status is 1 if any is wrong. It takes some six minutes, uses the standard library alone, and ends what it started.
"""
import argparse
import contextlib
import fcntl
import hashlib
import os
import pathlib
import re
import resource
import shutil
import socket
import struct
import subprocess
import sys
import termios
import threading
import time
from typing import Callable, NamedTuple

sys.path.insert(0, str(pathlib.Path(__file__).resolve().parent / "clients"))

import pdus
from centres import PASSWORD, STORES, bound, centre, configuration, program_of, started
from checks import Checks
from kill import Client, serve_ready
from plain_esme import Ended, Esme, wait
from ports import free_ports, is_open
from serving import SERVING, Serving, without_moment

NODES, START_SECONDS, END_SECONDS = 3, 20, 30
ACCOUNTS = {"sender": "9", "getter": "1", "absent": "2"}

# slow_reader: how many enquire_links come before the message. First so many that what is written stands still; then as many as the system took answers of, and
# so many more. An attempt is given up after 30 seconds; the next one is due a minute later.
AMOUNTS = (None, 400, 40, 12, 2, 0, -2, -40, -1000)
GIVEN_UP_SECONDS, CANCEL_SECONDS, READ_SECONDS, STILL_SECONDS = 36, 60, 10, 1
ENQUIRE_LINKS, MOST_PUSHED = pdus.frame(pdus.ENQUIRE_LINK, 1) * 500, 64_000_000
# What the message has at least, so that its deliver_sm cannot have been written if fewer octets were.
LARGE = 6_900
# The connections of this machine, with the octets that wait at each end.
CONNECTIONS = pathlib.Path("/proc/net/tcp")

# refused_submits: the first serial, how many there are then, and what is refused with which status. Once half of the serials are left a node starts anew.
FIRST_SERIAL, GOOD, BAD, SETTLE_SECONDS = 99_940, 30, 100, 3
REFUSED = ((0x07, {"registered": 3}), (pdus.INVALID_DESTINATION, {"destination": "5"}), (0x61, {"schedule": "soon"}), (0x62, {"validity": "late"}))
ANEW = re.compile(r"node \d+: (it has few message_ids left; it starts anew|started anew, incarnation \d+)")

# clock: in what time a message comes that is scheduled so; how long the clock is back, and ahead.
LIBRARIES, FAKETIME, CLOCK = pathlib.Path("/usr/lib"), "*/faketime/libfaketimeMT.so.1", re.compile(r"clock: .+")
SOON, SOON_SECONDS, BACK_SECONDS, AHEAD_SECONDS, TICK_SECONDS = "000000000020000R", 40, 120, 5, 12

# silent_log: the size of the pipe, and how many connections have more lines than may wait; and what is said of those that were left out.
PIPE, LOGGED, TOLD_SECONDS, LOST = 4096, 1000, 10, re.compile(r"log: \d+ lines were not told")

# closed_descriptors: what is closed, in the words of a shell; and what is in lines of the log alone.
STANDARD, HARMLESS = range(3), re.compile(r"/dev/null|pipe:\[\d+\]|/.+/serve\.out")
CLOSED = {"all": "<&- >&- 2>&-", "input_and_output": "<&- >&-", "error": "2>&-"}
LOG_WORDS = (b"listens on", b"serving:", b"connected from", b"bound as")

# stores: how long after its first file a start is killed; the stores of an earlier program; and what is said of a node in memory beside others in files.
PAUSES = (0, 0, 0, 0.001, 0.002, 0.005, 0.01, 0.02)
EARLIER = pathlib.Path(__file__).resolve().parent.parent / "crates" / "earlier_stores" / "data"
EARLIER_NAMES = ("one_of_three", "two_of_three", "three_of_three")
MIXED = re.compile(r"warning: node 2 keeps its records in memory, .*")

# ends: after how many seconds a session ends on which nothing comes, or nobody binds.
IDLE_SECONDS, BIND_SECONDS = 4, 2

# threads: the user that serves and does nothing else, how many more threads it may start, how many bind then, and in what time their threads end.
USER, MORE_THREADS, BINDS, GONE_SECONDS = 54_321, 45, 6, 3

# memory: how many octets more than it has it may take, and how many long messages are tried in vain to use them up; and what it says then.
MORE_OCTETS, LONG, LONG_MESSAGES, WANT_SECONDS = 1_000_000, b"x" * 4_000, 5_000, 10
WANT = re.compile(r"memory: \d+ times there was not enough for what was asked for")


class Deaf(Client):
    """It reads when it is told to, answers no deliver_sm, and notes how long each is."""

    def __init__(self, port):
        super().__init__(port, receive_buffer=4096, segment=536)
        self.status, self.lengths = None, []

    def serve(self, pdu):
        if pdu.command == pdus.DELIVER_SM:
            self.lengths.append(pdus.HEADER.size + len(pdu.body))
        super().serve(pdu)

    def held(self):
        """How many octets the system holds that the centre wrote here and nobody has read: what its end still sends, and what came to this one."""
        here, there = (f"0100007F:{name[1]:04X}" for name in (self.socket.getsockname(), self.socket.getpeername()))
        queues = {(words[1], words[2]): words[4].split(":") for words in map(str.split, CONNECTIONS.read_text().splitlines())}
        sent, came = queues.get((there, here), ("0", "0"))[0], queues.get((here, there), ("0", "0"))[1]
        return int(sent, 16) + int(came, 16)

    def still(self, wanted=-1):
        """What the system holds, once that is as much as is wanted, or stays the same for a second: what was not acknowledged yet counts at both ends."""
        held, since = self.held(), time.monotonic()
        while held != wanted and time.monotonic() < since + STILL_SECONDS:
            time.sleep(0.02)
            if (now := self.held()) != held:
                held, since = now, time.monotonic()
        return held

    def flood(self, octets):
        """Sends enquire_links of so many octets, or until their answers, of as many octets, are written no more: what the system holds then."""
        sent = held = 0
        while sent < octets and held == sent:
            piece = ENQUIRE_LINKS[:octets - sent]
            sent += self.push_unread(piece, len(piece))[0]
            held = self.still(sent)
        return self.still()


class Unread(Serving):
    """Its lines are read until it serves, and no further."""

    def read(self, process):
        fcntl.fcntl(process.stderr, fcntl.F_SETPIPE_SZ, PIPE)
        for line in process.stderr:
            self.lines.append(without_moment(line.rstrip("\n")))
            if SERVING.fullmatch(self.lines[-1]):
                return

    def read_on(self):
        self.reader = threading.Thread(target=super().read, args=(self.process,), daemon=True)
        self.reader.start()


class Case(NamedTuple):
    """A message to a deaf ESME, and what the system held for that before it was submitted."""
    name: str
    deaf: Deaf
    held: int
    message_id: str


# What an operator does to the stores, or to the configuration over them; `older` has the stores of a moment before the messages.

def files_of(stores, node):
    return list(stores.glob(f"{node}.db*"))


def miss(serving, _):
    for path in files_of(serving.folder / STORES, 2):
        path.unlink()


def miss_unnamed(serving, older):
    put_back(older, serving.folder / STORES)
    miss(serving, older)


def empty(serving, older):
    miss(serving, older)
    (serving.folder / STORES / "2.db").touch()


def put_older(serving, older):
    miss(serving, older)
    for path in files_of(older, 2):
        shutil.copy(path, serving.folder / STORES)


def exchange(serving, _):
    stores = serving.folder / STORES
    for path in files_of(stores, 2) + files_of(stores, 3):
        path.rename(path.with_name(f"new{5 - int(path.name[0])}{path.name[1:]}"))
    for path in list(stores.glob("new*")):
        path.rename(path.with_name(path.name.removeprefix("new")))


def share(serving, _):
    reword(serving, "/2.db", "/3.db")


def misspell(serving, _):
    stores = serving.folder / STORES
    reword(serving, f'store = "{stores}/2.db"', f'stor = "{stores}/2.db"')


def count_one(serving, _):
    configure(serving, 1)


def count_four(serving, _):
    configure(serving, 4)


def reword(serving, old, new):
    """Puts other words into the configuration."""
    config = serving.folder / "centre.toml"
    text = config.read_text()
    if old not in text:
        raise ValueError(f"the configuration has no {old}")
    config.write_text(text.replace(old, new))


def configure(serving, nodes):
    """A configuration of so many nodes over the same stores."""
    (serving.folder / "centre.toml").write_text(configuration(serving.folder / STORES, free_ports(nodes), ACCOUNTS, {}))


class Slip(NamedTuple):
    """What is done to the stores or to the configuration, and what the one line of `serve` has to name: one of these nodes, and the file or the key."""
    does: Callable
    nodes: str
    file: str = r"\d\.db"


SLIPS = {
    "missing": Slip(miss, "2", r"2\.db"),
    "missing_and_unnamed": Slip(miss_unnamed, "2", r"2\.db"),
    "empty": Slip(empty, "2", r"2\.db"),
    "older": Slip(put_older, "2", r"2\.db"),
    "exchanged": Slip(exchange, "23"),
    "shared": Slip(share, "23", r"3\.db"),
    "misspelled": Slip(misspell, "2", "`store`"),
    "three_made_one": Slip(count_one, "123"),
    "three_made_four": Slip(count_four, "1234"),
}


class Way(NamedTuple):
    """What a peer does on its connection, what is told of it, whose it was, and how long the peer waits for that."""
    does: Callable
    words: str
    whose: str = "sender"
    seconds: float = 0


def bind(esme, name="sender"):
    esme.bind(name, PASSWORD)


def unbind(esme):
    bind(esme)
    esme.ask(pdus.UNBIND)


def send_half(esme):
    bind(esme)
    esme.send(pdus.frame(pdus.ENQUIRE_LINK, 2)[:10])


def send_short(esme):
    bind(esme)
    esme.send(struct.pack(">I", 5))


def reset(esme):
    bind(esme)
    esme.vanish()


def refuse_request(esme):
    bind(esme)
    esme.answer(esme.submit(destination="5", short_message=b"nowhere"))


ENDS = {
    "unbound": Way(unbind, "ended: unbound"),
    "closed": Way(bind, "ended: closed by the ESME"),
    "cut_short": Way(send_half, "ended: closed by the ESME within a PDU"),
    "reset": Way(reset, "ended: the connection failed"),
    "wrong_length": Way(send_short, "ended: closed by the centre: a wrong command_length", seconds=TOLD_SECONDS),
    "idle": Way(bind, "ended: closed by the centre: it was idle", seconds=TOLD_SECONDS),
    "not_bound": Way(lambda esme: None, "ended: closed by the centre: nobody bound in time", "not bound,", TOLD_SECONDS),
    "bind_refused": Way(lambda esme: bind(esme, "nobody"), "bind_transceiver refused with 0x0f, system_id nobody", "not bound,"),
    "request_refused": Way(refuse_request, "submit_sm refused with 0x0b"),
}


def digests(stores):
    """What each file of a folder holds, in short."""
    return {path.name: hashlib.sha256(path.read_bytes()).hexdigest() for path in stores.iterdir()}


def put_back(backup, stores):
    shutil.rmtree(stores)
    shutil.copytree(backup, stores)


def kill_at_first_file(serving, pause):
    """Kills a start so many seconds after the first file of a store appears."""
    end, stores = time.monotonic() + START_SECONDS, serving.folder / STORES
    while (serving.process is None or not any(stores.iterdir())) and time.monotonic() < end:
        pass
    time.sleep(pause)
    if serving.process is not None:
        serving.process.kill()


class Slips:
    """The parts, a method each."""

    def __init__(self, given, checks):
        self.given, self.check = given, checks.check

    def centre(self, accounts=None, **how):
        return centre(self.given.program, NODES, accounts or ACCOUNTS, self.given.keep, **how)

    def ids(self, ports, text, **fields):
        """A message is submitted at each node: their ids."""
        found = []
        for port in ports:
            with bound(port, "sender", pdus.BIND_TRANSMITTER) as esme:
                found.append(esme.submitted("2", text, registered=0, **fields))
        return found

    def ended(self, serving, pattern):
        """Starts it, which has to end by itself with status 1 and one line of this pattern: nothing, or what it did."""
        serving.start(START_SECONDS)
        is_up = serving.is_up()
        serving.kill()
        lines, status = serving.lines[serving.first:], serving.process.returncode
        return None if not is_up and status == 1 and len(lines) == 1 and pattern.fullmatch(lines[0]) else f"up {is_up}; {serving.said()}"

    def served(self, port):
        """Whether somebody is bound there and a message taken, and nothing else comes; and what was seen."""
        try:
            with Esme(port) as esme:
                found = esme.bind("sender", PASSWORD)
                sent = found and found.status == pdus.OK and esme.submitted("2", b"served", registered=0)
                esme.wait(lambda: False, 0.5)
                return sent and not esme.buffer and not esme.answers, (found, sent, esme.answers, bytes(esme.buffer[:80]))
        except (Ended, OSError, ValueError) as fault:
            return False, f"{type(fault).__name__}: {fault}"

    def left_out(self, lack):
        print(f"left out: {lack}", flush=True)

    # A reader that rests.

    def slow_reader(self):
        accounts = {"sender": "9", **{f"deaf{place}": f"1{place}" for place in range(len(AMOUNTS))}}
        with self.centre(accounts) as (serving, ports), contextlib.ExitStack() as stack:
            started(serving)
            sender = stack.enter_context(bound(ports[0], "sender", pdus.BIND_TRANSMITTER))
            cases, most = [], 0
            for place, more in enumerate(AMOUNTS):
                deaf = stack.enter_context(bound(ports[1], f"deaf{place}", kind=Deaf))
                held = deaf.flood(MOST_PUSHED if more is None else most + 16 * more)
                most = most if more is not None else held
                sent = sender.submitted(f"1{place}", b"slow", [(pdus.USER_MESSAGE_REFERENCE, bytes(LARGE))], registered=0)
                cases.append(Case("all" if more is None else f"{more:+}", deaf, held, sent))
            self.check("slow_reader_messages_are_taken", all(case.message_id for case in cases), lambda: [case.message_id for case in cases])
            time.sleep(GIVEN_UP_SECONDS)
            written = [self.cancelled(sender, case) for case in cases]
            self.read_on([case.deaf for case in cases])
            unwritten = [self.judge(case, octets) for case, octets in zip(cases, written)]
            self.check("slow_reader_some_cannot_be_written", sum(unwritten) >= 3, unwritten)

    def cancelled(self, sender, case):
        """Cancels the message, again each second as long as an attempt may be open: how many octets were written since before it was submitted."""
        end = time.monotonic() + CANCEL_SECONDS
        while (status := sender.cancel(case.message_id)) == pdus.CANCEL_FAILED and time.monotonic() < end:
            time.sleep(1)
        state = sender.state(case.message_id)[2]
        self.check(f"slow_reader_cancelled_{case.name}", (status, state) == (pdus.OK, pdus.DELETED), (status, state))
        return case.deaf.held() - case.held

    def read_on(self, deafs):
        end = time.monotonic() + READ_SECONDS
        while time.monotonic() < end and serve_ready(deafs, 0.1):
            pass

    def judge(self, case, written):
        """Looks at what came; whether the deliver_sm cannot have been written before the message was cancelled."""
        came, end = case.deaf.lengths, "the connection ended" if case.deaf.is_ended else "the connection stands"
        print(f"   {case.name}: {case.held:,} octets were held, and {written:,} more at the cancel; {len(came)} deliver_sm came, {end}", flush=True)
        self.check(f"slow_reader_nothing_late_{case.name}", all(length <= written for length in came), (came, written))
        return written < LARGE

    # Requests that are refused, and a port that is taken.

    def refused_submits(self):
        with self.centre() as (serving, ports):
            config = serving.folder / "centre.toml"
            config.write_text(f"first_serial = {FIRST_SERIAL}\n{config.read_text()}")
            started(serving)
            with bound(ports[0], "sender", pdus.BIND_TRANSMITTER) as esme:
                wrong = [self.refused(esme, *REFUSED[number % len(REFUSED)]) for number in range(BAD)]
                self.check("refused_submits_are_refused", not any(wrong), lambda: [one for one in wrong if one][:3])
                esme.wait(lambda: serving.says(ANEW), SETTLE_SECONDS)
                self.check("refused_submits_start_nothing_anew", not serving.says(ANEW), serving.said)
                ids = [esme.submitted("2", b"good", registered=0) for _ in range(GOOD)]
            wanted = [f"10001{FIRST_SERIAL + place}" for place in range(GOOD)]
            self.check("refused_submits_leave_serials", ids == wanted, ids)

    def refused(self, esme, status, fields):
        """Nothing, if such a submit_sm is refused with this status; else the answer."""
        found = esme.answer(esme.submit(**{"destination": "2", "short_message": b"bad", **fields}))
        return None if found and found.status == status else (status, found)

    def taken_port(self):
        starts = 100 if self.given.long else 20
        with self.centre() as (serving, ports):
            told = re.compile(rf"no node can listen on 127\.0\.0\.1:{ports[1]}: .+")
            with socket.socket() as holder:
                holder.bind(("127.0.0.1", ports[1]))
                holder.listen()
                wrong = [self.ended(serving, told) for _ in range(starts)]
            self.check("taken_port_is_told", not any(wrong), lambda: [one for one in wrong if one][:3])
            started(serving)
            self.check("taken_port_uses_no_incarnation", serving.incarnations() == dict.fromkeys((1, 2, 3), 1), serving.incarnations)
            ids = self.ids(ports, b"free")
            self.check("taken_port_ids", all(one and one[1:5] == "0001" for one in ids), ids)

    # A clock that steps.

    def clock(self):
        library = next(LIBRARIES.glob(FAKETIME), None)
        if library is None:
            self.left_out("no faketime")
            return
        with self.centre() as (serving, ports):
            clock = serving.folder / "clock"
            self.step(clock, "+0")
            words = {"LD_PRELOAD": library, "FAKETIME_TIMESTAMP_FILE": clock, "FAKETIME_NO_CACHE": 1, "FAKETIME_DONT_FAKE_MONOTONIC": 1}
            serving.command = ["env", *(f"{name}={value}" for name, value in words.items()), *serving.command]
            started(serving)
            with bound(ports[0], "sender", pdus.BIND_TRANSMITTER) as sender, bound(ports[1], "getter", pdus.BIND_RECEIVER) as getter:
                sent = sender.submitted("1", b"no step", registered=0)
                came = wait([sender, getter], lambda: getter.messages(b"no step"), SOON_SECONDS)
                self.check("clock_delivered_before_any_step", sent and came, (sent, came))
                self.clock_back(clock, serving, sender, getter)
                self.clock_ahead(clock, serving, sender, getter, ports[2])

    def step(self, clock, offset):
        """The clock of the system steps: who reads the file sees the one text or the other."""
        new = clock.with_suffix(".new")
        new.write_text(f"{offset}\n")
        new.replace(clock)

    def clock_back(self, clock, serving, sender, getter):
        texts = b"before the step", b"behind the step"
        ids = [sender.submitted("1", texts[0], schedule=SOON, registered=0)]
        begun = time.monotonic()
        self.step(clock, "-1h")
        ids.append(sender.submitted("1", texts[1], schedule=SOON, registered=0))
        self.check("clock_back_messages_are_taken", all(ids), ids)
        for text in texts:
            came = wait([sender, getter], lambda: getter.messages(text), max(1, begun + SOON_SECONDS - time.monotonic()))
            self.check(f"clock_back_delivered_{text.decode().replace(' ', '_')}", came, f"nothing after {time.monotonic() - begun:.0f} s")
        self.check("clock_back_is_told", serving.says(CLOCK), serving.said)
        wait([sender, getter], lambda: False, begun + BACK_SECONDS - time.monotonic())
        self.step(clock, "+0")
        # Each node looks at the clock at a tick, for which it waits ten seconds at most.
        wait([sender, getter], lambda: False, TICK_SECONDS)
        self.check("clock_back_ends", self.ids_are(sender, ids, pdus.DELIVERED), serving.said)

    def clock_ahead(self, clock, serving, sender, getter, port):
        ids = [sender.submitted("2", b"ahead %d" % number, registered=0) for number in range(5)]
        told = sum(bool(CLOCK.fullmatch(line)) for line in serving.lines)
        seen = []
        for offset in ("+30d", "+0"):
            self.step(clock, offset)
            end = time.monotonic() + AHEAD_SECONDS
            while time.monotonic() < end:
                seen.append(self.ids_are(sender, ids, pdus.ENROUTE))
                wait([sender, getter], lambda: False, 0.5)
                # Each connection has the clock looked at, whenever the next tick is.
                Esme(port).close()
        self.check("clock_ahead_messages_stay", all(ids) and all(seen), (ids, seen))
        self.check("clock_ahead_is_told", sum(bool(CLOCK.fullmatch(line)) for line in serving.lines) > told, serving.said)

    def ids_are(self, esme, ids, state):
        """Whether each of these messages is in this state."""
        return all(esme.state(message_id)[2] == state for message_id in ids)

    # Standard input, output and error.

    def silent_log(self):
        with self.centre(kind=Unread) as (serving, ports), contextlib.ExitStack() as stack:
            started(serving)
            stands = stack.enter_context(bound(ports[0], "sender", pdus.BIND_TRANSMITTER))
            # If it takes no more connections, these are enough.
            with contextlib.suppress(OSError):
                for number in range(LOGGED):
                    Esme(ports[number % NODES]).close()
            time.sleep(1)
            held = struct.unpack("i", fcntl.ioctl(serving.process.stderr, termios.FIONREAD, bytes(4)))[0]
            print(f"   {held:,} octets of the log wait in a pipe of {PIPE:,}", flush=True)
            for node, port in enumerate(ports, 1):
                self.check(f"silent_log_serves_at_{node}", *self.served(port))
            sent = stands.submitted("2", b"silent", registered=0)
            self.check("silent_log_answers_go_on", sent and stands.state(sent)[2] == pdus.ENROUTE, sent)
            serving.read_on()
            self.check("silent_log_tells_what_is_left_out", serving.says(LOST, TOLD_SECONDS), serving.said)
            self.check("silent_log_ends_in_order", serving.end(END_SECONDS) == 0, serving.said)

    def closed_descriptors(self):
        for name, closed in CLOSED.items():
            with self.centre() as (serving, ports):
                usual = serving.command
                # Without --until-eof, since standard input has ended, or is not there.
                serving.command = ["sh", "-c", f'exec "$@" {closed}', "sh", *usual[:-1]]
                serving.start(1)
                self.serves_or_refuses(name, serving, ports)
                serving.kill()
                lines = [path.name for path in (serving.folder / STORES).iterdir() if any(word in path.read_bytes() for word in LOG_WORDS)]
                self.check(f"closed_{name}_no_line_in_a_store", not lines, lines)
                serving.command = usual
                self.check(f"closed_{name}_starts_again", serving.start(START_SECONDS), serving.said)

    def serves_or_refuses(self, name, serving, ports):
        """It ends with status 1, or each node serves."""
        end = time.monotonic() + START_SECONDS
        while serving.is_up() and not all(map(is_open, ports)) and time.monotonic() < end:
            time.sleep(0.1)
        if not serving.is_up():
            self.check(f"closed_{name}_refused", serving.process.returncode == 1, serving.said)
            return
        for node, port in enumerate(ports, 1):
            self.check(f"closed_{name}_serves_at_{node}", *self.served(port))
        numbers = [os.readlink(f"/proc/{serving.process.pid}/fd/{number}") for number in STANDARD]
        self.check(f"closed_{name}_numbers_are_harmless", all(map(HARMLESS.fullmatch, numbers)), numbers)

    def ends(self):
        with self.centre(idle_seconds=IDLE_SECONDS, bind_seconds=BIND_SECONDS) as (serving, ports):
            started(serving)
            for name, way in ENDS.items():
                told = re.compile(rf"node 1 session \d+: {way.words}; {way.whose} from 127\.0\.0\.1:(\d+)")
                with contextlib.suppress(Ended), Esme(ports[0]) as esme:
                    here = esme.socket.getsockname()[1]
                    way.does(esme)
                    if way.seconds:
                        wait([esme], lambda: serving.says(told), way.seconds)
                found = serving.says(told, TOLD_SECONDS)
                self.check(f"ends_{name}_is_told", found and int(found[1]) == here, serving.said)

    # Stores.

    def stores(self):
        with self.centre() as (serving, ports):
            older, newer, config = serving.folder / "older", serving.folder / "newer", serving.folder / "centre.toml"
            ids, words = self.two_backups(serving, ports, older, newer), config.read_text()
            for name, slip in SLIPS.items():
                put_back(newer, serving.folder / STORES)
                config.write_text(words)
                slip.does(serving, older)
                self.refused_stores(serving, name, slip)
            put_back(newer, serving.folder / STORES)
            config.write_text(words)
            started(serving)
            with bound(ports[2], "sender", pdus.BIND_TRANSMITTER) as esme:
                self.check("stores_that_are_right_serve", self.ids_are(esme, ids, pdus.ENROUTE), ids)
        if not any([self.killed_between(*numbered) for numbered in enumerate(PAUSES, 1)]):
            self.left_out("no start was killed before all stores were there")
        self.earlier_stores()
        self.mixed_stores()

    def two_backups(self, serving, ports, older, newer):
        """The stores without a message, and then with one of each node: their ids."""
        stores, ids = serving.folder / STORES, []
        for backup in (older, newer):
            started(serving)
            if backup == newer:
                ids = self.ids(ports, b"kept")
            if serving.end(END_SECONDS) != 0:
                raise Ended(f"it did not end in order: {serving.said()}")
            shutil.copytree(stores, backup)
        self.check("stores_messages_are_taken", all(ids), ids)
        return ids

    def refused_stores(self, serving, name, slip):
        before = digests(serving.folder / STORES)
        # In any order, and with anything around.
        pattern = re.compile(rf"(?=.*\bnode [{slip.nodes}]\b)(?=.*{slip.file}).*")
        fault = self.ended(serving, pattern)
        self.check(f"stores_{name}_refused", not fault, fault)
        after = digests(serving.folder / STORES)
        self.check(f"stores_{name}_unchanged", before == after, lambda: sorted(file for file in before | after if before.get(file) != after.get(file)))

    def killed_between(self, number, pause):
        """A start over no stores is killed as the first is made, or a little later; the next one has to serve. Whether a store was not there yet."""
        with self.centre() as (serving, ports):
            killer = threading.Thread(target=kill_at_first_file, args=(serving, pause), daemon=True)
            killer.start()
            serving.start(START_SECONDS)
            killer.join()
            serving.kill()
            made = sorted(digests(serving.folder / STORES))
            print(f"   killed {pause * 1000:.0f} ms after the first file: {', '.join(made)}", flush=True)
            self.check(f"stores_killed_{number}_serve", serving.start(START_SECONDS), serving.said)
            if serving.is_up():
                ids = self.ids(ports, b"anew")
                self.check(f"stores_killed_{number}_take_messages", all(ids), ids)
            return sum(name.endswith(".db") for name in made) < NODES

    def earlier_stores(self):
        """Stores of an earlier program, which do not say whose they are, go on; from then on they do."""
        with self.centre() as (serving, ports):
            stores = serving.folder / STORES
            for node, name in enumerate(EARLIER_NAMES, 1):
                for end in ("", "-wal"):
                    shutil.copy(EARLIER / f"{name}.db{end}", stores / f"{node}.db{end}")
            self.goes_on_once("earlier", serving, miss, SLIPS["missing"])

    def mixed_stores(self):
        with self.centre() as (serving, ports):
            misspell(serving, None)
            self.goes_on_once("mixed", serving, lambda *_: None, SLIPS["misspelled"])
            self.check("stores_mixed_warned", any(MIXED.fullmatch(line) for line in serving.lines), serving.said)

    def goes_on_once(self, name, serving, does, slip):
        """It serves; and then, once this is done, no more."""
        self.check(f"stores_{name}_serve", serving.start(START_SECONDS), serving.said)
        serving.end(END_SECONDS)
        does(serving, None)
        self.refused_stores(serving, name, slip)

    # Threads.

    def threads(self):
        as_user = ["setpriv", f"--reuid={USER}", f"--regid={USER}", "--clear-groups"]
        if os.geteuid() != 0 or not shutil.which("setpriv"):
            self.left_out("threads need root and setpriv")
            return
        if subprocess.run([*as_user, "test", "-x", self.given.program], check=False).returncode != 0:
            self.left_out("threads need a program that any user may start")
            return
        with self.centre() as (serving, ports), contextlib.ExitStack() as stack:
            for path in (serving.folder, *serving.folder.rglob("*")):
                os.chown(path, USER, USER)
            serving.command = [*as_user, *serving.command]
            started(serving)
            ids = self.ids(ports, b"before")
            stands = stack.enter_context(bound(ports[0], "sender"))
            self.few_threads(as_user, serving.process.pid)
            with contextlib.ExitStack() as others:
                seen = [self.bind_of(others, ports[number % NODES]) for number in range(BINDS)]
                print(f"   {BINDS} binds were answered {seen}", flush=True)
                sent = stands.submitted("2", b"beside", registered=0)
                self.check("threads_who_is_bound_goes_on", sent, serving.said)
            time.sleep(GONE_SECONDS)
            for node, port in enumerate(ports, 1):
                self.check(f"threads_somebody_new_at_{node}", *self.served(port))
            serving.kill()
            started(serving)
            with bound(ports[1], "sender", pdus.BIND_TRANSMITTER) as esme:
                self.check("threads_nothing_is_lost", self.ids_are(esme, ids, pdus.ENROUTE), ids)

    def few_threads(self, as_user, process):
        """The process may start few more threads from now on. Its user says so, since root may not, if it lacks a right over others' processes."""
        most = len(os.listdir(f"/proc/{process}/task")) + MORE_THREADS
        subprocess.run([*as_user, "prlimit", f"--pid={process}", f"--nproc={most}:{most}"], check=True)
        print(f"   its user has {most} threads at most", flush=True)

    def bind_of(self, stack, port):
        """What a bind is answered: a status; `ended` if the connection was closed, or none came about; `nothing` if none came in time."""
        try:
            found = stack.enter_context(Esme(port)).bind("getter", PASSWORD)
        except (Ended, OSError):
            return "ended"
        return found.status if found else "nothing"

    # Want of memory.

    def memory(self):
        with self.centre() as (serving, ports):
            started(serving)
            ids = self.ids(ports, b"before")
            process = serving.process.pid
            before = resource.prlimit(process, resource.RLIMIT_DATA)
            with bound(ports[0], "sender", pdus.BIND_TRANSMITTER) as esme:
                resource.prlimit(process, resource.RLIMIT_DATA, (self.data_of(process) + MORE_OCTETS, before[1]))
                taken = self.taken_until_none(esme)
            print(f"   {len(taken)} messages of {len(LONG)} octets were taken until one was not", flush=True)
            self.check("memory_is_wanted", len(taken) < LONG_MESSAGES and serving.is_up(), serving.said)
            self.check("memory_is_told", serving.says(WANT, WANT_SECONDS), serving.said)
            resource.prlimit(process, resource.RLIMIT_DATA, before)
            for node, port in enumerate(ports, 1):
                self.check(f"memory_somebody_new_at_{node}", *self.served(port))
            with bound(ports[1], "sender", pdus.BIND_TRANSMITTER) as esme:
                self.check("memory_nothing_is_lost", self.ids_are(esme, ids + taken, pdus.ENROUTE), ids)

    def data_of(self, process):
        """How many octets of memory a process may write to."""
        words = pathlib.Path(f"/proc/{process}/status").read_text().split()
        return int(words[words.index("VmData:") + 1]) * 1024

    def taken_until_none(self, esme):
        """The ids of long messages, until one is not taken."""
        found = []
        with contextlib.suppress(Ended, OSError):
            while len(found) < LONG_MESSAGES and (one := esme.submitted("2", b"", [(pdus.MESSAGE_PAYLOAD, LONG)], registered=0)):
                found.append(one)
        return found

    def all(self, parts):
        for name in parts:
            print(f"{name}:", flush=True)
            try:
                PARTS[name](self)
            except (Ended, OSError, ValueError, TypeError, AttributeError, subprocess.SubprocessError) as fault:
                self.check(f"whole_of_{name}", False, f"{type(fault).__name__}: {fault}")


PARTS = {"refused_submits": Slips.refused_submits, "taken_port": Slips.taken_port, "closed_descriptors": Slips.closed_descriptors,
         "silent_log": Slips.silent_log, "ends": Slips.ends, "stores": Slips.stores, "threads": Slips.threads, "memory": Slips.memory, "slow_reader": Slips.slow_reader,
         "clock": Slips.clock}


def main():
    reader = argparse.ArgumentParser(description=__doc__, formatter_class=argparse.RawDescriptionHelpFormatter)
    reader.add_argument("program", metavar="PROGRAM", type=program_of)
    reader.add_argument("--only", metavar="PART", nargs="+", choices=PARTS, default=list(PARTS), help=f"these parts alone: {', '.join(PARTS)}")
    reader.add_argument("--long", action="store_true", help="more starts at a port that is taken")
    reader.add_argument("--keep", action="store_true", help="keep the folders")
    given, checks = reader.parse_args(), Checks()
    Slips(given, checks).all(dict.fromkeys(given.only))
    checks.end()


if __name__ == "__main__":
    main()
