#!/usr/bin/env python3
"""Uses `centre serve` as no ESME should: peers that reset, stop reading, send an octet a second, connect a thousand times or send PDUs without an end.

    python3 tools/rough.py PROGRAM [--only PART] [--keep]

PROGRAM is the built program. It serves three nodes over files. Meanwhile a client of its own process (clients/steady.py) submits, queries and gets its
messages at all nodes, and none of its answers may be wrong, or take longer than two seconds. The parts:

    resets        a session that binds, submits, queries, gets its message and answers it is reset after each of its octets, and closed after each
    slow          twenty peers bind and submit by an octet a second, beside all other parts
    deaf          a receiver takes its messages and its answers no more; the centre ends it, and another session gets all that it did not answer
    large         messages of the most octets: what memory each takes, since the journal keeps its packets
    flood         5,000 submit_sm in one go: answers are read afterwards, each once; then again, and never read
    endless       wrong lengths, among them 0xffffffff with octets that never end; and PDUs of 8,192 octets of which the last never comes
    thousand      a thousand connections to one node
    bound         as many bound transceivers as a node has room for
    churn         3,000 connections one after another, each reset at once, and 300 that bind first
    files         as many connections as the process has files for, while sessions that stand go on
    crowd         300 messages wait for an account that is bound then: all of them are due at one tick

It prints `ok NAME` or `not ok NAME: SEEN` for each check, figures in lines that begin with spaces, and at last `N checks, M wrong`; the exit status is 1 if
any is wrong. What the peers were told is taken is queried at the end, and once more after a kill and a start. It takes some four minutes, uses the standard
library alone, and ends what it started.
"""
import argparse
import contextlib
import os
import pathlib
import random
import re
import resource
import socket
import struct
import sys
import threading
import time

sys.path.insert(0, str(pathlib.Path(__file__).resolve().parent / "clients"))

import pdus
from centres import PASSWORD, bound, centre, octets_of, program_of, started
from checks import Checks
from plain_esme import NOT_READY, Ended, Esme, wait
from serving import SESSION
from steady import DESTINATION, NAME, Steady

NODES = 3
BIND_SECONDS, WRITE_SECONDS, MOST_SESSIONS = 60, 5, 99
ACCOUNTS = {NAME: DESTINATION, "peer": "1", "deaf": "2", "slow": "3", "flood": "4", "crowd": "5"}
# How long an answer to others may take, and how long an orderly end.
PATIENCE, END_SECONDS = 2, 60
SLOW_PEERS, FLOODED, CONNECTIONS, DEAF_MESSAGES, LARGE_MESSAGES = 20, 5_000, 1_000, 40, 100
CROWD, CROWD_SECONDS = 300, 120
# Within what time a peer that reads nothing is ended: the buffers of the system are full by then, and a write has waited for too long.
CUT_SECONDS = 150
# What is told of its end: a write waited for too long, or too much waited behind it.
DEAF_ENDED = re.compile(SESSION + "ended: closed by the centre: (the ESME took nothing for too long|too many PDUs waited to be written); deaf from .+")
TOLD_SECONDS = 5
# What a peer may push into the centre and its own system's buffers before it has to wait; what the centre may grow by for each connection that is open, of
# which each thread may take an area of memory of its own, and for what does not grow with connections.
MOST_PUSHED, MOST_A_CONNECTION, MOST_GROWN = 64_000_000, 4_000_000, 64_000_000
LENGTHS = (*range(16), 8_193, 0x7FFFFFFF, 0xFFFFFFFF)


def bind_body(name):
    return pdus.bind_body(name, PASSWORD, 0x34)


def submit_body(text, destination, **fields):
    return pdus.message_body(text, source="144", destination=destination, **fields)


def ends_by_reset(esme):
    """Closes the connection: by a reset."""
    with contextlib.suppress(OSError):
        esme.vanish()


class Holder(Esme):
    """It answers all that is delivered to it, but for the message with its own text."""

    text = b""

    def serve(self, pdu):
        self.status = None if pdu.command == pdus.DELIVER_SM and self.text in pdu.body and b"id:" not in pdu.body else pdus.OK
        super().serve(pdu)


class Slow(threading.Thread):
    """A peer that sends an octet a second."""

    def __init__(self, port):
        super().__init__(daemon=True)
        self.esme, self.message_id, self.fault = Esme(port), None, None

    def run(self):
        try:
            self.drip(self.esme.framed(pdus.BIND_TRANSMITTER, bind_body("slow")))
            found = self.esme.answer(self.esme.sequence, 10)
            self.drip(self.esme.framed(pdus.SUBMIT_SM, submit_body(b"slow", "355")))
            self.message_id = self.esme.id_of(self.esme.sequence, 10)
            self.fault = None if found and found.status == pdus.OK else f"the bind was answered {found}"
        except (Ended, OSError) as fault:
            self.fault = str(fault)
        finally:
            self.esme.close()

    def drip(self, octets):
        for octet in octets:
            self.esme.send(bytes([octet]))
            time.sleep(1)


class Rough:
    """The parts, a method each; the ids that any peer was told, and what memory the centre takes."""

    def __init__(self, serving, ports, checks, stack):
        self.serving, self.ports, self.check, self.stack = serving, ports, checks.check, stack
        self.taken, self.steady, self.slow_peers = [], None, []

    def memory(self):
        return octets_of(self.serving.process)[0]

    def told(self, name, before, count=0):
        """Prints what the centre takes, beside what it took before a part; that it has not grown without bound is a check."""
        now = self.memory()
        share = f", {(now - before) / count / 1024:.0f} KiB each" if count else ""
        print(f"   {name}: {before / 1e6:.1f} MB before, {now / 1e6:.1f} MB then{share}", flush=True)
        self.check(f"memory_{name.replace(' ', '_')}", now - before < MOST_GROWN + count * MOST_A_CONNECTION, (before, now))
        return now

    def connected(self, node=1, **given):
        return self.stack.enter_context(Esme(self.ports[node - 1], **given))

    def bound(self, name, node=1, command=pdus.BIND_TRANSCEIVER, **given):
        return self.stack.enter_context(bound(self.ports[node - 1], name, command, **given))

    def binds_in_time(self, name, *nodes):
        """Somebody new is bound and served at these nodes in time."""
        for node in nodes:
            begun = time.monotonic()
            esme = self.bound("peer", node, pdus.BIND_TRANSMITTER)
            sent = esme.submitted("355", b"beside")
            took = time.monotonic() - begun
            self.check(f"{name}_new_session_at_{node}", sent and took < PATIENCE, f"{sent} after {took:.1f} s")
            self.taken.append(sent)
            esme.unbind()
            esme.close()

    # Peers that reset.

    def resets(self):
        before, total = self.memory(), sum(len(octets) for octets in self.pieces(b""))
        for kind, end in (("reset", ends_by_reset), ("closed", Esme.close)):
            ended = [self.cut_session(place, end) for place in range(total + 1)]
            self.check(f"{kind}_at_each_octet", None not in ended, ended)
            print(f"   {kind} after each of 0 to {total} octets: {sum(map(bool, ended))} of the submit_sm were answered before", flush=True)
        self.binds_in_time("after_resets", 1)
        self.told("after resets", before)

    def pieces(self, text, sequence=1):
        """What such a session sends: each is followed by what it waits for."""
        return (pdus.frame(pdus.BIND_TRANSCEIVER, 1, bind_body("peer")), pdus.frame(pdus.SUBMIT_SM, 2, submit_body(text.ljust(12), "155", registered=1)),
                pdus.frame(pdus.QUERY_SM, 3, pdus.query_body("1000100001", "144")), pdus.frame(pdus.DELIVER_SM | pdus.RESPONSE, sequence, b"\0"))

    def cut_session(self, place, end):
        """Plays a session up to so many octets, and ends it: the id that was told, "" if it was not told yet, or None if it did not go on as it should."""
        text, message_id, left = b"cut %08d" % random.randrange(10**8), "", place
        esme = Holder(self.ports[0])
        esme.text = text
        try:
            for step in range(4):
                piece = self.pieces(text, self.sequence_of(esme, text))[step] if step != 2 else self.query(message_id)
                esme.send(piece[:left])
                left -= len(piece)
                if left < 0:
                    break
                message_id = self.awaited(esme, step, message_id, text)
                if message_id is None:
                    return None
        except (Ended, OSError):
            return None
        finally:
            end(esme)
        if message_id:
            self.taken.append(message_id)
        return message_id

    def query(self, message_id):
        return pdus.frame(pdus.QUERY_SM, 3, pdus.query_body(message_id, "144"))

    def sequence_of(self, esme, text):
        """The sequence_number of the deliver_sm of this text, if it came."""
        return next((one["sequence"] for one in esme.messages() if one["short_message"].startswith(text)), 1)

    def awaited(self, esme, step, message_id, text):
        """Waits for what follows a step: the id of the message, if it is told; None if it does not come."""
        if step == 3:
            return message_id
        found = esme.answer(step + 1, 10)
        if found is None or found.status != pdus.OK:
            return None
        if step == 2 and not esme.wait(lambda: any(one["short_message"].startswith(text) for one in esme.messages()), 10):
            return None
        return pdus.Reader(found.body).text() if step == 1 else message_id

    # Slow ones.

    def slow(self):
        self.slow_peers = [Slow(self.ports[1]) for _ in range(SLOW_PEERS)]
        for peer in self.slow_peers:
            peer.start()

    def slow_ends(self):
        for peer in self.slow_peers:
            peer.join(200)
        faults = [peer.fault or "no id" for peer in self.slow_peers if peer.fault or not peer.message_id]
        self.check("an_octet_a_second", not faults, faults[:3])
        self.taken += [peer.message_id for peer in self.slow_peers if peer.message_id]

    # A receiver that reads no more.

    def deaf(self):
        before = self.memory()
        deaf, sender = self.bound("deaf", 2, receive_buffer=4096), self.bound("peer", 1, pdus.BIND_TRANSMITTER)
        parameters = [(pdus.USER_MESSAGE_REFERENCE, bytes(6_900))]
        self.deaf_ids = [sender.submitted("255", b"deaf %d" % number, parameters) for number in range(DEAF_MESSAGES)]
        self.check("taken_for_a_deaf_one", all(self.deaf_ids), self.deaf_ids)
        self.taken += self.deaf_ids
        self.told("with a deaf receiver", before)
        pushed, is_ended = deaf.push_unread(pdus.frame(pdus.ENQUIRE_LINK, 1) * 1_000, MOST_PUSHED)
        self.told("with a deaf receiver that asks", before)
        print(f"   a deaf receiver pushed {pushed / 1e6:.1f} MB", flush=True)
        self.check("deaf_one_has_to_wait", is_ended or pushed < MOST_PUSHED, pushed)
        begun = time.monotonic()
        self.check("deaf_one_is_ended", is_ended or self.is_cut(deaf, CUT_SECONDS), "it is still connected")
        self.check("deaf_one_is_told", self.serving.says(DEAF_ENDED, TOLD_SECONDS), self.serving.said)
        print(f"   it was ended {time.monotonic() - begun:.0f} s after its last octet was taken", flush=True)
        self.binds_in_time("beside_a_deaf_one", 2, 3)
        self.told("after a deaf receiver", before)

    def deaf_ends(self):
        """Another session of the account gets all; the second attempts are due a minute after the first."""
        heir = self.bound("deaf", 3)
        wait([heir], lambda: len({one["short_message"] for one in heir.messages()}) == DEAF_MESSAGES, 100)
        came = len({one["short_message"] for one in heir.messages()})
        self.check("messages_of_a_deaf_one_come", came == DEAF_MESSAGES, came)
        heir.close()

    def is_cut(self, esme, seconds):
        """Whether the connection ends in time, without a read."""
        end = time.monotonic() + seconds
        while time.monotonic() < end:
            try:
                esme.socket.send(b"\0")
            except NOT_READY:
                pass
            except OSError:
                return True
            time.sleep(0.2)
        return False

    # Five thousand at once.

    def flood(self):
        before = self.memory()
        esme = self.bound("flood", 1, pdus.BIND_TRANSMITTER)
        first = esme.sequence + 1
        frames = b"".join(esme.framed(pdus.SUBMIT_SM, submit_body(b"flood", "455")) for _ in range(FLOODED))
        pusher = threading.Thread(target=self.push_all, args=(esme, frames), daemon=True)
        pusher.start()
        pusher.join(3)
        self.told("with 5,000 submit_sm unread", before)
        wanted = set(range(first, first + FLOODED))
        esme.wait(lambda: wanted <= esme.answers.keys(), 60)
        pusher.join(10)
        answers = [esme.answers.get(sequence) for sequence in wanted]
        statuses = [found and found.status for found in answers]
        self.check("each_of_the_flood_is_answered", set(statuses) <= {pdus.OK, pdus.THROTTLED}, lambda: (statuses.count(None), set(statuses)))
        ids = [pdus.Reader(found.body).text() for found in answers if found and found.status == pdus.OK]
        self.check("ids_of_the_flood", len(set(ids)) == len(ids) >= 10, len(ids))
        print(f"   of {FLOODED:,} submit_sm in one go {len(ids):,} were taken, and {statuses.count(pdus.THROTTLED):,} throttled", flush=True)
        self.taken += ids
        self.never_read(before)

    def push_all(self, esme, octets):
        """Sends all, while somebody else reads."""
        other = esme.socket.dup()
        other.setblocking(True)
        with contextlib.suppress(OSError), other:
            other.sendall(octets)

    def never_read(self, before):
        """Its answers may all be in the buffers of the system, so that no write waits; it is reset then."""
        esme = self.bound("flood", 1, pdus.BIND_TRANSMITTER, receive_buffer=4096)
        octets = b"".join(esme.framed(pdus.SUBMIT_SM, submit_body(b"unread", "455")) for _ in range(FLOODED))
        pusher = threading.Thread(target=self.push_all, args=(esme, octets), daemon=True)
        pusher.start()
        self.binds_in_time("beside_a_flood", 1, 2)
        pusher.join(15)
        self.check("flood_is_pushed", not pusher.is_alive(), "it still waits")
        self.told("with a flood that is never read", before)
        esme.vanish()
        self.binds_in_time("after_a_flood", 1, 2)

    # What is large.

    def large(self):
        """A message with 254 octets and 6,900 of optional parameters, again and again."""
        before, sender = self.memory(), self.bound("peer", 1, pdus.BIND_TRANSMITTER)
        parameters = [(pdus.USER_MESSAGE_REFERENCE, bytes(6_900))]
        ids = [sender.submitted("455", b"x" * 254, parameters) for _ in range(LARGE_MESSAGES)]
        self.check("large_ones_are_taken", all(ids), ids)
        self.taken += ids
        self.told("with large messages", before, len(ids))
        sender.close()

    # PDUs without an end.

    def endless(self):
        before = self.memory()
        for length in LENGTHS:
            esme = self.connected(1)
            esme.send(struct.pack(">IIII", length, pdus.SUBMIT_SM, 0, 7))
            is_closed = esme.is_closed(5)
            found = esme.nacks[0] if esme.nacks else None
            self.check(f"length_0x{length:x}", is_closed and found and (found.status, found.sequence) == (pdus.INVALID_LENGTH, 0), (is_closed, found))
        esme = self.connected(1)
        esme.socket.setsockopt(socket.SOL_SOCKET, socket.SO_SNDBUF, 65_536)
        esme.send(b"\xff\xff\xff\xff")
        pushed, is_ended = esme.push_unread(bytes(65_536), MOST_PUSHED)
        print(f"   a PDU without an end: {pushed / 1e6:.1f} MB were taken", flush=True)
        self.check("pdu_without_an_end_is_ended", is_ended, pushed)
        halves = [self.connected(1) for _ in range(50)]
        for esme in halves:
            esme.send(struct.pack(">I", 8_192) + bytes(8_187))
        time.sleep(1)
        self.told("with 50 PDUs of 8191 octets", before, len(halves))
        self.binds_in_time("beside_endless_ones", 1, 2)
        for esme in halves:
            esme.close()

    # Many connections.

    def thousand(self):
        """Twice, since what the first took once is there for the second."""
        first = self.thousand_at_once("a thousand connections")
        self.thousand_at_once("a thousand more")
        self.check("a_thousand_more_take_no_more", self.memory() < first + MOST_GROWN, (first, self.memory()))

    def thousand_at_once(self, name):
        before, kept, refused = self.memory(), [], 0
        for _ in range(CONNECTIONS):
            with contextlib.suppress(OSError):
                kept.append(self.connected(3))
        time.sleep(2)
        for esme in kept:
            if self.is_refused(esme):
                refused += 1
                # So that those who come later have files below 1,024, as `select` wants them.
                esme.close()
        served = len(kept) - refused
        print(f"   of {len(kept):,} connections {served} were kept", flush=True)
        self.check("places_of_a_node", 0 < served < MOST_SESSIONS, served)
        most = self.told(f"with {name}", before, served)
        self.binds_in_time(f"beside_{name.replace(' ', '_')}", 1, 2)
        for esme in kept:
            if not esme.is_ended:
                esme.vanish()
        time.sleep(1)
        self.binds_in_time(f"after_{name.replace(' ', '_')}", 3)
        return most

    def is_refused(self, esme):
        """Whether the centre has closed it."""
        try:
            esme.take()
        except Ended:
            return True
        return False

    def bound_ones(self):
        before, kept = self.memory(), []
        for _ in range(MOST_SESSIONS - 10):
            kept.append(self.bound("peer", 1))
        self.told("with bound transceivers", before, len(kept))
        for esme in kept:
            esme.vanish()
        time.sleep(2)
        self.told("after bound transceivers", before)
        self.binds_in_time("after_bound_ones", 1)

    # Many one after another, and more than there are files for.

    def churn(self):
        for name, count, is_bound in (("warm", 300, False), ("connections", 3_000, False), ("binds", 300, True)):
            before = self.memory()
            for _ in range(count):
                with contextlib.suppress(Ended), Esme(self.ports[2]) as esme:
                    if is_bound:
                        esme.bind("peer", PASSWORD)
                    esme.vanish()
            time.sleep(3)
            print(f"   {count:,} {name} one after another: {(self.memory() - before) / count / 1024:.1f} KiB each are not given back", flush=True)
            self.check(f"churn_of_{name}", self.memory() - before < MOST_GROWN, (before, self.memory()))
        self.binds_in_time("after_a_churn", 3)

    def files(self):
        """The process may open no more files: connections wait or are closed, and whoever is bound goes on."""
        process = self.serving.process.pid
        most = resource.prlimit(process, resource.RLIMIT_NOFILE)
        kept = [self.connected(1)]
        time.sleep(1)
        resource.prlimit(process, resource.RLIMIT_NOFILE, (max(map(int, os.listdir(f"/proc/{process}/fd"))) + 2, most[1]))
        kept += [self.connected(node) for node in (1, 2, 3) for _ in range(10)]
        time.sleep(3)
        found = kept[0].ask(pdus.ENQUIRE_LINK)
        self.check("session_goes_on_without_files", found and found.status == pdus.OK, found)
        resource.prlimit(process, resource.RLIMIT_NOFILE, most)
        for esme in kept:
            esme.vanish()
        time.sleep(1)
        self.binds_in_time("after_no_files", 1, 2, 3)

    def crowd(self):
        before, sender = self.memory(), self.bound("peer", 1, pdus.BIND_TRANSMITTER)
        ids = [sender.submitted("555", b"crowd %d" % number, registered=0) for number in range(CROWD)]
        self.check("crowd_is_taken", all(ids), ids.count(None))
        self.taken += ids
        self.steady.part("crowd_is_due")
        begun, getter = time.monotonic(), self.bound("crowd", 2, pdus.BIND_RECEIVER)
        came = wait([getter, sender], lambda: len({one["short_message"] for one in getter.messages()}) == CROWD, CROWD_SECONDS)
        self.check("crowd_comes", came, lambda: len(getter.messages()))
        print(f"   {CROWD} messages that waited were delivered in {time.monotonic() - begun:.1f} s", flush=True)
        self.told("with a crowd", before)
        getter.close()
        sender.close()

    # What was taken.

    def nothing_lost(self, name):
        esmes = {node: self.bound("peer", node, pdus.BIND_TRANSMITTER) for node in range(1, NODES + 1)}
        flood = self.bound("flood", 1, pdus.BIND_TRANSMITTER)
        slow = self.bound("slow", 2, pdus.BIND_TRANSMITTER)
        lost = []
        for place, message_id in enumerate(filter(None, self.taken)):
            for esme in (esmes[1 + place % NODES], flood, slow):
                status = esme.state(message_id)[0]
                if status != pdus.QUERY_FAILED:
                    break
            if status != pdus.OK:
                lost.append((message_id, status))
        self.check(f"nothing_is_lost_{name}", not lost, (len(lost), lost[:5]))
        print(f"   {len(self.taken):,} messages were taken, and queried {name.replace('_', ' ')}", flush=True)
        for esme in (*esmes.values(), flood, slow):
            esme.close()

    def measure(self):
        """What the steady client saw."""
        saw = self.steady.end()
        slowest = {part: round(seconds, 2) for part, seconds in saw["slowest"].items()}
        print(f"   the steady client: {saw['answers']:,} answers, the slowest of each part in seconds: {slowest}", flush=True)
        self.check("steady_answers_are_right", not saw["wrong"], saw["wrong"][:5])
        late = {part: seconds for part, seconds in slowest.items() if seconds > PATIENCE}
        self.check("steady_answers_come_in_time", not late, late)
        return saw["ids"]

    def all(self, parts):
        started(self.serving)
        self.steady = Steady(self.ports)
        self.stack.callback(self.steady.kill)
        for name in parts:
            part = PARTS[name]
            self.steady.part(name)
            try:
                part(self)
            except (Ended, OSError, ValueError, TypeError, AttributeError) as fault:
                self.check(f"whole_of_{name}", False, f"{type(fault).__name__}: {fault}; {self.serving.said()}")
        self.measure()
        self.nothing_lost("at_the_end")
        self.check("is_up", self.serving.is_up(), self.serving.said)
        self.serving.kill()
        started(self.serving)
        self.nothing_lost("after_a_kill")
        begun = time.monotonic()
        self.check("ends_in_order", self.serving.end(END_SECONDS) == 0, self.serving.said)
        print(f"   it ended in {time.monotonic() - begun:.1f} s", flush=True)


PARTS = {"slow": Rough.slow, "deaf": Rough.deaf, "resets": Rough.resets, "flood": Rough.flood, "endless": Rough.endless, "thousand": Rough.thousand,
         "bound": Rough.bound_ones, "churn": Rough.churn, "files": Rough.files, "large": Rough.large, "crowd": Rough.crowd,
         "slow_ends": Rough.slow_ends, "deaf_ends": Rough.deaf_ends}


def parts_of(only):
    """These parts, with the ends of what some begin."""
    return [name for name in PARTS if only in (None, name, name.removesuffix("_ends"))]


def main():
    reader = argparse.ArgumentParser(description=__doc__, formatter_class=argparse.RawDescriptionHelpFormatter)
    reader.add_argument("program", metavar="PROGRAM")
    reader.add_argument("--only", choices=[name for name in PARTS if not name.endswith("_ends")])
    reader.add_argument("--keep", action="store_true")
    given = reader.parse_args()
    program, checks = program_of(given.program), Checks()
    resource.setrlimit(resource.RLIMIT_NOFILE, (2 * CONNECTIONS, max(2 * CONNECTIONS, resource.getrlimit(resource.RLIMIT_NOFILE)[1])))
    limits = {"bind_seconds": BIND_SECONDS, "write_seconds": WRITE_SECONDS, "idle_seconds": 120}
    with centre(program, NODES, ACCOUNTS, given.keep, **limits) as (serving, ports), contextlib.ExitStack() as stack:
        rough = Rough(serving, ports, checks, stack)
        try:
            rough.all(parts_of(given.only))
        except (Ended, OSError, ValueError) as fault:
            checks.check("goes_on", False, f"{type(fault).__name__}: {fault}; {serving.said()}")
    checks.end()


if __name__ == "__main__":
    main()
