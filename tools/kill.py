#!/usr/bin/env python3
"""Kills `centre serve` at random moments under load, again and again, and looks whether all that its clients were told stays true.

    python3 tools/kill.py PROGRAM [--kills N] [--a-store N] [--seconds N] [--seed N] [--first N] [--keep]

PROGRAM is the built program. It serves three nodes over files; at each node a client submits messages (with a receipt and without, for now and for later, to an
account that answers and to one that has no session), queries and cancels them, and another gets deliver_sm and answers them in all ways. `serve` is killed by
SIGKILL, N times in all (200): four of five times under load, after --seconds (1.5) at most, and else in its first second. It is started again over the same
stores, which are fresh after each --a-store kills (10), since a start asks for every message that ever was. After each start every message that was answered
ESME_ROK, or told by a receipt, is queried at one of the nodes, and after the last one of a store at each of them.
What must hold, of all that clients read in all lives of a store:

    known      a query_sm of such a message is answered ESME_ROK, and no two submit_sm have one message_id
    one end    whoever tells the end of a message (query_sm_resp, a cancel_sm_resp with ESME_ROK, a receipt) tells the same state, error and moment as before
    ended      a query_sm that was sent after an end was told is not answered ENROUTE, and a cancel_sm as the end wants it
    no more    no deliver_sm of a message comes after its end was told, of which DELETED by a cancel_sm is one
    once       no two receipts of a message come

It prints a line for each store, then the figures; the exit status is 1 if something did not hold, and each fault names its store and its life. Store K draws
all its choices from the seed and K, so `--seed SEED --first K --kills 10` plays it again, as far as the threads of `serve` let it. It uses the standard
library alone, and ends what it started.
"""
import argparse
import collections
import contextlib
import pathlib
import random
import select
import sys
import threading
import time

sys.path.insert(0, str(pathlib.Path(__file__).resolve().parent / "clients"))

import pdus
from centres import bound, centre, program_of, started
from plain_esme import Ended, Esme

NODES = 3
WINDOW = 8
# How many messages are submitted between two kills at most.
MOST_SUBMITS = 60
# How long the queries after a start may take, and an orderly end.
CHECK_SECONDS, END_SECONDS = 120, 60
ACCOUNTS = {"sender": "9", "getter": "1", "absent": "2"}
# What the text of a message asks of who gets it.
WISHES = {"ok": pdus.OK, "permanent": pdus.PERMANENT_ERROR, "refused": pdus.REJECTED_BY_APPLICATION, "failing": 0x64, "silent": None}
WEIGHTS = {"ok": 12, "permanent": 2, "refused": 2, "failing": 2, "silent": 1}
FINAL = {pdus.DELIVERED: "DELIVRD", pdus.EXPIRED: "EXPIRED", pdus.DELETED: "DELETED", pdus.UNDELIVERABLE: "UNDELIV", pdus.REJECTED: "REJECTD"}
STATES = {name: state for state, name in FINAL.items()}
# Answers that leave open what became of a request: it is asked again, or forgotten.
OPEN = (pdus.SYSTEM_ERROR, pdus.THROTTLED)
MOST_ERROR = 255


class Told:
    """What the clients were told of the messages of one store, in all lives of it."""

    def __init__(self, where):
        self.where, self.faults, self.counts = where, [], collections.Counter()
        # By message_id: the texts, and what was told of its end. By text: who told it. Of which messages a receipt came.
        self.texts, self.ends, self.over, self.receipted = {}, {}, {}, set()
        self.before_end = lambda: None

    def fault(self, text):
        self.faults.append(f"{self.where()}: {text}")
        print(f"not ok {self.faults[-1]}", flush=True)

    def accepted(self, message_id, text):
        self.counts["submit_sm answered ESME_ROK"] += 1
        if message_id in self.texts:
            self.fault(f"{message_id} was given to {self.texts[message_id]} and to {text}")
        self.texts[message_id] = text
        self.ends.setdefault(message_id, {})

    def end(self, by, message_id, **told):
        """Notes an end; what is told of it must be what was told before."""
        self.counts[f"ends told by {by}"] += 1
        if not self.ends.get(message_id):
            self.before_end()
        known = self.ends.setdefault(message_id, {})
        for name, value in told.items():
            if known.setdefault(name, value) != value:
                self.fault(f"{by} tells {name} {value} of {message_id}, and before it was {known}")
        if message_id in self.texts:
            self.over.setdefault(self.texts[message_id], by)

    def delivered(self, text):
        self.counts["deliver_sm"] += 1
        if text in self.over:
            self.fault(f"a deliver_sm of {text} came after its end was told by {self.over[text]}")


class Client(Esme):
    """A connection that may be cut by a kill at any time: what it sends then is lost."""

    def send(self, octets):
        with contextlib.suppress(OSError):
            super().send(octets)


class Getter(Client):
    """It gets messages, and answers each as its text wants it."""

    told = None

    def serve(self, pdu):
        if pdu.command != pdus.DELIVER_SM:
            return super().serve(pdu)
        text = pdus.message(pdu.body)["short_message"].decode()
        self.told.delivered(text)
        status = WISHES[text.split()[-1]]
        if status is not None:
            self.send(pdus.frame(pdu.command | pdus.RESPONSE, pdu.sequence, b"\0", status))


class Sender(Client):
    """It submits, queries and cancels, with a window of requests, and reads receipts."""

    told = random = None

    def begin(self, told, choices, name):
        self.told, self.random, self.name = told, choices, name
        self.open, self.to_ask, self.is_free, self.left, self.number = {}, collections.deque(), False, 0, 0

    def is_idle(self):
        return not self.open and not self.to_ask

    def go_on(self):
        """Fills the window: with what it has to ask, and then with what it likes, if it is at leisure."""
        while len(self.open) < WINDOW:
            if self.to_ask:
                self.query(self.to_ask.popleft())
            elif self.is_free:
                self.do_something()
            else:
                return

    def do_something(self):
        known = list(self.told.ends)
        action = self.random.choices(("submit", "query", "cancel"), (8 if self.left else 0, 4, 1))[0] if known else "submit"
        if action == "submit":
            self.left -= 1
            self.submit_one()
            return
        # The newest messages are the ones of which something is under way.
        message_id = self.random.choice(known[-20:] if self.random.random() < 0.7 else known)
        if action == "query":
            self.query(message_id)
        else:
            self.open[self.request(pdus.CANCEL_SM, pdus.cancel_body(message_id, "144"))] = ("cancel", message_id, dict(self.told.ends[message_id]))

    def submit_one(self):
        self.number += 1
        text = f"{self.name}.{self.number} {self.random.choices(list(WEIGHTS), WEIGHTS.values())[0]}"
        fields = {"registered": self.random.choice((0, 1, 1, 2)), "destination": self.random.choice(("155", "155", "155", "255"))}
        later = self.random.random()
        if later < 0.2:
            fields["schedule"] = f"0000000000{self.random.randint(1, 5):02d}000R"
        elif later < 0.3:
            fields["schedule"] = "000000010000000R"
        elif later < 0.5:
            fields["validity"] = f"0000000000{self.random.randint(2, 9):02d}000R"
        body = pdus.message_body(text.encode(), source="144", **fields)
        self.open[self.request(pdus.SUBMIT_SM, body)] = ("submit", text, None)

    def query(self, message_id):
        body = pdus.query_body(message_id, "144")
        self.open[self.request(pdus.QUERY_SM, body)] = ("query", message_id, dict(self.told.ends[message_id]))

    def serve(self, pdu):
        if pdu.command == pdus.DELIVER_SM:
            self.receipt(pdus.message(pdu.body)["short_message"].decode())
            return super().serve(pdu)
        if pdu.sequence not in self.open:
            return super().serve(pdu)
        action, about, before = self.open.pop(pdu.sequence)
        self.told.counts[f"{action}_sm answered"] += 1
        if pdu.status in OPEN:
            self.told.counts[f"{action}_sm answered 0x{pdu.status:02x}"] += 1
            if action == "query":
                self.to_ask.append(about)
            return None
        return {"submit": self.submitted_one, "query": self.queried, "cancel": self.cancelled}[action](pdu, about, before)

    def submitted_one(self, pdu, text, _):
        if pdu.status != pdus.OK or pdu.command != pdus.SUBMIT_SM | pdus.RESPONSE:
            return self.told.fault(f"the submit_sm of {text} was answered {pdu}")
        return self.told.accepted(pdus.Reader(pdu.body).text(), text)

    def queried(self, pdu, message_id, before):
        if pdu.status != pdus.OK or pdu.command != pdus.QUERY_SM | pdus.RESPONSE:
            return self.told.fault(f"the query_sm of {message_id} was answered {pdu}")
        date, state, error = pdus.state(pdu.body)
        if state in FINAL:
            return self.told.end("query_sm_resp", message_id, state=state, error=error, minute=date[:10], date=date)
        if state != pdus.ENROUTE or before:
            self.told.fault(f"the query_sm of {message_id} was answered state {state}, and it was {before} before")
        return None

    def cancelled(self, pdu, message_id, before):
        wanted = {pdus.OK, pdus.CANCEL_FAILED}
        if before:
            wanted = {pdus.OK} if before["state"] == pdus.DELETED else {pdus.CANCEL_FAILED}
        if pdu.status not in wanted or pdu.command != pdus.CANCEL_SM | pdus.RESPONSE:
            return self.told.fault(f"the cancel_sm of {message_id} was answered {pdu}, and it was {before} before")
        if pdu.status == pdus.OK:
            self.told.end("cancel_sm_resp", message_id, state=pdus.DELETED)
        return None

    def receipt(self, text):
        words = dict(word.split(":", 1) for word in text.replace("submit date", "submit").replace("done date", "done").split(" text:")[0].split(" "))
        if words["stat"] not in STATES:
            return self.told.fault(f"a receipt: {text}")
        if words["id"] in self.told.receipted:
            self.told.fault(f"a second receipt of {words['id']}")
        self.told.receipted.add(words["id"])
        return self.told.end("receipt", words["id"], state=STATES[words["stat"]], error=min(int(words["err"]), MOST_ERROR), minute=words["done"])


def serve_ready(esmes, seconds):
    """Serves what comes to these, waiting so long at most."""
    up = [one for one in esmes if not one.is_ended]
    for one in select.select(up, [], [], seconds)[0]:
        with contextlib.suppress(Ended):
            one.take()
    return bool(up)


class Store:
    """The lives of `serve` over one set of stores."""

    def __init__(self, number, given, serving, ports):
        self.number, self.given, self.serving, self.ports = number, given, serving, ports
        self.random, self.life, self.slowest = random.Random(f"{given.seed} {number}"), 0, 0.0
        self.told = Told(lambda: f"store {self.number}, life {self.life}")
        self.told.before_end = self.read_deliveries
        self.senders, self.getters = [], []

    def read_deliveries(self):
        """What came before an end that is told now was read before it."""
        while select.select([one for one in self.getters if not one.is_ended], [], [], 0)[0]:
            serve_ready(self.getters, 0)

    def start(self):
        """Starts `serve`, and binds the clients."""
        begun = time.monotonic()
        started(self.serving)
        self.getters, self.senders = [], []
        for node, port in enumerate(self.ports, 1):
            self.getters.append(bound(port, "getter", pdus.BIND_RECEIVER, self.getter_kind()))
            self.senders.append(bound(port, "sender", kind=self.sender_kind(f"{self.number}.{self.life}.{node}")))
        self.slowest = max(self.slowest, time.monotonic() - begun)

    def getter_kind(self):
        told = self.told

        def made(port):
            getter = Getter(port)
            getter.told = told
            return getter
        return made

    def sender_kind(self, name):
        def made(port):
            sender = Sender(port)
            sender.begin(self.told, self.random, name)
            return sender
        return made

    def close(self):
        for one in self.senders + self.getters:
            one.close()

    def check(self, at_all):
        """Queries every message, at one of the nodes or at all, and does nothing else."""
        for sender in self.senders:
            sender.is_free = False
        for place, message_id in enumerate(self.told.ends):
            for sender in self.senders if at_all else [self.senders[(place + self.life) % NODES]]:
                sender.to_ask.append(message_id)
                self.told.counts["queries after a start"] += 1
        end = time.monotonic() + CHECK_SECONDS
        while not all(sender.is_idle() for sender in self.senders):
            for sender in self.senders:
                sender.go_on()
            if not self.serving.is_up():
                raise Ended(f"serve ended by itself: {self.serving.said()}")
            if time.monotonic() > end:
                self.told.fault(f"no answer to {[list(sender.open.values())[:3] for sender in self.senders]}")
                return
            serve_ready(self.senders + self.getters, 0.1)

    def load(self, may_go_on=lambda: True):
        """Loads it until it has ended, or may not go on, and reads what was on its way then."""
        for sender in self.senders:
            sender.is_free, sender.left = True, MOST_SUBMITS // NODES
        while serve_ready(self.senders + self.getters, 0.05) and may_go_on():
            for sender in self.senders:
                if not sender.is_ended:
                    sender.go_on()

    def kill_under_load(self):
        timer = threading.Timer(self.random.uniform(0.02, self.given.seconds), self.serving.process.kill)
        timer.start()
        try:
            self.load()
        finally:
            timer.cancel()
        self.told.counts["requests open at a kill"] += sum(len(sender.open) for sender in self.senders)
        self.close()
        self.serving.kill()

    def kill_at_start(self):
        """Starts it, and kills it at a random moment of its first second."""
        timer = threading.Timer(self.random.uniform(0, 1), lambda: self.serving.process.kill())
        timer.start()
        self.serving.start(2)
        timer.join()
        self.serving.kill()

    def play(self, kills):
        """So many kills, each followed by a start and its checks."""
        for self.life in range(kills):
            if self.life and self.random.random() < 0.2:
                self.told.counts["kills while it starts"] += 1
                self.kill_at_start()
                continue
            self.start()
            self.check(False)
            self.told.counts["kills under load"] += 1
            self.kill_under_load()
        self.life = kills
        self.start()
        self.check(True)
        self.close()
        status = self.serving.end(END_SECONDS)
        if status != 0:
            self.told.fault(f"it did not end in order: {self.serving.said()}")

    def line(self):
        states = collections.Counter(FINAL[end["state"]] if end else "ENROUTE" for end in self.told.ends.values())
        shown = ", ".join(f"{count} {state}" for state, count in sorted(states.items()))
        entries = self.serving.lines[-1].split()[1] if self.serving.lines[-1:] and self.serving.lines[-1].startswith("ended:") else "?"
        return f"store {self.number}: {len(self.told.ends)} messages ({shown}), slowest start {self.slowest:.1f} s, {entries} steps in the last life"


def play_store(given, number, count, kind):
    """What was told of the messages of a store, and how many have which state at the end."""
    with centre(given.program, NODES, ACCOUNTS, given.keep, idle_seconds=120, write_seconds=10) as (serving, ports):
        store = kind(number, given, serving, ports)
        try:
            store.play(count)
        except (Ended, OSError, ValueError, KeyError) as fault:
            store.told.fault(f"{type(fault).__name__}: {fault}; {serving.said()}")
        finally:
            store.close()
        print(store.line(), flush=True)
        return store.told, collections.Counter(FINAL[end["state"]] if end else "ENROUTE" for end in store.told.ends.values())


def play_stores(given, left, what, kind):
    """Plays over as many stores as it takes, says what came of them, and ends."""
    begun = time.monotonic()
    print(f"seed {given.seed}", flush=True)
    counts, states, faults, number, all_of_them = collections.Counter(), collections.Counter(), [], given.first, left
    while left > 0:
        told, ended = play_store(given, number, min(left, given.a_store), kind)
        counts, states, faults = counts + told.counts, states + ended, faults + told.faults
        number, left = number + 1, left - given.a_store
    for name, count in sorted(counts.items()):
        print(f"{name}: {count:,}")
    print(f"messages at the end: {', '.join(f'{count:,} {state}' for state, count in sorted(states.items()))}")
    print(f"{all_of_them} {what} of {number - given.first} stores, seed {given.seed}, {time.monotonic() - begun:.0f} s: {len(faults)} wrong")
    sys.exit(1 if faults else 0)


def reader_of(description, seconds):
    """What reads the arguments that all who play over stores have."""
    reader = argparse.ArgumentParser(description=description, formatter_class=argparse.RawDescriptionHelpFormatter)
    reader.add_argument("program", metavar="PROGRAM", type=program_of)
    reader.add_argument("--a-store", type=int, default=10)
    reader.add_argument("--seconds", type=float, default=seconds)
    reader.add_argument("--seed", type=int, default=random.randrange(1_000_000))
    reader.add_argument("--first", type=int, default=1)
    reader.add_argument("--keep", action="store_true")
    return reader


def main():
    reader = reader_of(__doc__, 1.5)
    reader.add_argument("--kills", type=int, default=200)
    given = reader.parse_args()
    play_stores(given, given.kills, "kills", Store)


if __name__ == "__main__":
    main()
