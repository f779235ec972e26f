#!/usr/bin/env python3
"""Writes the stores that `crates/earlier_stores` opens, by the built program of any commit, and prints what its clients were told.

    python3 tools/earlier_store.py PROGRAM FOLDER [--nodes N]

PROGRAM serves one node (or three) over files of FOLDER, which has none of them yet: `alone.db`, or `one_of_three.db`, `two_of_three.db`, `three_of_three.db`,
each with its log beside it (`-wal`). sme1 submits messages at each node, and reads receipts there; sme2 gets deliver_sm at the last node alone, and answers
them as their texts ask for; sme3 never binds. At a node alone one attempt fails twice, a minute apart. While the last one is open, which sme2 does not answer,
the program is killed by SIGKILL. So the files are as it left them.

For each message it prints a line: its message_id, registered_delivery, the front of its text, what the last query_sm_resp told, and each receipt that came. The
exit status is 1 if something did not come. It uses the standard library alone, and ends what it started.
"""
import argparse
import pathlib
import sys
import time

sys.path.insert(0, str(pathlib.Path(__file__).resolve().parent / "clients"))

import pdus
from centres import bound, configuration, program_of, started
from plain_esme import Esme, Ended, wait
from ports import free_ports
from serving import Serving

ACCOUNTS = {"sme1": "1", "sme2": "2", "sme3": "3"}
FILES = {1: ("alone",), 3: ("one_of_three", "two_of_three", "three_of_three")}
# What sme2 answers, by the last word of a text; nothing to "silent".
WISHES = {"taken": pdus.OK, "unknown": pdus.PERMANENT_ERROR, "refused": pdus.REJECTED_BY_APPLICATION, "busy": 0x64, "silent": None}
# Longer than the minute behind which a second attempt is due.
LONGEST = 90
LONG_TEXT = b"A text of 254 octets " + b"." * 233


class Getter(Esme):
    """sme2. It keeps how often it was handed each text."""

    def __init__(self, port):
        super().__init__(port)
        self.count = {}

    def serve(self, pdu):
        if pdu.command != pdus.DELIVER_SM:
            return super().serve(pdu)
        text = pdus.message(pdu.body)["short_message"].decode()
        self.count[text] = self.count.get(text, 0) + 1
        status = WISHES[text.split()[-1]]
        if status is not None:
            self.send(pdus.frame(pdu.command | pdus.RESPONSE, pdu.sequence, b"\0", status))
        return None


class Play:
    """The clients, and the messages that were submitted: the message_id of each, its node, its text and its registered_delivery."""

    def __init__(self, ports):
        self.getter = bound(ports[-1], "sme2", pdus.BIND_RECEIVER, Getter)
        self.senders = [bound(port, "sme1") for port in ports]
        self.messages = []

    def close(self):
        for one in [*self.senders, self.getter]:
            one.close()

    def submit(self, text, node=1, destination="255", registered=1, parameters=(), **fields):
        octets = text if isinstance(text, bytes) else text.encode()
        message_id = self.senders[node - 1].submitted(destination, octets, parameters, registered=registered, **fields)
        self.messages.append((message_id, node, octets.decode(), registered))
        return message_id

    def wait(self, test, what):
        if not wait([*self.senders, self.getter], test, LONGEST):
            raise Ended(f"{what} did not come")

    def handed(self, text, times=1):
        """Waits until sme2 was handed a text so often."""
        self.wait(lambda: self.getter.count.get(text, 0) == times, f"the deliver_sm of {text}")

    def ended(self, message_id, state, node=1):
        """Waits until a query_sm tells this state."""
        self.wait(lambda: self.senders[node - 1].state(message_id)[2] == state, f"state {state} of {message_id}")

    def told(self, message_id, node=1):
        """Waits for the receipt of a message."""
        self.wait(lambda: self.senders[node - 1].receipts(message_id), f"the receipt of {message_id}")

    def cancel(self, message_id, node=1):
        if self.senders[node - 1].cancel(message_id) != pdus.OK:
            raise Ended(f"the cancel_sm of {message_id} was not answered ESME_ROK")

    def failed(self, message_id, error, node=1):
        """Waits until a query_sm tells this error."""
        self.wait(lambda: self.senders[node - 1].state(message_id)[3] == error, f"error {error} of {message_id}")

    def lines(self):
        for message_id, node, text, registered in self.messages:
            _, date, state, error = self.senders[node - 1].state(message_id)
            receipts = [one["short_message"].decode() for one in self.senders[node - 1].receipts(message_id)]
            yield f"{message_id} registered_delivery {registered} '{text[:20]}': message_state {state} final_date '{date}' error_code {error}; {receipts}"


def play_alone(play):
    """One message of each end, with a receipt and without; then those that have not ended."""
    busy = play.submit("first busy")
    for text, registered, state in (("one taken", 1, pdus.DELIVERED), ("two unknown", 1, pdus.UNDELIVERABLE), ("three refused", 2, pdus.REJECTED),
                                    ("four taken", 0, pdus.DELIVERED), ("five taken", 2, pdus.DELIVERED)):
        message_id = play.submit(text, registered=registered)
        play.ended(message_id, state)
        if (registered, state) not in ((0, pdus.DELIVERED), (2, pdus.DELIVERED)):
            play.told(message_id)
    late = play.submit("six is late", destination="355", validity="000000000002000R")
    play.told(late)
    for text, registered in (("seven is deleted", 1), ("eight is deleted", 0)):
        message_id = play.submit(text, destination="355", registered=registered)
        play.cancel(message_id)
        if registered:
            play.told(message_id)
    play.submit("nine waits", destination="355")
    play.submit(LONG_TEXT, destination="355", registered=2, parameters=((pdus.USER_MESSAGE_REFERENCE, b"\0\7"),))
    play.handed("first busy", 2)
    play.failed(busy, 0x64)
    play.submit("last silent")
    play.handed("last silent")


def play_three(play):
    """At node 1 a message that is delivered, at node 2 one that is deleted, at node 3 one that nobody knows, all told of; one that waits, and one under way."""
    play.told(play.submit("one taken"))
    deleted = play.submit("two is deleted", 2, destination="355")
    play.cancel(deleted, 2)
    play.told(deleted, 2)
    play.told(play.submit("three unknown", 3), 3)
    play.submit("four waits", 3, destination="355")
    play.submit("last silent", 2)
    play.handed("last silent")


def write(given):
    given.folder.mkdir(exist_ok=True)
    names = FILES[given.nodes]
    stores = [given.folder / f"{name}.db" for name in names]
    if found := [store.name for store in stores if store.exists()]:
        sys.exit(f"{given.folder} has {', '.join(found)} already")
    ports = free_ports(given.nodes)
    text = configuration(given.folder, ports, ACCOUNTS, {})
    for number, name in enumerate(names, 1):
        text = text.replace(f"{given.folder}/{number}.db", f"{given.folder}/{name}.db")
    (given.folder / "centre.toml").write_text(text)
    serving = Serving(given.program, given.folder / "centre.toml", given.folder)
    try:
        started(serving)
        play = Play(ports)
        (play_alone if given.nodes == 1 else play_three)(play)
        print(*play.lines(), sep="\n")
        # By now each node has voted on all that was decided.
        time.sleep(1)
    finally:
        serving.kill()
    play.close()


def main():
    reader = argparse.ArgumentParser(description=__doc__, formatter_class=argparse.RawDescriptionHelpFormatter)
    reader.add_argument("program", metavar="PROGRAM", type=program_of)
    reader.add_argument("folder", metavar="FOLDER", type=lambda word: pathlib.Path(word).resolve())
    reader.add_argument("--nodes", type=int, choices=FILES, default=1)
    try:
        write(reader.parse_args())
    except (Ended, OSError) as fault:
        sys.exit(f"{fault}")


if __name__ == "__main__":
    main()
