"""The halves of a run over three nodes, between which `centre serve` is started anew: by an orderly end, and by a kill. tools/clients.py calls them."""
import contextlib
import time

import pdus
from plain_esme import Ended, Esme, wait

NODES = (1, 2, 3)
# As centre.toml has it.
FIRST_SERIAL = 101
SME1, SME2 = "155", "255"
IN_AN_HOUR = "000000010000000R"
# So many seconds after its submit_sm a message is due that has to wait for the next start; and the most that a first attempt and a second one lie apart, a
# minute, with what it takes to be told of it.
LATER, SECOND_ATTEMPT = 20, 90
# A node's clock shows the whole second of its last tick, and a tick comes each second or a little later: so far it may lie behind, and what is due in so many
# seconds by it comes so much earlier.
BEHIND = 2.5
FINAL = {pdus.DELIVERED, pdus.EXPIRED, pdus.DELETED, pdus.UNDELIVERABLE, pdus.REJECTED}


class Halves:
    def __init__(self, check, ports):
        self.check, self.ports = check, ports
        # What query_sm told of the messages whose end is known, and the ids of the others, each by its name.
        self.told, self.ids, self.due = {}, {}, {}
        self.esmes = []

    def bind(self):
        """Binds sme1 at each node."""
        self.close()
        for node in NODES:
            self.esmes.append(self.bound(node, "sme1", "pw1"))

    def bound(self, node, system_id, password):
        esme = Esme(self.ports[node - 1])
        found = esme.bind(system_id, password)
        if found is None or found.status != pdus.OK:
            raise Ended(f"the bind of {system_id} at node {node} was answered {found}")
        return esme

    def close(self):
        for esme in self.esmes:
            esme.close()
        self.esmes = []

    def wait(self, test, seconds):
        return wait(self.esmes, test, seconds)

    def submit(self, name, node, destination=SME1, **fields):
        found = self.esmes[node - 1].submitted(destination, name.encode(), **fields)
        if not found:
            raise Ended(f"submit_sm of {name} was not answered ESME_ROK")
        return found

    def states(self, message_id):
        """What each node tells of a message: its state, its error and its final_date."""
        return [(state, error, date) for status, date, state, error in (esme.state(message_id) for esme in self.esmes)]

    def have(self, message_id, state):
        return [told[0] for told in self.states(message_id)] == [state] * len(NODES)

    def messages(self, name):
        return [one for esme in self.esmes for one in esme.messages(name.encode())]

    def answer_with(self, status):
        for esme in self.esmes:
            esme.status = status

    # The first half.

    def first(self):
        self.bind()
        self.before = time.time()
        self.ended("expired", 1, pdus.EXPIRED, destination=SME2, validity="000000000003000R")
        for node in NODES:
            self.ended(f"delivered_{node}", node, pdus.DELIVERED)
        self.answer_with(pdus.REJECTED_BY_APPLICATION)
        self.ended("rejected", 2, pdus.REJECTED)
        self.answer_with(pdus.PERMANENT_ERROR)
        self.ended("undeliverable", 3, pdus.UNDELIVERABLE)
        self.answer_with(pdus.OK)
        self.deleted("deleted", 1, 2)
        for node in NODES:
            self.due[f"later_{node}"] = time.time() + LATER
            self.ids[f"later_{node}"] = self.submit(f"later_{node}", node, schedule=f"0000000000{LATER}000R")
            self.ids[f"in_an_hour_{node}"] = self.submit(f"in_an_hour_{node}", node, schedule=IN_AN_HOUR)
        self.ids["no_session"] = self.submit("no_session", 3, destination=SME2)
        self.answer_with(None)
        self.ids["open"] = self.submit("open", 1)
        self.check("attempt_is_open", self.wait(lambda: self.messages("open"), 10), "no deliver_sm")
        for name, message_id in self.ids.items():
            self.check(f"enroute_before_{name}", self.have(message_id, pdus.ENROUTE), lambda: self.states(message_id))

    def ended(self, name, node, state, **fields):
        """Submits a message, and notes what is told of it once it has this state at each node."""
        message_id = self.submit(name, node, **fields)
        self.wait(lambda: self.have(message_id, state), 15)
        self.note(name, message_id, state)

    def deleted(self, name, node, other):
        message_id = self.submit(name, node, schedule=IN_AN_HOUR)
        found = self.esmes[other - 1].cancel(message_id)
        self.check(f"cancel_at_another_node_of_{name}", found == pdus.OK, found)
        self.note(name, message_id, pdus.DELETED)

    def note(self, name, message_id, state):
        told = self.states(message_id)
        self.told[name] = (message_id, told[0])
        self.check(f"one_fate_of_{name}", set(told) == {told[0]} and told[0][0] == state, told)

    def goodbye(self):
        """After an orderly end each connection is closed."""
        closed = [self.is_closed(esme) for esme in self.esmes]
        self.check("connections_are_closed", all(closed), closed)
        self.close()

    def is_closed(self, esme):
        with contextlib.suppress(OSError):
            return esme.is_closed(5)
        return True

    # The second half.

    def second(self, incarnations):
        self.bind()
        self.keep()
        for name, message_id in self.ids.items():
            told = self.states(message_id)
            may_be = {pdus.ENROUTE, pdus.DELIVERED} if name.startswith("later") and time.time() >= self.due[name] - BEHIND else {pdus.ENROUTE}
            self.check(f"known_after_{name}", {one[0] for one in told} <= may_be, told)
        anew = self.submit("anew", 2)
        self.check("id_of_the_new_incarnation", anew == f"2{incarnations[2]:04d}{FIRST_SERIAL:05d}", anew)
        self.check("delivered_after", self.wait(lambda: self.have(anew, pdus.DELIVERED), 15), lambda: self.states(anew))
        self.no_session()
        self.laters()
        self.hours()

    def keep(self, when="after"):
        """What was told of a message is told again, by each node; a cancel changes nothing of it."""
        for name, (message_id, told) in self.told.items():
            now = self.states(message_id)
            self.check(f"kept_{when}_{name}", set(now) == {told}, lambda: (told, now))
        found = self.esmes[0].cancel(self.told["delivered_2"][0])
        self.check(f"cancel_of_delivered_{when}", found == pdus.CANCEL_FAILED, found)
        found = self.esmes[2].cancel(self.told["deleted"][0])
        self.check(f"cancel_of_deleted_{when}", found == pdus.OK, found)

    def no_session(self):
        with self.bound(2, "sme2", "pw2") as other:
            came = wait([*self.esmes, other], lambda: other.messages(b"no_session"), 15)
            self.check("delivered_once_there_is_a_session", came, "no deliver_sm")
            message_id = self.ids.pop("no_session")
            self.check("fate_of_no_session", self.wait(lambda: self.have(message_id, pdus.DELIVERED), 10), lambda: self.states(message_id))
            other.unbind()

    def laters(self):
        """What was scheduled before the end is delivered at its time, and not before."""
        names = [name for name in self.due if name in self.ids]
        came = {}

        def all_came():
            for name in names:
                if name not in came and self.messages(name):
                    came[name] = time.time()
            return len(came) == len(names)
        self.wait(all_came, LATER + 15)
        for name in names:
            is_in_time = name in came and came[name] >= self.due[name] - BEHIND
            self.check(f"delivered_{name}", is_in_time and len(self.messages(name)) == 1, lambda: (came.get(name), self.due[name]))
            message_id = self.ids.pop(name)
            self.wait(lambda: self.have(message_id, pdus.DELIVERED), 10)
            self.note(name, message_id, pdus.DELIVERED)
            node = int(name[-1])
            receipt = self.wait(lambda: self.esmes[node - 1].receipts(message_id), 10)
            self.check(f"receipt_of_{name}", receipt and b" stat:DELIVRD " in receipt[0]["short_message"], receipt)

    def hours(self):
        """What was scheduled long before is cancelled."""
        for node in NODES:
            message_id = self.ids.pop(f"in_an_hour_{node}")
            found = self.esmes[node % 3].cancel(message_id)
            self.check(f"cancel_after_in_an_hour_{node}", found == pdus.OK, found)
            self.note(f"in_an_hour_{node}", message_id, pdus.DELETED)

    # Before a kill, and after it.

    def before_kill(self):
        """Ten submit_sm a node in one write: what is answered ESME_ROK is to be known after the kill."""
        sent = []
        for esme in self.esmes:
            body = pdus.message_body(b"before a kill", source="144", destination=SME1, registered=1, schedule="000000000010000R")
            frames = [esme.framed(pdus.SUBMIT_SM, body) for _ in range(10)]
            esme.send(b"".join(frames))
            sent += [(esme, sequence) for sequence in range(esme.sequence - 9, esme.sequence + 1)]
        self.answered = [found for esme, sequence in sent if (found := esme.id_of(sequence))]
        self.check("answered_before_the_kill", len(set(self.answered)) == 10 * len(NODES), self.answered)

    def after_kill(self):
        self.bind()
        self.keep("after_the_kill")
        lost = [message_id for message_id in self.answered if not {told[0] for told in self.states(message_id)} <= {pdus.ENROUTE, pdus.DELIVERED}]
        self.check("nothing_acknowledged_is_lost", not lost, lost)

        def all_delivered():
            return all(self.esmes[0].state(message_id)[2] == pdus.DELIVERED for message_id in self.answered)
        self.check("delivered_after_the_kill", self.wait(all_delivered, 30), lambda: [self.esmes[0].state(message_id) for message_id in self.answered])
        count = len(self.messages("before a kill"))
        self.check("delivered_once_after_the_kill", count == len(self.answered), count)

    def open_attempt(self):
        """A message whose deliver_sm was open at the end is attempted again, a minute later at the earliest, and delivered."""
        message_id = self.ids.pop("open")
        self.wait(lambda: self.messages("open"), SECOND_ATTEMPT)
        self.check("open_attempt_comes_again", len(self.messages("open")) == 1, lambda: self.messages("open"))
        self.check("fate_of_open", self.wait(lambda: self.have(message_id, pdus.DELIVERED), 10), lambda: self.states(message_id))
        self.check("receipt_of_open", self.wait(lambda: self.esmes[0].receipts(message_id), 10), "no receipt")
