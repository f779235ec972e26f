"""ESMEs that stay bound while `centre serve` goes on past the end of parts of its journal, and its nodes start anew. tools/clients.py calls them."""
import re
import time

import pdus
from plain_esme import Ended, Esme, wait

NODES = (1, 2, 3)
DESTINATION = "155"
# How many parts are to be closed and how many nodes to start anew, and for how many seconds that is waited for.
PARTS, STARTS, SECONDS = 3, 2, 90
# How long an ESME waits between two submit_sm; and for how long it is waited until all is delivered, of which a few are attempted again a minute later, since
# their node started anew.
PAUSE, DELIVERY = 0.1, 120
PART = re.compile(r"part (\d+): entries (\d+), final states told \d+, deliveries cut short \d+, closed in (\d+) ms")
ANEW = re.compile(r"node (\d+): started anew, incarnation (\d+)")


class GoingOn:
    def __init__(self, check, ports, serving):
        self.check, self.ports, self.serving = check, ports, serving
        self.ids, self.refused, self.unanswered, self.esmes = [], [], 0, []

    def run(self):
        self.esmes = [self.bound(port) for port in self.ports]
        try:
            self.go_on()
        except Ended as ended:
            self.check("sessions_stay", False, ended)
            return
        self.check("sessions_stay", not any(esme.is_ended for esme in self.esmes))
        self.answers()
        self.fates()
        for esme in self.esmes:
            esme.close()

    def bound(self, port):
        esme = Esme(port)
        found = esme.bind("sme1", "pw1")
        if found is None or found.status != pdus.OK:
            raise Ended(f"the bind at {port} was answered {found}")
        return esme

    def matches(self, pattern):
        return [found for line in self.serving.lines[self.serving.first:] if (found := pattern.fullmatch(line))]

    def go_on(self):
        """Submits a message at each node again and again, until so many parts are closed and so many nodes have started anew."""
        end = time.monotonic() + SECONDS
        while time.monotonic() < end and (len(self.matches(PART)) < PARTS or len(self.matches(ANEW)) < STARTS):
            sent = [(esme, esme.submit(DESTINATION, b"on and on")) for esme in self.esmes]
            wait(self.esmes, lambda: all(sequence in esme.answers for esme, sequence in sent), 40)
            for esme, sequence in sent:
                self.note(esme.answers.pop(sequence, None))
            wait(self.esmes, lambda: False, PAUSE)
        parts, starts = self.matches(PART), self.matches(ANEW)
        self.check("parts_are_closed", len(parts) >= PARTS, self.serving.said)
        self.check("nodes_start_anew", len(starts) >= STARTS, self.serving.said)
        numbers = [int(found[1]) for found in parts]
        self.check("parts_are_numbered", numbers == list(range(1, len(numbers) + 1)), numbers)

    def note(self, found):
        if found is None:
            self.unanswered += 1
        elif found.status == pdus.OK:
            self.ids.append(pdus.Reader(found.body).text())
        else:
            self.refused.append(found.status)

    def answers(self):
        """Each submit_sm was answered: with an id of its own, or, if it waited as its node started anew, with 0x08."""
        self.check("each_is_answered", self.unanswered == 0, self.unanswered)
        self.check("ids_are_unlike", len(set(self.ids)) == len(self.ids) > 0, len(self.ids))
        self.check("few_are_refused", set(self.refused) <= {8} and len(self.refused) <= len(self.matches(ANEW)), self.refused)

    def fates(self):
        """All that was accepted is delivered, is told so by each node, and has its receipt at the node of its id. No session is idle meanwhile."""
        left = set(self.ids)

        end = time.monotonic() + DELIVERY
        while left and time.monotonic() < end:
            left -= {one for one in left if self.esmes[0].state(one)[2] == pdus.DELIVERED}
            wait(self.esmes, lambda: False, 2)
            for esme in self.esmes:
                esme.ask(pdus.ENQUIRE_LINK)
        self.check("all_are_delivered", not left, sorted(left)[:5])
        wait(self.esmes, lambda: False, 1)
        strange = [one for one in self.ids if {esme.state(one)[2] for esme in self.esmes} != {pdus.DELIVERED}]
        self.check("each_node_tells_so", not strange, strange[:5])
        silent = [one for one in self.ids if not self.esmes[int(one[0]) - 1].receipts(one)]
        self.check("each_has_its_receipt", not silent, silent[:5])
        twice = len([1 for esme in self.esmes for _ in esme.messages(b"on and on")]) - len(self.ids) - len(self.refused)
        self.check("none_is_delivered_twice", twice <= 0, twice)
