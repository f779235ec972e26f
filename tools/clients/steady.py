"""A client that goes on all the time beside others that use the centre ill, and measures how long its answers take.

    python3 tools/clients/steady.py PORT ..

It binds the account `steady` at each of these ports of 127.0.0.1, submits a message to itself at each once a second, and queries the last one and sends an
enquire_link four times a second. Each line on standard input names the part of the test that begins. When the input ends, it waits until its messages are
delivered, and prints what it saw as one line of JSON. Other tools start it by the class `Steady`.
"""
import json
import pathlib
import subprocess
import sys
import threading
import time

sys.path.insert(0, str(pathlib.Path(__file__).resolve().parent))

import pdus
from centres import bound
from plain_esme import Ended, wait

NAME, DESTINATION = "steady", "777"
ROUND_SECONDS, ROUNDS_A_MESSAGE = 0.25, 4
# How long an answer may take until it counts as none, and how long the last deliveries may.
ANSWER_SECONDS, LAST_SECONDS = 40, 100


class Client:
    """It, as a process of its own."""

    def __init__(self, ports):
        self.esmes = [bound(port, NAME) for port in ports]
        self.part, self.slowest, self.wrong, self.texts = "start", {}, [], {}
        self.answers = self.number = 0
        self.is_over = False

    def read_parts(self):
        for line in sys.stdin:
            self.part = line.strip()
        self.is_over = True

    def ask(self, place, command, body=b""):
        """Sends a request, and gives its answer, which has to be ESME_ROK; how long it took is noted under the part in which it was sent."""
        esme, part, begun = self.esmes[place], self.part, time.monotonic()
        sequence = esme.request(command, body)
        wait(self.esmes, lambda: sequence in esme.answers, ANSWER_SECONDS)
        found, took = esme.answers.pop(sequence, None), time.monotonic() - begun
        self.slowest[part] = max(self.slowest.get(part, 0), took)
        self.answers += 1
        if found is None or found.command != command | pdus.RESPONSE or found.status != pdus.OK:
            self.wrong.append(f"{part}: command {command} at place {place} was answered {found} after {took:.1f} s")
            return None
        return found

    def submit(self, place):
        self.number += 1
        text = b"steady %d" % self.number
        found = self.ask(place, pdus.SUBMIT_SM, pdus.message_body(text, source="144", destination=DESTINATION, registered=1))
        if found:
            message_id = pdus.Reader(found.body).text()
            if message_id in self.texts:
                self.wrong.append(f"{message_id} was given twice")
            self.texts[message_id] = text

    def query(self, place, message_id, states):
        found = self.ask(place, pdus.QUERY_SM, pdus.query_body(message_id, "144"))
        if found and pdus.state(found.body)[1] not in states:
            self.wrong.append(f"{self.part}: {message_id} was told {pdus.state(found.body)}")

    def go_on(self):
        rounds = 0
        while not self.is_over:
            begun = time.monotonic()
            for place in range(len(self.esmes)):
                if rounds % ROUNDS_A_MESSAGE == 0:
                    self.submit(place)
                self.ask(place, pdus.ENQUIRE_LINK)
                if self.texts:
                    self.query(place, list(self.texts)[-1], (pdus.ENROUTE, pdus.DELIVERED))
            wait(self.esmes, lambda: False, max(0, begun + ROUND_SECONDS - time.monotonic()))
            rounds += 1

    def receipts(self, message_id):
        return sum(len(esme.receipts(message_id)) for esme in self.esmes)

    def finish(self):
        """Waits for the last deliveries, and looks at all of them."""
        self.part = "end"
        wait(self.esmes, lambda: all(self.receipts(message_id) for message_id in self.texts), LAST_SECONDS)
        came = [one["short_message"] for esme in self.esmes for one in esme.messages()]
        for message_id, text in self.texts.items():
            self.query(0, message_id, (pdus.DELIVERED,))
            if came.count(text) != 1 or self.receipts(message_id) != 1:
                self.wrong.append(f"{text} came {came.count(text)} times, and {self.receipts(message_id)} receipts of {message_id}")

    def told(self):
        return json.dumps({"answers": self.answers, "slowest": self.slowest, "wrong": self.wrong, "ids": list(self.texts)})


class Steady:
    """It, for whoever starts it."""

    def __init__(self, ports):
        self.process = subprocess.Popen([sys.executable, __file__, *map(str, ports)], stdin=subprocess.PIPE, stdout=subprocess.PIPE, text=True)
        if self.process.stdout.readline() != "bound\n":
            self.kill()
            raise Ended("the steady client is not bound")

    def part(self, name):
        """From now on what it asks is part of this."""
        self.process.stdin.write(f"{name}\n")
        self.process.stdin.flush()

    def end(self):
        """What it saw: how many answers, the slowest of each part, what was wrong, and the ids of its messages."""
        self.process.stdin.close()
        try:
            return json.loads(self.process.stdout.read())
        finally:
            self.kill()

    def kill(self):
        self.process.kill()
        self.process.wait()


def main():
    if len(sys.argv) < 2:
        sys.exit(__doc__)
    client = Client([int(word) for word in sys.argv[1:]])
    print("bound", flush=True)
    threading.Thread(target=client.read_parts, daemon=True).start()
    try:
        client.go_on()
        client.finish()
    except (Ended, OSError) as fault:
        client.wrong.append(f"{client.part}: {type(fault).__name__}: {fault}")
    print(client.told())


if __name__ == "__main__":
    main()
