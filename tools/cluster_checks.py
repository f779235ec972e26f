#!/usr/bin/env python3
"""Runs the program over scripts of several nodes, and looks whether what it prints keeps the promises that `tools/judge.py` lists.

    python3 tools/cluster_checks.py PROGRAM              # runs a built program, as crates/centre/out/centre
    python3 tools/cluster_checks.py --try                # builds the program unproved, by `rt try` in crates/centre
    python3 tools/cluster_checks.py --write FOLDER       # writes the scripts there, for a look
    python3 tools/cluster_checks.py .. --only FAMILY ..  # some families alone

The families:

    one_down         nine nodes, of which one is down: each in turn, as a bystander, as the author of the message or as its worker, from each phase on
    many_down        one to nine nodes, of which as many are down as leave a majority, and one more
    parted           two to nine nodes in two parts, in one of which a message is delivered, and in the other one cancelled; then the parts meet
    replayed         one to nine nodes, each packet at least twice, and in reverse: behind each settle, or in its place
    crashed          three nodes, of which one stops at each packet that comes to it, before its save and after; then it starts anew
    random           three to five nodes, lines drawn by lot: packets lost, repeated and in any order, stops, starts anew, cancels

In each but the last a message is driven to an end, DELIVERED, REJECTED, UNDELIVERABLE, DELETED or EXPIRED, and what its queries have to be
answered is known from the script. Behind each line of a script stands an enquire_link on a session of its own, at a node that never
stops, so that each line of the output has its line of the script. A family prints one line: its scripts, and how many ended how. At a promise that is
not kept, and at another answer, the script is printed, and the exit status is 1. This is beside the gate. What `rt try` builds takes about 20 minutes for all.
"""
import argparse
import collections
import pathlib
import random
import re
import subprocess
import sys
import tempfile

from judge import CANCEL, DELIVER, OK, QUERY, RESPONSE, SUBMIT, Breach, judged

ROOT = pathlib.Path(__file__).resolve().parent.parent
CASE = re.compile(r"^case=(\S+) run=(\S+) status=(\d+)", re.MULTILINE)
TRANSMITTER, TRANSCEIVER, ENQUIRE = 0x02, 0x09, 0x15
MIDNIGHT = 1_706_659_200
# What the ESME answers to an attempt, or None if the end does not come of one.
ANSWERS = {"DELIVERED": OK, "REJECTED": 0x66, "UNDELIVERABLE": 0x65, "DELETED": None, "EXPIRED": None}
# The lines of the random scripts, each as often as it is drawn.
DRAWN = ["come"] * 5 + ["settle"] * 3 + ["tick", "grant"] * 2 + ["replay", "answer", "query", "cancel", "submit", "crash", "restart"]
UNKNOWN, LATE = "ESME_RINVMSGID", "ESME_RSYSERR"
MINUTE = b"000000000100000R\0"


def pdu(command, sequence, body=b"", status=OK):
    words = (16 + len(body), command, status, sequence)
    return b"".join(word.to_bytes(4, "big") for word in words).hex() + body.hex()


class Script:
    """The lines of a script; what queries have to be answered, by their node, session and sequence_number; and what lines have to print, by their
    places. The ESME is one account: session 1 of each node."""

    def __init__(self, name, nodes, marker):
        self.name, self.marker = name, marker
        self.lines, self.wanted, self.printed = [f"nodes {nodes}"], {}, {}
        self.sequence = 0
        self.last = None

    def say(self, *lines):
        self.lines.extend(lines)

    def send(self, node, command, body=b""):
        self.sequence += 1
        self.say(f"pdu {node} 1 {pdu(command, self.sequence, body)}")
        return str(node), "1", self.sequence

    def bind(self, node, receives):
        self.send(node, TRANSCEIVER if receives else TRANSMITTER, b"sme1\0pw1\0\0" + bytes([0x34, 0, 0, 0]))

    def submit(self, node, validity=b"\0"):
        self.send(node, SUBMIT, b"\0\1\x01144\0\1\x01155\0\0\0\0" + b"\0" + validity + b"\1\0\0\0\x02Hi")

    def query(self, node, message, *wanted):
        self.last = self.send(node, QUERY, message.encode() + b"\0\1\x01144\0")
        if wanted:
            self.wanted[self.last] = wanted

    def cancel(self, node, message):
        self.send(node, CANCEL, b"\0" + message.encode() + b"\0\1\x01144\0\0\0\0")

    def answer(self, node, status, most=4):
        """Answers the deliver_sm with the sequence_numbers up to this one, of which the session drops those that do not wait."""
        self.say(*(f"pdu {node} 1 {pdu(DELIVER | RESPONSE, sequence, bytes(1), status)}" for sequence in range(1, most + 1)))

    def mark(self, number):
        return f"pdu {self.marker} 99 {pdu(ENQUIRE, number)}", f"pdu {self.marker} 99 {pdu(ENQUIRE | RESPONSE, number)}"

    def text(self):
        first, *others = self.lines
        marked = [line for number, other in enumerate(others, start=1) for line in (other, self.mark(number)[0])]
        return "\n".join([first, *marked]) + "\n"

    def transcript(self, output):
        told = iter(output.splitlines())
        for number, line in enumerate(self.lines[1:], start=1):
            yield ">", line
            printed = []
            for there in told:
                if there == self.mark(number)[1]:
                    break
                printed.append(there)
                yield "<", there
            else:
                raise Breach(f"the output ends at {line}")
            if printed != self.printed.get(number, printed):
                raise Breach(f"{line} prints {printed}")

    def judged(self, output):
        """What the last query is answered; a `Breach`, if anything is wrong."""
        answers = judged(self.transcript(output))
        for place, wanted in self.wanted.items():
            if answers.get(place) not in wanted:
                raise Breach(f"the query {place} is answered {answers.get(place)}, and not {' or '.join(map(str, wanted))}")
        return answers.get(self.last, "no answer")


class Course:
    """What brings the message of a script to its end: its author takes it, its worker tries to deliver it, and another node cancels it or lets it
    expire."""

    def __init__(self, end, author, worker, other):
        self.end, self.author, self.worker, self.other = end, author, worker, other
        self.message = f"{author}000100001"

    def receives(self, node):
        return node in (self.author, self.worker)

    def begin(self, script, nodes):
        for node in range(1, nodes + 1):
            script.say(f"tick {node} {MIDNIGHT}")
            script.bind(node, self.receives(node))

    def come_back(self, script, node):
        script.say(f"restart {node}", f"tick {node} {MIDNIGHT}")
        script.bind(node, self.receives(node))

    def phases(self):
        """The phases of the course: each is called with the script, and then packets come between the nodes."""
        yield lambda script: script.submit(self.author, MINUTE if self.end == "EXPIRED" else b"\0")
        if ANSWERS[self.end] is not None:
            yield lambda script: script.say(f"tick {self.worker} {MIDNIGHT}")
            yield self.grant
        else:
            yield self.close

    def grant(self, script):
        script.say(f"grant {self.worker} {self.message}")
        script.answer(self.worker, ANSWERS[self.end])

    def close(self, script, node=None):
        node = node or self.other
        if self.end == "DELETED":
            script.cancel(node, self.message)
        else:
            script.say(f"tick {node} {MIDNIGHT + 60}")

    def recover(self, script):
        """Goes for the end again, whatever is open: an attempt that was granted fails as its node starts anew, and the next one is due a minute later."""
        for moment in (MIDNIGHT + 60, MIDNIGHT + 61, MIDNIGHT + 180, MIDNIGHT + 181):
            if ANSWERS[self.end] is not None:
                script.say(f"tick {self.worker} {moment}", "settle")
                self.grant(script)
            else:
                script.say(f"tick {self.other} {moment}", "settle")
                self.close(script)
            script.say("settle")

    def ask(self, script, nodes, *wanted):
        for node in nodes:
            script.query(node, self.message, *wanted)
        script.say("settle")


def after(node, steps=1, nodes=9):
    return (node + steps - 1) % nodes + 1


def one_down():
    """Each node in each role, with a message that is DELIVERED and with one of the other ends in turn."""
    delivered, *others = ANSWERS
    roles = {"bystander": (1, 1), "author": (0, 1), "worker": (1, 0)}
    for down in range(1, 10):
        for turn, (role, (author, worker)) in enumerate(roles.items(), start=down):
            for end in (delivered, others[turn % len(others)]):
                course = Course(end, after(down, author), after(down, worker), after(down, 2))
                places = 2 * len(list(course.phases()))
                for place in range(places):
                    yield one_is_down(f"{role}_{down}_down_at_{place}_{end}", course, down, place)


def one_is_down(name, course, down, place):
    """A node goes down at a place of the course: even ones are before packets come, odd ones after."""
    script = Script(name, 9, after(down, 3))
    course.begin(script, 9)
    for number, phase in enumerate(course.phases()):
        phase(script)
        for step in ([], ["settle"]):
            script.say(*step)
            if 2 * number + len(step) == place:
                script.say(f"crash {down} 1 {'before' if down % 2 else 'after'}")
    is_lost = down == course.author and place == 0
    needs_worker = down == course.worker and ANSWERS[course.end] is not None
    # The worker's outcome comes between the nodes before the last place alone.
    now = UNKNOWN if is_lost else "ENROUTE" if needs_worker and place < 5 else course.end
    course.ask(script, [after(down, 2), after(down, 4)], now)
    course.come_back(script, down)
    script.say("settle")
    if now != course.end:
        course.recover(script)
    course.ask(script, [down, after(down, 5)], UNKNOWN if is_lost else course.end)
    return script


def many_down():
    for nodes in range(1, 10):
        for end in ANSWERS:
            most = (nodes - 1) // 2
            for down in {most, min(most + 1, nodes - 1)}:
                yield many_are_down(f"{down}_of_{nodes}_down_{end}", Course(end, 1, 1, 1), nodes, down)


def many_are_down(name, course, nodes, down):
    """The last nodes go down before any packet comes, and come back once the requests were given up."""
    script = Script(name, nodes, 1)
    course.begin(script, nodes)
    stopped = range(nodes - down + 1, nodes + 1)
    for number, phase in enumerate(course.phases()):
        phase(script)
        if number == 0:
            script.say(*(f"crash {node} 1 before" for node in stopped))
        script.say("settle")
    has_majority = 2 * (nodes - down) > nodes
    course.ask(script, [1], course.end if has_majority else LATE)
    script.say(f"tick 1 {MIDNIGHT + 90}")
    for node in stopped:
        course.come_back(script, node)
    script.say("settle")
    course.ask(script, range(1, nodes + 1), course.end if has_majority else UNKNOWN)
    return script


def parted():
    for nodes in range(2, 10):
        for size in range(1, nodes):
            yield are_parted(f"{size}_of_{nodes}", Course("DELIVERED", 1, 1, nodes), nodes, size)


def are_parted(name, course, nodes, size):
    """The first part tries to deliver a message that all know, the other one cancels it. What has a majority does; what has none is told nothing."""
    script = Script(name, nodes, 1)
    course.begin(script, nodes)
    parts = ["settle " + " ".join(map(str, part)) for part in (range(1, size + 1), range(size + 1, nodes + 1))]
    script.submit(1)
    script.say("settle", f"tick 1 {MIDNIGHT}")
    script.cancel(nodes, course.message)
    script.say(*parts)
    course.grant(script)
    script.say(*parts)
    delivers, cancels = 2 * size > nodes, 2 * (nodes - size) > nodes
    script.query(1, course.message, "DELIVERED" if delivers else LATE)
    script.query(nodes, course.message, "DELETED" if cancels else LATE)
    script.say(*parts, *(f"tick {node} {MIDNIGHT + 30}" for node in (1, nodes)), "settle")
    course.ask(script, [1, nodes], *(["DELIVERED"] if delivers else ["DELETED"] if cancels else ["ENROUTE", "DELIVERED", "DELETED"]))
    return script


def replayed():
    """With up to four nodes for each end; above that, since packets grow with the nodes, for an attempt and for a cancel_sm."""
    for nodes in range(1, 10):
        for end in ANSWERS if nodes <= 4 else ("DELIVERED", "DELETED"):
            course = Course(end, 1, 1, min(2, nodes))
            yield is_replayed(f"behind_settles_{nodes}_{end}", course, nodes, ["settle", "replay 2", "settle"])
            # A round takes four packets one after another, and a cancel_sm two before them; then all come once more.
            yield is_replayed(f"in_place_of_settles_{nodes}_{end}", course, nodes, ["replay 1"] * (7 if end == "DELETED" else 5))


def is_replayed(name, course, nodes, come):
    script = Script(name, nodes, 1)
    course.begin(script, nodes)
    for phase in course.phases():
        phase(script)
        script.say(*come)
    for node in range(1, nodes + 1):
        script.query(node, course.message, course.end)
    script.say(*come)
    return script


def crashed():
    for end in ANSWERS:
        course = Course(end, 1, 1, 2)
        steps = [(number, node) for number in range(1, sum(packets_of(course)) + 1) for node in (1, 2, 3)]
        yield whole(f"nobody_{end}", course, steps)
        for number, node in steps:
            for found in ("before", "after"):
                yield one_stops(f"{node}_at_{number}_{found}_{end}", course, number, node, found)


def packets_of(course):
    """How many packets three nodes send in each phase. A round is a Prepare, three Promises, a Propose and three Voteds; a question is an Ask and
    three Tells. Behind an end its receipt is told, by a round of its own."""
    took, asked, told = 8, 4, 8
    if ANSWERS[course.end] is not None:
        return [took, took, took + told]
    return [took, asked + took + told if course.end == "DELETED" else took + told]


def whole(name, course, steps):
    """Each packet comes as a settle would let it, and there is no further one."""
    script = Script(name, 3, 3)
    course.begin(script, 3)
    sent = 0
    for phase, count in zip(course.phases(), packets_of(course)):
        phase(script)
        script.say(*(f"deliver {number} {node}" for number, node in steps if sent < number <= sent + count))
        sent += count
    script.say(f"deliver {sent + 1} 1")
    script.printed[len(script.lines) - 1] = ["refused 1"]
    course.ask(script, [1, 2, 3], course.end)
    return script


def one_stops(name, course, number, node, found):
    """A node stops as a packet comes to it, and starts anew; then two other nodes are asked, and the course goes on."""
    script = Script(name, 3, node % 3 + 1)
    course.begin(script, 3)
    sent = 0
    # The author's first Propose is the fifth packet, which it sends as the second Promise comes to it.
    is_lost = node == 1 and number <= 3
    end = UNKNOWN if is_lost else course.end
    for phase, count in zip(course.phases(), packets_of(course)):
        phase(script)
        if sent < number <= sent + count:
            before = [(packet, at) for packet in range(sent + 1, number + 1) for at in (1, 2, 3) if (packet, at) < (number, node)]
            script.say(*(f"deliver {packet} {at}" for packet, at in before), f"crash {node} {number} {found}")
            course.come_back(script, node)
            script.say("settle")
            course.ask(script, [after(node, 1, 3), after(node, 2, 3)])
        script.say("settle")
        sent += count
    course.recover(script)
    course.ask(script, [1, 2, 3], end)
    return script


def by_lot():
    for seed in range(100):
        yield of_seed(seed)


def of_seed(seed):
    """Lines by lot. The last node never stops."""
    lot = random.Random(seed)
    nodes = lot.choice([3, 3, 4, 5])
    script = Script(f"seed_{seed}", nodes, nodes)
    clocks = dict.fromkeys(range(1, nodes + 1), MIDNIGHT)
    messages = [f"{node}000{life}0000{serial}" for node in (1, 2) for life in (1, 2) for serial in (1, 2)]
    for node in clocks:
        script.say(f"tick {node} {MIDNIGHT}")
        script.bind(node, True)
    script.submit(1, lot.choice([b"\0", MINUTE]))
    script.say(lot.choice(["settle", "settle 1 2", "replay 1"]))
    packets = 20
    for _ in range(lot.randrange(30, 120)):
        node, message = lot.randrange(1, nodes + 1), lot.choice(messages[:1] * 5 + messages)
        packets += 8
        by_lot_once(lot, script, nodes, node, message, clocks, packets)
    for node in clocks:
        script.query(node, messages[0])
        script.say("settle")
    return script


def by_lot_once(lot, script, nodes, node, message, clocks, packets):
    number = lot.randrange(1, packets)
    match lot.choice(DRAWN):
        case "come":
            script.say(*(f"deliver {lot.randrange(1, packets)} {lot.randrange(1, nodes + 1)}" for _ in range(10)))
        case "settle":
            script.say("settle " + " ".join(str(other) for other in clocks if lot.random() < 0.7) if lot.random() < 0.6 else "settle")
            script.lines[-1] = script.lines[-1].rstrip()
        case "replay":
            script.say(f"replay {lot.choice([1, 1, 2])}")
        case "tick":
            clocks[node] += lot.choice([0, 0, 1, 30, 60, 120])
            script.say(f"tick {node} {clocks[node]}")
        case "grant":
            script.say(f"grant {node} {message}")
            script.answer(node, lot.choice([OK, OK, 0x64]), lot.choice([0, 1, 2]))
        case "answer":
            script.answer(node, lot.choice([OK, OK, 0x64, 0x65, 0x66]), 3)
        case "query":
            script.query(node, message)
        case "cancel":
            script.cancel(node, message)
        case "submit":
            script.submit(lot.choice([1, 2]))
        case "crash" if node < nodes:
            script.say(f"crash {node} {number} {lot.choice(['before', 'after'])}")
        case "restart" if node < nodes:
            script.say(f"restart {node}")
            script.say(f"tick {node} {clocks[node]}")
            script.bind(node, True)


FAMILIES = {"one_down": one_down, "many_down": many_down, "parted": parted, "replayed": replayed, "crashed": crashed, "random": by_lot}


def outputs(program, scripts):
    """The output of each script, or None if it did not come to its end."""
    for script in scripts:
        ran = subprocess.run([program, "script"], input=script.text(), capture_output=True, text=True)
        yield ran.stdout if ran.returncode == 0 else None


def outputs_unproved(scripts):
    with tempfile.TemporaryDirectory() as folder:
        for script in scripts:
            pathlib.Path(folder, script.name).write_text(script.text())
        ran = subprocess.run(["rt", "try", "--cases", folder, "--", "script"], cwd=ROOT / "crates/centre", capture_output=True, text=True)
    ended = {name for name, run, status in CASE.findall(ran.stdout + ran.stderr) if (run, status) == ("ended", "0")}
    blocks = dict(block.split("\n", 1) for block in ("\n" + ran.stdout).split("\n== ")[1:])
    for script in scripts:
        yield blocks.get(script.name, "") if script.name in ended else None


def wrong(scripts, told, ends):
    """Says what is wrong with the outputs of some scripts, and counts how the scripts ended."""
    for script, output in zip(scripts, told):
        try:
            if output is None:
                raise Breach("it did not come to its end")
            ends[script.judged(output)] += 1
        except Breach as breach:
            yield f"{script.name}: {breach}\n{script.text()}"


def breach_of(lines):
    """What is told of a transcript."""
    try:
        judged([(line[0], line[2:]) for line in lines])
        return "none"
    except Breach as breach:
        return str(breach)


def check():
    """How many transcripts the folder has, and which are not judged as their first line says, `breach: WORDS` or `breach: none`."""
    names, wrong = sorted((ROOT / "tools/transcripts").glob("*.txt")), []
    for name in names:
        first, *lines = name.read_text().splitlines()
        told = breach_of(lines)
        if first.removeprefix("breach: ") not in told:
            wrong.append(f"{name.name}: {told}")
    return f"{len(names)} transcripts", wrong


def run(told_by, names):
    total, all_wrong = 0, 0
    for name in names:
        scripts, ends = list(FAMILIES[name]()), collections.Counter()
        breaches = list(wrong(scripts, told_by(scripts), ends))
        print(*breaches[:3], f"{name}: {len(scripts)} scripts, {len(breaches)} wrong; "
              + ", ".join(f"{count} {end}" for end, count in sorted(ends.items())), sep="\n", flush=True)
        total, all_wrong = total + len(scripts), all_wrong + len(breaches)
    print(f"{total:,} scripts of several nodes, {all_wrong} wrong")
    sys.exit(1 if all_wrong else 0)


def write(folder, names):
    for name in names:
        for script in FAMILIES[name]():
            pathlib.Path(folder, f"{name}_{script.name}.script").write_text(script.text())


def main():
    reader = argparse.ArgumentParser(description=__doc__, formatter_class=argparse.RawDescriptionHelpFormatter)
    way = reader.add_mutually_exclusive_group(required=True)
    way.add_argument("program", metavar="PROGRAM", nargs="?")
    way.add_argument("--try", dest="is_unproved", action="store_true")
    way.add_argument("--write", metavar="FOLDER")
    reader.add_argument("--only", metavar="FAMILY", nargs="+", choices=FAMILIES, default=list(FAMILIES))
    given = reader.parse_args()
    if given.write:
        write(given.write, given.only)
    else:
        run(outputs_unproved if given.is_unproved else lambda scripts: outputs(given.program, scripts), given.only)


if __name__ == "__main__":
    main()
