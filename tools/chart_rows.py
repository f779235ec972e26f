"""Which line of a script each line of its output belongs to, for `tools/chart.py`, whose docstring says by what rules."""
import collections
import dataclasses
import datetime
import itertools
import math
import re

from chart_pdus import DELIVER, DELIVER_ANSWER, NACK, RESPONSE, Pdu
from chart_pdus import about, cut, is_id, is_response, is_whole, message_in, name_of, receipt_of, texts, title
from script_lines import OPENING, Bad, read_line

TIMED_OUT, THROTTLED = 0x08, 0x58
# The ends of receipts that come of an answer to an attempt, by its status. A message may be undeliverable without it, too, with another error.
OUTCOMES = {"DELIVRD": 0x00, "UNDELIV": 0x65, "REJECTD": 0x66}
LONGEST_WAIT, LAST_INCARNATION, WINDOW, MOST_OPEN = 30, 9_999, 10, 1_000
PRINTED = re.compile("pdu ([1-9]) ([1-9][0-9]?) ((?:[0-9a-f]{2})+)")
ACCOUNTS = {"sme1", "sme2"}
# How many answers of a majority it takes to tell a state; to agree on something, a promise and a vote; and to delete a message, which is both. A settle has
# as many rounds as any of them.
TOLD, AGREED, DELETED = 1, 2, 3
ALL_ROUNDS = 2 * DELETED
TRIES = 1_000

# What stands in one row of the chart. An arrow is of a session at a node: ask, told and failed go to the node, push, answer and bad go to the session. There
# a session is gone, too. A note, a refusal, a crash and a restart have one node or several, and no session.
Row = collections.namedtuple("Row", "kind session nodes text")


class Misfit(Exception):
    """The output is not that of the script."""


# ---- what may be answered, and when

def may_be_nacked(pdu):
    if pdu.command is None or pdu.command == DELIVER or not name_of(pdu):
        return pdu.command != NACK
    return not is_response(pdu) and not is_whole(pdu)


def waits(asked, answer):
    """Whether a request with this answer waited for packets or a tick."""
    name = name_of(asked)
    if name not in ("submit_sm", "query_sm", "cancel_sm") or answer.command == NACK:
        return False
    if answer.status in (0x00, TIMED_OUT, 0x67):
        return True
    return answer.status in (0x0C, 0x11) and name != "submit_sm" and is_id(about(asked))


@dataclasses.dataclass
class Request:
    """A PDU that came to a node at a moment, and what came since: to its node so many packets, in so many rounds of them; to which nodes any; and from which
    nodes there may have come all that it waits for."""
    node: int
    pdu: Pdu
    moment: int
    came: int = 0
    rounds: int = 0
    reached: set = dataclasses.field(default_factory=set)
    heard: set = dataclasses.field(default_factory=set)

    def has_heard(self, answers, count):
        """Whether a majority of so many nodes may have answered so many times, each time a round after it was asked. By single packets a node that is not
        among the others has to ask itself, too."""
        lacking = count // 2 + 1 - len(self.heard)
        if self.rounds < 2 * answers or lacking <= 0:
            return self.rounds >= 2 * answers
        others = len(self.reached - self.heard - {self.node})
        itself = 1 if others < lacking and self.node not in self.heard else 0
        return others + itself >= lacking and self.came >= answers * (lacking + itself)

    def meets(self, nodes):
        """All packets come between these nodes; those that are down may have sent some before."""
        if self.node in nodes:
            self.heard |= {at for at, there in nodes.items() if there.up} | (self.reached & set(nodes))
            self.reached |= {at for at, there in nodes.items() if there.up}
        if self.reached & set(nodes):
            self.rounds += ALL_ROUNDS

    def meets_again(self, nodes):
        """All packets come that were sent before."""
        self.heard |= self.reached
        self.reached |= {at for at, there in nodes.items() if there.up}
        self.rounds += 1

    def sees(self, node):
        """A packet comes to a node."""
        self.came += 1 if node == self.node else 0
        self.reached.add(node)
        self.rounds += 1


@dataclasses.dataclass
class Session:
    """The octets that are not a whole PDU yet; its account, whether it may receive, and whether it is to go; open requests by the sequence_number and command
    of their answer; and what was pushed, by its sequence_number: when, and which message, if it was an attempt."""
    octets: bytes = b""
    account: str = ""
    receives: bool = False
    leaves: bool = False
    asked: dict = dataclasses.field(default_factory=dict)
    pushed: dict = dataclasses.field(default_factory=dict)

    def requests(self):
        return [request for requests in self.asked.values() for request in requests]

    def has_room(self):
        return self.receives and len(self.pushed) < WINDOW


@dataclasses.dataclass
class Node:
    """With its sessions by their numbers, the accounts for which a receipt may wait, and how many requests of sessions that are gone may wait still."""
    incarnation: int = 1
    up: bool = True
    clock: int = OPENING
    sessions: dict = dataclasses.field(default_factory=dict)
    waiting: set = dataclasses.field(default_factory=set)
    left: int = 0

    def takes(self, account):
        return any(session.has_room() for session in self.sessions.values() if session.account == account)

    def requests(self):
        return [request for session in self.sessions.values() for request in session.requests()]

    def gives_up(self, late):
        """What was pushed at this moment or before has no answer."""
        for session in self.sessions.values():
            session.pushed = {sequence: pushed for sequence, pushed in session.pushed.items() if pushed[0] > late}

    def finds_nobody(self):
        """Receipts that come may wait for each account of which no session takes them."""
        self.waiting |= {account for account in ACCOUNTS if not self.takes(account)}


# ---- rows

def moment_text(moment, form):
    return datetime.datetime.fromtimestamp(moment, datetime.timezone.utc).strftime(form)


class Chart:
    """Rows, made by going over the lines of the script and taking off the output what each of them prints. `choices` says at which lines that may be refused
    they are, in turn; where it says nothing, they are. `sent` is the highest number of a packet that was sent, and `unsent` the lowest that was not. Of
    messages stands what their submit_sm was about, and what may have ended them: answers to attempts, by their status, and each cancel_sm. Of each number of a
    session at a node stand the accounts that were bound there."""

    def __init__(self, output, choices=()):
        self.output = collections.deque(line for line in output.split("\n") if line)
        self.printed, self.place, self.line_text = len(self.output), 0, ""
        self.choices, self.made = collections.deque(choices), []
        self.rows, self.nodes = [], {}
        self.latest, self.sent, self.unsent = OPENING, 0, math.inf
        self.messages, self.causes, self.accounts = {}, {}, {}

    def row(self, kind, session, nodes, text):
        self.rows.append(Row(kind, session, tuple(nodes), text))

    def note(self, text, *nodes):
        self.row("note", None, nodes, text)

    # -- the next line of the output

    def misfit(self):
        if not self.output:
            return Misfit(f"the output does not fit the script: it ends at line {self.place} of the script, `{self.line_text}`, which prints more")
        printed = f"line {self.printed - len(self.output) + 1} of the output, `{self.output[0]}`,"
        of_line = f"is not of line {self.place} of the script, `{self.line_text}`" if self.line_text else "is of no line of the script"
        return Misfit(f"the output does not fit the script: {printed} {of_line}")

    def next_line(self):
        return self.output[0] if self.output else ""

    def next_pdu(self):
        """Its node, its session, and the PDU, if it is one."""
        printed = PRINTED.fullmatch(self.next_line())
        pdus, rest = cut(bytes.fromhex(printed[3])) if printed else ([], b"")
        if len(pdus) != 1 or rest or pdus[0].command is None or int(printed[1]) not in self.nodes:
            return None, None, None
        return int(printed[1]), int(printed[2]), pdus[0]

    def takes_line(self, line):
        if self.next_line() != line:
            raise self.misfit()
        self.output.popleft()

    def takes_refusal(self, line, *nodes):
        self.takes_line(line)
        self.row("refused", None, nodes, line)

    # -- answers

    def takes_answer(self, fits):
        """Takes the answer that comes next, if it fits a request that is open."""
        at, session_number, answer = self.next_pdu()
        session = self.nodes[at].sessions.get(session_number) if at else None
        key = (answer.sequence, answer.command) if session else None
        found = next((request for request in session.asked.get(key, []) if fits(at, request, answer)), None) if session else None
        if not found:
            return False
        self.output.popleft()
        session.asked[key] = [request for request in session.asked[key] if request is not found]
        self.row("answer" if answer.status == 0 else "bad", session_number, [at], title(answer))
        self.learns(session, found.pdu, answer)
        if session.account and session.account not in self.accounts.setdefault((at, session_number), []):
            self.accounts[at, session_number].append(session.account)
        return True

    def learns(self, session, asked, answer):
        """What a request and its answer say of the session and of messages."""
        name = name_of(asked)
        if answer.status == 0 and name == "submit_sm":
            self.messages[texts(answer.body)[0]] = about(asked)
        if answer.status == 0 and name.startswith("bind"):
            session.account, session.receives = about(asked), name != "bind_transmitter"
        session.leaves = answer.status == 0 and name == "unbind"

    def takes_nack(self, node, session_number, session, pdu):
        at, told, answer = self.next_pdu()
        if (at, told) == (node, session_number) and answer.command == NACK and answer.sequence == pdu.sequence:
            self.output.popleft()
            self.row("bad", told, [at], title(answer))
            del session.asked.get((pdu.sequence, (pdu.command or 0) | RESPONSE), [])[-1:]

    # -- what goes out by deliver_sm

    def ends(self, message, cause, request):
        self.causes.setdefault((message, cause), []).append(request)

    def has_ended(self, node, receipt):
        """Whether a node may know that the message ended so, by what was answered and asked."""
        if receipt.minute > moment_text(self.latest, "%y%m%d%H%M"):
            return False
        if receipt.end == "DELETED":
            return any(request.rounds >= 2 * DELETED for request in self.causes.get((receipt.message, "deleted"), []))
        status = OUTCOMES.get(receipt.end)
        if status is None or receipt.end == "UNDELIV" and int(receipt.error) != status:
            return True
        outcomes = self.causes.get((receipt.message, status), [])
        return any(request.rounds >= 2 * AGREED and (node != request.node or request.has_heard(AGREED, len(self.nodes))) for request in outcomes)

    def takes_receipt(self, nodes, accounts=ACCOUNTS):
        """Takes the receipt that comes next, if one of these nodes may send it to one of these accounts."""
        at, session_number, pdu = self.next_pdu()
        session = self.nodes[at].sessions.get(session_number) if at in nodes else None
        receipt = receipt_of(pdu) if session and pdu.command == DELIVER else None
        if not receipt or receipt.message[0] != str(at) or not self.has_ended(at, receipt) or session.account not in accounts or not session.has_room():
            return False
        self.pushes(at, session_number, pdu, None)
        return True

    def pushes(self, node, session_number, pdu, message):
        self.output.popleft()
        self.nodes[node].sessions[session_number].pushed[pdu.sequence] = (self.nodes[node].clock, message)
        self.row("push", session_number, [node], title(pdu))

    def posts(self, node):
        """What waits goes out, as far as sessions take it."""
        there = self.nodes[node]
        while there.waiting and self.takes_receipt([node], there.waiting):
            pass
        there.waiting = {account for account in there.waiting if not there.takes(account)}

    def is_attempt(self, node, message):
        """Whether the attempt of a message goes out next at a node."""
        at, session_number, pdu = self.next_pdu()
        session = self.nodes[node].sessions.get(session_number) if at == node else None
        if not session or pdu.command != DELIVER or receipt_of(pdu) or not session.has_room():
            return False
        account = "sme2" if message_in(pdu.body)[1].startswith("2") else "sme1"
        return session.account == account and self.messages.get(message, about(pdu)) == about(pdu)

    # -- what sessions say

    def hears(self, node, session_number, octets):
        there = self.nodes[node]
        session = there.sessions.setdefault(session_number, Session()) if there.up else Session()
        pdus, session.octets = cut(session.octets + octets)
        if not pdus:
            self.row("ask", session_number, [node], f"a piece: {len(octets)} octets")
        for pdu in pdus:
            if there.up and there.sessions.get(session_number) is not session:
                break
            self.row(self.kind_of(pdu), session_number, [node], title(pdu))
            if there.up:
                self.serves(node, session_number, session, pdu)
        self.is_up(node)

    def kind_of(self, pdu):
        if not is_response(pdu):
            return "ask"
        return "told" if pdu.status == 0 else "failed"

    def serves(self, node, session_number, session, pdu):
        """Takes what a PDU is told at once."""
        if is_response(pdu):
            self.hears_outcome(node, session, pdu)
        elif pdu.command is not None:
            self.hears_request(node, session, pdu)
        if may_be_nacked(pdu):
            self.takes_nack(node, session_number, session, pdu)
        if session.leaves or pdu.command is None:
            self.goes(node, session_number)
        self.posts(node)

    def hears_request(self, node, session, pdu):
        there = self.nodes[node]
        request = Request(node, pdu, there.clock)
        session.asked.setdefault((pdu.sequence, pdu.command | RESPONSE), []).append(request)
        is_full = len(session.requests()) > WINDOW or len(there.requests()) + there.left > MOST_OPEN
        self.takes_answer(lambda at, asked, answer: asked is request and not waits(pdu, answer) and (is_full or answer.status != THROTTLED))
        if name_of(pdu) == "cancel_sm":
            self.ends(about(pdu), "deleted", Request(node, pdu, there.clock))

    def hears_outcome(self, node, session, pdu):
        _, message = session.pushed.pop(pdu.sequence, (0, None)) if pdu.command in (NACK, DELIVER_ANSWER) else (0, None)
        if message and pdu.command != NACK:
            self.ends(message, pdu.status, Request(node, pdu, self.nodes[node].clock))

    def goes(self, node, session_number):
        self.takes_line(f"gone {node} {session_number}")
        self.nodes[node].left += len(self.nodes[node].sessions.pop(session_number).requests())
        self.row("gone", session_number, [node], "gone")

    def all_go(self, node):
        for session_number in sorted(self.nodes[node].sessions):
            self.goes(node, session_number)

    # -- packets

    def requests(self):
        """All that wait for packets."""
        return [*itertools.chain(*self.causes.values()), *itertools.chain(*(there.requests() for there in self.nodes.values()))]

    def answers_to(self, asked, answer):
        """How many answers of a majority a request takes to be answered so. A message may have been deleted by another cancel_sm, if there is one."""
        if name_of(asked.pdu) == "submit_sm":
            return AGREED
        is_first = name_of(asked.pdu) == "cancel_sm" and len(self.causes[about(asked.pdu), "deleted"]) == 1
        return DELETED if is_first and answer.status == 0 else TOLD

    def takes_late(self, nodes):
        """Takes the answers and receipts that go out as packets come to these nodes."""
        up = [node for node in nodes if self.nodes[node].up]

        def fits(at, asked, answer):
            if at not in up or not waits(asked.pdu, answer) or answer.status == TIMED_OUT:
                return False
            return asked.has_heard(self.answers_to(asked, answer), len(self.nodes))

        while self.takes_answer(fits) or self.takes_receipt(up):
            pass
        for node in up:
            self.nodes[node].finds_nobody()

    def is_up(self, node):
        """What names a node that is down is refused."""
        if not self.nodes[node].up:
            self.takes_refusal("refused 4", node)
        return self.nodes[node].up

    def is_unsent(self, packet, is_silent):
        """Whether a line that names a packet is refused, as it was not sent yet. Where this is not known, and the line may print nothing else, it is chosen."""
        refused = self.next_line() == "refused 1" and not 0 < packet <= self.sent
        if refused and is_silent and 0 < packet < self.unsent:
            refused = self.choices.popleft() if self.choices else True
            self.made.append(refused)
        if refused:
            self.unsent = min(self.unsent, packet or self.unsent)
        elif 0 < packet < self.unsent:
            self.sent = max(self.sent, packet)
        else:
            raise self.misfit()
        return refused

    def delivers(self, packet, node):
        self.note(f"deliver {packet}", node)
        if self.is_unsent(packet, self.nodes[node].up):
            self.takes_refusal("refused 1", node)
        elif self.is_up(node):
            self.unsent = math.inf
            for request in self.requests():
                request.sees(node)
            self.takes_late([node])

    def crashes(self, node, packet, side):
        there = self.nodes[node]
        refused = self.is_unsent(packet, there.up and not there.sessions)
        self.row("crash" if there.up and not refused else "note", None, [node], f"crash {packet} {side}")
        if refused:
            self.takes_refusal("refused 1", node)
        elif self.is_up(node):
            self.all_go(node)
            self.nodes[node] = Node(there.incarnation, up=False)

    def settles(self, nodes):
        self.note(" ".join(["settle", *map(str, nodes)]), *(nodes or self.nodes))
        named = {node: self.nodes[node] for node in nodes or self.nodes}
        for request in self.requests():
            request.meets(named)
        self.takes_late(named)
        if self.next_line() == "unsettled":
            self.takes_refusal("unsettled", *named)

    def replays(self, count):
        self.note(f"replay {count}", *self.nodes)
        if count > 0:
            for request in self.requests():
                request.meets_again(self.nodes)
            self.takes_late(self.nodes)

    # -- other lines

    def ticks(self, node, moment):
        self.note("tick " + moment_text(moment, "%Y-%m-%d %H:%M:%S"), node)
        if not self.is_up(node):
            return
        there = self.nodes[node]
        there.clock = max(there.clock, moment)
        self.latest = max(self.latest, moment)
        late = there.clock - LONGEST_WAIT
        while self.takes_answer(lambda at, asked, answer: at == node and answer.status == TIMED_OUT and asked.moment <= late):
            pass
        there.gives_up(late)
        self.posts(node)

    def grants(self, node, message):
        self.note(f"grant {message}", node)
        if not self.is_up(node):
            return
        if re.fullmatch("refused 3 [1-5]", self.next_line()):
            self.takes_refusal(self.next_line(), node)
        elif self.is_attempt(node, message):
            self.pushes(*self.next_pdu(), message)

    def restarts(self, node):
        there = self.nodes[node]
        if there.incarnation == LAST_INCARNATION:
            self.note("restart", node)
            self.takes_refusal("refused 6", node)
        else:
            self.row("restart", None, [node], "restart")
            self.all_go(node)
            self.nodes[node] = Node(there.incarnation + 1)

    # -- a line

    def line(self, said):
        """What a line of the script draws."""
        if said[0] not in ("deliver", "crash", "restart"):
            self.unsent = math.inf
        match said:
            case "nodes", count, _:
                self.nodes = {node: Node() for node in range(1, count + 1)}
            case "pdu", node, session, octets:
                self.hears(node, session, octets)
            case "tick", node, moment:
                self.ticks(node, moment)
            case "grant", node, message:
                self.grants(node, message)
            case "settle", nodes:
                self.settles(nodes)
            case "deliver", packet, node:
                self.delivers(packet, node)
            case "replay", count:
                self.replays(count)
            case "crash", node, packet, side:
                self.crashes(node, packet, side)
            case "restart", node:
                self.restarts(node)

    def goes_over(self, line):
        """Whether a line is good; nothing is drawn of a bad one."""
        try:
            said = read_line(line, len(self.nodes))
        except Bad:
            return False
        if said:
            self.line(said)
        return True

    def reads(self, script):
        lines = script.split("\n")
        for self.place, self.line_text in enumerate(lines, start=1):
            if not self.goes_over(self.line_text):
                self.row("refused", None, [1], f"bad line {self.place}")
                break
        self.line_text = ""
        if self.output:
            raise self.misfit()
        return self


def charted(script, output):
    """The chart of a script and its output. While they do not fit, the last line that was chosen to be refused is chosen not to be; it gives up after `TRIES`
    of them."""
    choices = []
    for _ in range(TRIES):
        chart = Chart(output, choices)
        try:
            return chart.reads(script)
        except Misfit as fault:
            last = max((place for place, refused in enumerate(chart.made) if refused), default=None)
            if last is None:
                raise
            choices, told = [*chart.made[:last], False], fault
    raise told


def rows_of(script, output):
    return charted(script, output).rows
