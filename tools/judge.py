"""Judges a transcript of a script over several nodes by what `docs/HEADLINE.md` promises. The PDUs are read here from their octets; nothing is asked of
the program, nor of its crates. `tools/cluster_checks.py` makes the scripts.

A transcript is a list of pairs: `>` with a line of the script, and `<` with a line that the program printed at it. Of each message

1. no two statements of its end differ: a query_sm_resp with a final state, both spellings of a delivery receipt, and ESME_ROK to a cancel_sm, which
   states DELETED; nor do the minutes and errors that they tell;
2. no deliver_sm of an attempt goes out after ESME_ROK to its cancel_sm;
3. an end DELIVERED is told only after a deliver_sm of an attempt went out, and the script answered that one with ESME_ROK on its session;
4. a query_sm that came after a statement, and is answered ESME_ROK, is told the same;
5. a query_sm or cancel_sm that came after ESME_ROK to the submit_sm is never told that there is no such message;
6. no two delivery receipts go out.
"""
import collections
import re
import struct

QUERY, SUBMIT, DELIVER, CANCEL, RESPONSE = 0x03, 0x04, 0x05, 0x08, 0x80000000
OK, NO_SUCH_MESSAGE = 0x00, 0x0C
STATUSES = {0x08: "ESME_RSYSERR", NO_SUCH_MESSAGE: "ESME_RINVMSGID", 0x67: "ESME_RQUERYFAIL"}
STATES = {1: "ENROUTE", 2: "DELIVERED", 3: "EXPIRED", 4: "DELETED", 5: "UNDELIVERABLE", 8: "REJECTED"}
WORDS = {"DELIVRD": "DELIVERED", "EXPIRED": "EXPIRED", "DELETED": "DELETED", "UNDELIV": "UNDELIVERABLE", "REJECTD": "REJECTED"}
# Bodies up to their short_message, or to their end: a text up to its zero, or one octet.
MESSAGE, QUERY_ANSWER, CANCEL_BODY = "tootootooottooooo", "ttoo", "tt"
RECEIPT = re.compile(rb"id:(\d{10}) sub:001 dlvrd:(?:000|001) submit date:\d{10} done date:(\d{10}) stat:(\S+) err:(\d{3}) text:", re.DOTALL)
IS_RECEIPT = 0x04

Pdu = collections.namedtuple("Pdu", "command status sequence body")
# A query_sm or cancel_sm: its message, the end that had been stated when it came, and whether the submit_sm had been answered ESME_ROK.
Question = collections.namedtuple("Question", "message stated taken")


class Breach(Exception):
    """A promise is not kept."""


def pdu_of(digits):
    octets = bytes.fromhex(digits)
    if len(octets) < 16 or len(octets) != int.from_bytes(octets[:4], "big"):
        raise Breach(f"no PDU: {digits}")
    return Pdu(*struct.unpack(">III", octets[4:16]), octets[16:])


def fields(body, kinds):
    """The first fields of a body, and what is behind them."""
    found = []
    for kind in kinds:
        if kind == "t":
            text, _, body = body.partition(b"\0")
            found.append(text.decode("ascii"))
        else:
            found.append(body[0])
            body = body[1:]
    return found, body


def parameters(octets):
    """The optional parameters, by their tags."""
    found = {}
    while octets:
        tag, length = struct.unpack(">HH", octets[:4])
        found[tag] = octets[4:4 + length]
        octets = octets[4 + length:]
    return found


class Judge:
    """What was asked and told so far. A session is a node and a number; a place is a session and a sequence_number."""

    def __init__(self):
        self.submits, self.questions, self.attempts = set(), {}, {}
        self.stated, self.details, self.answers = {}, {}, {}
        self.taken, self.delivered, self.cancelled, self.reported = set(), set(), set(), set()
        self.granted = None

    def comes(self, line):
        """A line of the script."""
        kind, *words = line.split(" ")
        self.granted = words[1] if kind == "grant" else None
        if kind != "pdu":
            return
        pdu = pdu_of(words[2])
        place = (words[0], words[1], pdu.sequence)
        if pdu.command == SUBMIT:
            self.submits.add(place)
        elif pdu.command in (QUERY, CANCEL):
            message = fields(pdu.body, CANCEL_BODY if pdu.command == CANCEL else "t")[0][-1]
            self.questions[place] = Question(message, self.stated.get(message), message in self.taken)
        elif pdu.command == DELIVER | RESPONSE:
            attempt = self.attempts.pop(place, None)
            if attempt and pdu.status == OK:
                self.delivered.add(attempt)

    def goes(self, line):
        """A line that the program printed."""
        kind, *words = line.split(" ")
        if kind == "gone":
            for places in (self.questions, self.attempts):
                for place in [place for place in places if place[:2] == tuple(words)]:
                    del places[place]
        if kind != "pdu":
            return
        pdu = pdu_of(words[2])
        place = (words[0], words[1], pdu.sequence)
        match pdu.command:
            case 0x05:
                self.delivers(place, pdu)
            case 0x80000004 if pdu.status == OK:
                if place not in self.submits:
                    raise Breach("an answer to no submit_sm")
                self.taken.add(fields(pdu.body, "t")[0][0])
            case 0x80000003:
                self.tells(place, pdu)
            case 0x80000008:
                self.cancels(place, pdu)

    def delivers(self, place, pdu):
        found, behind = fields(pdu.body, MESSAGE)
        if found[7] & 0x3C == IS_RECEIPT:
            self.reports(behind[:found[-1]], parameters(behind[found[-1]:]))
            return
        if self.granted is None:
            raise Breach("an attempt goes out for which no grant asks")
        if self.granted in self.cancelled:
            raise Breach(f"an attempt of {self.granted} goes out after ESME_ROK to its cancel_sm")
        self.attempts[place] = self.granted

    def reports(self, text, told):
        receipt = RECEIPT.match(text)
        if not receipt:
            raise Breach(f"a receipt with the text {text!r}")
        message, minute, state, error = (part.decode("ascii") for part in receipt.groups())
        if message in self.reported:
            raise Breach(f"a second receipt of {message}")
        self.reported.add(message)
        self.states(message, WORDS[state], (minute, min(int(error), 255)))
        if 0x1E in told:
            self.states(told[0x1E].rstrip(b"\0").decode("ascii"), STATES[told[0x427][0]])

    def tells(self, place, pdu):
        question = self.question(place, pdu)
        self.answers[place] = STATUSES.get(pdu.status, hex(pdu.status))
        if pdu.status != OK:
            return
        (message, date, state, error), _ = fields(pdu.body, QUERY_ANSWER)
        if message != question.message:
            raise Breach(f"a query of {question.message} is answered for {message}")
        self.answers[place] = STATES[state]
        if question.stated not in (None, STATES[state]):
            raise Breach(f"{STATES[state]} is told of {message}, and {question.stated} had been when its query came")
        if STATES[state] != "ENROUTE":
            self.states(message, STATES[state], (date[:10], error))

    def cancels(self, place, pdu):
        question = self.question(place, pdu)
        if pdu.status == OK:
            self.states(question.message, "DELETED")
            self.cancelled.add(question.message)

    def question(self, place, pdu):
        """What is answered there."""
        question = self.questions.pop(place, None)
        if question is None:
            raise Breach("an answer to no question")
        if pdu.status == NO_SUCH_MESSAGE and question.taken:
            raise Breach(f"{question.message} is not known any more")
        return question

    def states(self, message, end, details=None):
        """An end of a message is told, and maybe its minute and its error."""
        if self.stated.setdefault(message, end) != end:
            raise Breach(f"{message} is told to be {end}, and was told to be {self.stated[message]}")
        if details and self.details.setdefault(message, details) != details:
            raise Breach(f"{message} ended with {details}, and was told to have with {self.details[message]}")
        if end == "DELIVERED" and message not in self.delivered:
            raise Breach(f"{message} is told to be DELIVERED, and no attempt of it was answered ESME_ROK")


def judged(transcript):
    """What each query_sm was answered, by its node, session and sequence_number; a `Breach`, if a promise is not kept."""
    judge = Judge()
    for side, line in transcript:
        (judge.comes if side == ">" else judge.goes)(line)
    return judge.answers
