"""What a session has to be told for the octets that were sent on it: each request is answered once, by its response or a generic_nack."""
import pathlib
import sys

sys.path.insert(0, str(pathlib.Path(__file__).resolve().parent.parent))

import pdus
from chart_pdus import BODIES, NAMES, STATUSES, cut, is_id, is_whole, name_of, title

BINDS = ("bind_receiver", "bind_transmitter", "bind_transceiver")
WAIT = ("submit_sm", "query_sm", "cancel_sm")
WINDOW = 10


def parsed(octets):
    """The one PDU that these octets are, which the centre sent; ValueError if they are none that is good."""
    found, rest = cut(octets)
    if len(found) != 1 or rest or found[0].command is None:
        raise ValueError(f"no PDU: {octets.hex()}")
    check_body(found[0])
    return found[0]


def check_body(pdu):
    """ValueError if a PDU of the centre is not as it has to be."""
    name = name_of(pdu)
    is_good = title(pdu) and pdu.status in STATUSES
    if pdu.command == pdus.DELIVER_SM:
        reader = pdus.Reader(pdu.body)
        is_good = pdu.status == 0 and pdus.message(reader.octets)["short_message"] is not None
    elif pdu.command == pdus.GENERIC_NACK:
        is_good = not pdu.body and pdu.status in (pdus.INVALID_LENGTH, pdus.INVALID_COMMAND)
    elif pdu.command == pdus.DELIVER_SM | pdus.RESPONSE:
        is_good = is_good and pdu.status != 0 and not pdu.body
    elif not pdu.command & pdus.RESPONSE or name not in BODIES:
        is_good = False
    elif pdu.status != 0:
        is_good = is_good and pdu.body in (b"", b"\0")
    elif name == "submit_sm":
        is_good = pdu.body[-1:] == b"\0" and is_id(pdu.body[:-1].decode("latin-1"))
    elif name == "query_sm":
        message_id, date, rest = pdu.body.split(b"\0", 2)
        is_good = is_id(message_id.decode("latin-1")) and len(date) in (0, 16) and len(rest) == 2 and (rest[0] == pdus.ENROUTE) == (not date)
    elif name in BINDS:
        is_good = pdu.body in (b"CENTRE\0", b"CENTRE\0\x02\x10\0\x01\x34")
    else:
        is_good = not pdu.body
    if not is_good:
        raise ValueError(f"a PDU that is not good: {title(pdu)}, {pdu}")


class Owed:
    """What a request is owed."""

    def __init__(self, pdu, may_wait):
        self.pdu, self.is_whole = pdu, is_whole(pdu)
        name = name_of(pdu)
        self.is_known = pdu.command in NAMES
        self.may_wait = may_wait and self.is_whole and name in WAIT

    def is_met_by(self, told):
        if self.pdu.command is None:
            return (told.command, told.status, told.sequence) == (pdus.GENERIC_NACK, pdus.INVALID_LENGTH, 0)
        if told.sequence != self.pdu.sequence:
            return False
        if self.pdu.command == pdus.DELIVER_SM:
            # Its octets are looked at first, as those of any PDU.
            return told.command == pdus.GENERIC_NACK or told.command == pdus.DELIVER_SM | pdus.RESPONSE and told.status != 0
        if not self.is_known:
            return (told.command, told.status) == (pdus.GENERIC_NACK, pdus.INVALID_COMMAND)
        if told.command == pdus.GENERIC_NACK:
            return told.status == pdus.INVALID_LENGTH and not self.is_whole
        return told.command == self.pdu.command | pdus.RESPONSE and (self.is_whole or told.status != 0)


class Stream:
    """A session: the octets that no PDU has yet, and what it is owed."""

    def __init__(self):
        self.begin()

    def begin(self):
        self.rest, self.owed, self.role, self.is_ending, self.is_lost = b"", [], None, False, False
        # What met a request beside which another one would have done.
        self.met = []

    def hear(self, octets):
        """These octets are sent on it; what comes behind a wrong length is dropped."""
        if self.is_lost:
            return 0
        frames, self.rest = cut(self.rest + octets)
        for pdu in frames:
            if pdu.command is None:
                self.is_lost, self.rest = True, b""
            elif pdu.command & pdus.RESPONSE and (pdu.command == pdus.GENERIC_NACK or pdu.command & ~pdus.RESPONSE in NAMES):
                continue
            may_wait = self.role is not None or any(name_of(one.pdu) in BINDS for one in self.owed)
            self.owed.append(Owed(pdu, may_wait))
        return len(frames)

    def wanted(self):
        """How many octets its last PDU lacks."""
        return int.from_bytes(self.rest[:4], "big") - len(self.rest) if len(self.rest) >= 4 else 0

    def told(self, pdu):
        """Takes what it is owed for this PDU of the centre, which is no deliver_sm; ValueError if it is owed nothing like it."""
        if self.is_ending:
            raise ValueError(f"told behind its end: {title(pdu)}")
        places = [place for place, one in enumerate(self.owed) if one.is_met_by(pdu)]
        one = None if places else self.exchanged(pdu)
        if not places and not one:
            raise ValueError(f"told what it is not owed: {title(pdu)}, sequence_number {pdu.sequence}, owed {[title(one.pdu) for one in self.owed][:5]}")
        if places:
            # Of requests with one sequence_number a refusal is taken to be for one that has no leave to wait.
            one = self.owed.pop(min(places, key=lambda place: pdu.status != 0 and self.owed[place].may_wait))
            self.met += [(one, pdu)] if len(places) > 1 else []
        name = name_of(one.pdu)
        if one.pdu.command is None or name == "unbind" and pdu.status == 0 and pdu.command != pdus.GENERIC_NACK:
            self.is_ending = True
        elif name in BINDS and pdu.status == 0 and pdu.command != pdus.GENERIC_NACK:
            if self.role is not None:
                raise ValueError(f"bound twice: {title(pdu)}")
            self.role = name

    def exchanged(self, pdu):
        """The request that this PDU meets, if what was taken to meet it meets another one that is owed; None if there is none."""
        for place, (one, earlier) in enumerate(self.met):
            others = [other for other in self.owed if other.is_met_by(earlier)]
            if one.is_met_by(pdu) and others:
                self.owed.remove(others[0])
                del self.met[place]
                return one
        return None

    def late(self):
        """What should have been told by now, and was not."""
        waits = sum(one.may_wait for one in self.owed)
        if waits > WINDOW and not self.is_ending:
            return f"{waits} requests wait"
        left = [title(one.pdu) for one in self.owed if not one.may_wait]
        return f"never told: {left[:5]}" if left and not self.is_ending else None
