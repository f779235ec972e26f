"""Octets that are PDUs, almost PDUs, or none, drawn by chance from PDUs that are good."""
import pathlib
import struct
import sys

TOP = pathlib.Path(__file__).resolve().parent.parent.parent
sys.path.insert(0, str(TOP / "tools"))

import pdus
from chart_pdus import cut

ROWS = TOP / "crates" / "centre" / "data" / "rows"
ODD_OCTETS = (0x00, 0x7F, 0x80, 0xFF)
ODD_LENGTHS = (0, 1, 15, 16, 17, 8_191, 8_192, 8_193, 0x7FFFFFFF, 0x80000000, 0xFFFFFFFF)
COMMANDS = (0, 1, 2, 3, 4, 5, 6, 7, 8, 9, 0x0B, 0x15, 0x21, 0x102, 0x103)
BINDS = (pdus.BIND_TRANSCEIVER, pdus.BIND_TRANSCEIVER, pdus.BIND_TRANSMITTER, pdus.BIND_RECEIVER)
TAGS = (0x0204, 0x020C, 0x020E, 0x020F, 0x001E, 0x0424, 0x0427, 0)
ADDRESSES = ("", "144", "155", "255", "1" * 20, "1" * 21, "2" * 21)
TIMES = ("", "000000000100000R", "991231235959948+", "010230000000000+", "000000000000000R", "0000000001000000R", "x")


def good_pdus():
    """The whole PDUs of the worked scripts."""
    found = set()
    for script in sorted(ROWS.glob("*.script")):
        for line in script.read_text(errors="replace").splitlines():
            words = line.split(" ")
            if len(words) == 4 and words[0] == "pdu" and len(words[3]) % 2 == 0:
                found.update(pdus.frame(one.command, one.sequence, one.body, one.status) for one in cut(bytes.fromhex(words[3]))[0] if one.command is not None)
    return sorted(found)


class Mutants:
    """Inputs, each with sequence_numbers of its own if it has any that were not hit."""

    def __init__(self, choices, binds, ids, first=1):
        """`binds` are bodies of bind requests, and `ids` message_ids that may be known."""
        self.choices, self.binds, self.ids, self.good, self.sequence = choices, binds, ids, good_pdus(), first
        kinds = ((self.well, 40), (self.cut_body, 10), (self.hit, 25), (self.changed, 10), (self.with_parameters, 8), (self.strange, 4), (self.lying, 3),
                 (self.cut_short, 2), (self.noise, 1))
        self.kinds, self.weights = [kind for kind, _ in kinds], [weight for _, weight in kinds]

    def next(self):
        """Some octets."""
        count = 1 if self.choices.random() < 0.95 else self.choices.randint(2, 5)
        return b"".join(self.choices.choices(self.kinds, self.weights)[0]() for _ in range(count))

    def next_sequence(self):
        self.sequence += 1
        return self.sequence

    def frame(self, command, body):
        return pdus.frame(command, self.next_sequence(), body)

    def well(self):
        """A PDU that is good, as far as the node has no other mind."""
        choices = self.choices
        match choices.randrange(8):
            case 0:
                return self.frame(choices.choice(BINDS), choices.choice(self.binds))
            case 1:
                return self.frame(pdus.QUERY_SM, pdus.query_body(choices.choice(self.ids), choices.choice(("144", "144", "155"))))
            case 2:
                return self.frame(pdus.CANCEL_SM, pdus.cancel_body(choices.choice(self.ids), "144"))
            case 3:
                fields = {"schedule": choices.choice(TIMES), "validity": choices.choice(TIMES)} if choices.random() < 0.3 else {}
                text = choices.randbytes(choices.choice((0, 1, 2, 140, 254, 255)))
                fields |= {"destination": choices.choice(ADDRESSES), "registered": choices.randrange(4)}
                return self.frame(pdus.SUBMIT_SM, pdus.message_body(text, source="144", **fields))
            case 4:
                return self.frame(pdus.ENQUIRE_LINK, b"")
            case 5:
                return pdus.frame(pdus.DELIVER_SM | pdus.RESPONSE, choices.randint(1, 30), b"\0", choices.choice((0, 0, 0, 0x64, 0x65, 0x66)))
            case _:
                return self.with_sequence(choices.choice(self.good))

    def with_sequence(self, octets):
        """The same with a sequence_number of its own, if it is a request; an unbind seldom, since it ends the session."""
        command = int.from_bytes(octets[4:8], "big")
        if command == pdus.UNBIND and self.choices.random() < 0.8:
            command = pdus.ENQUIRE_LINK
        if command & pdus.RESPONSE:
            return octets
        return pdus.frame(command, self.next_sequence(), octets[16:])

    def mended(self, octets):
        """With the command_length that it has."""
        return struct.pack(">I", len(octets)) + octets[4:]

    def cut_body(self):
        octets = self.well()
        return self.mended(octets[:self.choices.randint(16, len(octets))])

    def hit(self):
        """Some octets behind the command_length are others."""
        octets = bytearray(self.well())
        for _ in range(self.choices.choice((1, 1, 1, 2, 3))):
            octets[self.choices.randrange(4, len(octets))] = self.choices.choice((*ODD_OCTETS, self.choices.randrange(256)))
        return bytes(octets)

    def changed(self):
        """Octets are put in, doubled or taken out, and the command_length is right."""
        octets, choices = self.well(), self.choices
        at = choices.randint(16, len(octets))
        count = choices.choice((1, 1, 2, 5, 20, 70, 300))
        put = choices.choice((choices.randbytes(count), bytes(count), b"1" * count, octets[at:at + count]))
        return self.mended(octets[:at] + put + octets[at + choices.choice((0, 0, 1, count)):])

    def with_parameters(self):
        """Optional parameters behind it, whose lengths may lie."""
        octets, choices = self.well(), self.choices
        for _ in range(choices.randint(1, 3)):
            value = choices.randbytes(choices.choice((0, 1, 2, 30, 3_000)))
            length = len(value) if choices.random() < 0.6 else choices.choice((0, len(value) + 1, max(0, len(value) - 1), 0x7FFF, 0xFFFF))
            octets += struct.pack(">HH", choices.choice(TAGS), length) + value
        return self.mended(octets[:8_192])

    def strange(self):
        """Another command_id, or octets by chance behind a good header."""
        command = self.choices.choice((*COMMANDS, self.choices.randrange(1 << 32))) | self.choices.choice((0, 0, pdus.RESPONSE))
        return self.frame(command, self.choices.randbytes(self.choices.choice((0, 1, 8, 40, 300))))

    def lying(self):
        """A command_length that is not that of the octets."""
        octets, choices = self.well(), self.choices
        length = choices.choice(ODD_LENGTHS) if choices.random() < 0.4 else max(0, len(octets) + choices.randint(-20, 60))
        return struct.pack(">I", length) + octets[4:]

    def cut_short(self):
        octets = self.well()
        return octets[:self.choices.randrange(1, len(octets))]

    def noise(self):
        return self.choices.randbytes(self.choices.choice((1, 4, 16, 60)))
