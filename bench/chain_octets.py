#!/usr/bin/env python3
"""Prints what the tests of chains expect, worked out here from the written format, apart from the program.

First the octets of a chain of one decree in format 2, in which chains are written, and in format 1, which earlier programs wrote, those of a chain of 18
decrees, and those of a fate and of its Told. Then what becomes of each of the first two with one of its octets changed: a letter for each place and each of
the octets 00, 7f, 80 and ff, which is k if it still is a permitted chain, p if it is a chain that is not permitted, and b if it is no chain's octets.

    python3 bench/chain_octets.py
"""
import argparse
from struct import Struct

TAKEN = 946_684_800
EXPIRY = TAKEN + 3 * 86_400
MOMENTS = range(946_684_800, 4_102_444_800)
FINAL_STATES = {2: "DELIVERED", 3: "EXPIRED", 4: "DELETED", 5: "UNDELIVERABLE", 8: "REJECTED"}
CHAIN = Struct(">BQH")
# of each format: how many octets the length of a text has, and the text at most
TEXTS = {1: (1, 254), 2: (2, 4096)}
# and how many kinds of decrees
KINDS = {1: 4, 2: 5}
HEAD = Struct(">BBHI")


def text(octets):
    return bytes([len(octets)]) + octets


def address(digits):
    return bytes([1, 1]) + text(digits)


def taken(form):
    """From 144 to 155, of sme1 to itself, with the text Hi; registered_delivery is 1."""
    parties = text(b"sme1") + text(b"sme1") + text(b"") + address(b"144") + address(b"155")
    handling = bytes([0, 0, 0, 1, 0]) + TAKEN.to_bytes(4, "big") + EXPIRY.to_bytes(4, "big")
    return HEAD.pack(1, 1, 1, TAKEN) + parties + handling + (2).to_bytes(TEXTS[form][0], "big") + b"Hi" + bytes([0, 0])


def tried_eight_times():
    """The message is tried eight times, fails after seven seconds each time, and is given up by another node."""
    decrees = [taken(2)]
    begun = TAKEN
    for number in range(1, 9):
        failed = begun + 7
        decrees.append(HEAD.pack(2, 1, number, begun) + bytes([number]))
        decrees.append(HEAD.pack(3, 1, number + 1, failed) + (100 * number).to_bytes(2, "big"))
        begun = failed + 60 * number
    decrees.append(HEAD.pack(4, 9, 9999, begun) + bytes([5]) + (999).to_bytes(2, "big"))
    return decrees


def deleted():
    """The message is deleted by the node that took it, with the error 999."""
    return HEAD.pack(4, 1, 1, TAKEN) + bytes([4]) + (999).to_bytes(2, "big")


def told():
    """Its third incarnation tells the receipt seven seconds later."""
    return HEAD.pack(5, 1, 3, TAKEN + 7)


def chain(form, decrees):
    return CHAIN.pack(form, 1_000_100_001, len(decrees)) + b"".join(decrees)


class NotBytes(Exception):
    pass


class Reader:
    def __init__(self, octets):
        self.octets = octets

    def take(self, count):
        if len(self.octets) < count:
            raise NotBytes
        front, self.octets = self.octets[:count], self.octets[count:]
        return front

    def number(self, count, allowed):
        number = int.from_bytes(self.take(count), "big")
        if number not in allowed:
            raise NotBytes
        return number

    def text(self, below):
        found = self.take(self.number(1, range(256)))
        if len(found) >= below or 0 in found:
            raise NotBytes
        return found

    def address(self):
        self.take(2)
        return self.text(21)

    def parameters(self):
        """How many octets they have."""
        whole = self.take(self.number(2, range(65_536)))
        if len(whole) > 7_000:
            raise NotBytes
        inner = Reader(whole)
        while inner.octets:
            inner.take(2)
            inner.take(inner.number(2, range(65_536)))
        return len(whole)

    def message(self, form):
        for below in (16, 16, 6):
            self.text(below)
        self.address()
        self.address()
        self.take(5)
        schedule, expiry = self.number(4, MOMENTS), self.number(4, MOMENTS)
        size, most = TEXTS[form]
        length = self.number(size, range(most + 1))
        self.take(length)
        others = self.parameters()
        if length > 254 and length + others > 6_996:
            raise NotBytes
        return schedule, expiry

    def decree(self, form):
        kind = self.number(1, range(1, KINDS[form] + 1))
        node, incarnation = self.number(1, range(1, 10)), self.number(2, range(1, 10_000))
        moment = self.number(4, MOMENTS)
        term = None
        if kind == 1:
            term = self.message(form)
        elif kind == 2:
            self.take(1)
        elif kind == 3:
            self.number(2, range(1_000))
        elif kind == 4:
            self.number(1, FINAL_STATES)
            self.number(2, range(1_000))
        return node, incarnation, moment, term


def judged(octets):
    """What becomes of octets that hold one decree at most."""
    reader = Reader(octets)
    try:
        form = reader.number(1, TEXTS)
        number = reader.number(8, range(10**10))
        if not (1 <= number // 10**9 <= 9 and 1 <= number // 10**5 % 10**4 and 1 <= number % 10**5):
            raise NotBytes
        decrees = [reader.decree(form) for _ in range(reader.number(2, range(65_536)))]
        if reader.octets:
            raise NotBytes
    except NotBytes:
        return "b"
    if len(decrees) != 1:
        return "p"
    node, incarnation, moment, term = decrees[0]
    if term is None or (node, incarnation) != (number // 10**9, number // 10**5 % 10**4):
        return "p"
    schedule, expiry = term
    return "k" if moment < expiry and schedule < expiry else "p"


def rows(octets, width=16):
    for start in range(0, len(octets), width):
        print("    " + " ".join(f"0x{octet:02x}," for octet in octets[start : start + width]))


def main():
    argparse.ArgumentParser(description=__doc__, formatter_class=argparse.RawDescriptionHelpFormatter).parse_args()
    chains = {"TAKEN_CHAIN": chain(2, [taken(2)]), "EARLIER_CHAIN": chain(1, [taken(1)])}
    for name, whole in chains.items():
        assert judged(whole) == "k"
        print(f"{name},", len(whole), "octets")
        rows(whole)
    decrees = tried_eight_times()
    print("TRIED_CHAIN,", len(chain(2, decrees)), "octets")
    rows(CHAIN.pack(2, 1_000_100_001, len(decrees)))
    for decree in decrees:
        rows(decree)
    for name, decree in {"FATE": deleted(), "TELLING": told()}.items():
        print(f"{name},", len(decree), "octets")
        rows(decree)
    for name, whole in chains.items():
        print(f"{name}, changed, a word a place")
        changed = [[whole[:place] + bytes([octet]) + whole[place + 1 :] for octet in (0, 0x7F, 0x80, 0xFF)] for place in range(len(whole))]
        words = ["".join(map(judged, four)) for four in changed]
        for start in range(0, len(words), 24):
            print(" ".join(words[start : start + 24]))


if __name__ == "__main__":
    main()
