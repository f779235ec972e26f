#!/usr/bin/env python3
r"""Writes a PDU in hexadecimal digits, and tells what one says.

    python3 tools/pdu.py submit_sm source=144 destination=155 text=Hi       # the digits of a PDU
    python3 tools/pdu.py 00000010000000150000000000000001                   # the words that write it: enquire_link sequence=1
    python3 tools/pdu.py --write < WORDS > SCRIPT                           # in each line `pdu NODE SESSION WORDS` the words become digits
    centre script < SCRIPT | python3 tools/pdu.py --read                    # in each line `pdu NODE SESSION HEX` the digits become words

The words are a command and fields of it, NAME=VALUE, by the names of SMPP 3.4; docs/SCRIPTS.md has a table of them. `source`, `destination` and `text` are
short for source_addr, destination_addr and short_message. A field that is not given is empty, or zero, but for these: the sequence_number is 1;
interface_version is 0x34; TON and NPI are 1 of a source or a destination that is not empty; and sm_length is that of the text. A response with a status other
than 0 and no field is a header alone.

A number is decimal, or hexadecimal behind 0x. In a text \xHH is an octet, and \\ a backslash. An optional parameter has its name or its tag (0x1400=..), and
stands where it is given. Some are numbers, as long as the standard says; their octets may be given, too, and those of all others are. Beside the fields stand
`sequence=`; `status=`, a number or a name as ESME_RX_T_APPN; `length=`, a command_length that is to be wrong; and `body=`, the digits of a body that is to be
wrong. A command may be a number, as 0x00000021. What is longer than it may be is written, and told on standard error.
"""
import argparse
import os
import re
import shlex
import sys

from chart_pdus import BODIES, LIMITS, LONGEST, LONGEST_TEXT, MOST_PARAMETERS, NACK, NAMES, PARAMETERS, RESPONSE, SHORTEST, STATUSES, TAGS
from chart_pdus import Cut, command_name, pdu_of, split

COMMANDS = {name: code for code, name in NAMES.items()} | {name + "_resp": code | RESPONSE for code, name in NAMES.items()} | {"generic_nack": NACK}
STATUS_CODES, TAG_CODES = ({name: code for code, name in table.items()} for table in (STATUSES, TAGS))
LONG_NAMES = {"source": "source_addr", "destination": "destination_addr", "text": "short_message"}
SHORT_NAMES = {name: short for short, name in LONG_NAMES.items()}
# What stands beside an address, and is 1 if the address is there.
ADDRESSES = {
    "source_addr_ton": "source_addr", "source_addr_npi": "source_addr", "dest_addr_ton": "destination_addr", "dest_addr_npi": "destination_addr",
}
# The optional parameters that are numbers, with their octets.
NUMBERS = {
    "user_message_reference": 2, "sar_msg_ref_num": 2, "sar_total_segments": 1, "sar_segment_seqnum": 1, "sc_interface_version": 1, "message_state": 1,
}
VERSIONS = {"interface_version", "sc_interface_version"}
HEAD = {"length", "status", "sequence", "body"}
NUMBER, DIGITS = re.compile("0x[0-9a-fA-F]+|[0-9]+"), re.compile("(?:[0-9a-fA-F]{2})*")
ESCAPE, ESCAPED = re.compile(rb"\\(?:x([0-9a-fA-F]{2})|(\\)|)"), re.compile(rb"[^ -~]|\\")
LINE = re.compile("(pdu [0-9]+ [0-9]+) (.+)")


class Wrong(Exception):
    """These words, or these digits, are no PDU."""


# ---- the octets of values

def number(name, text, length):
    if not NUMBER.fullmatch(text):
        raise Wrong(f"{name}: {text!r} is no number")
    value = int(text, 16 if text.startswith("0x") else 10)
    if value >= 256 ** length:
        raise Wrong(f"{name}: {text} needs more than {length} octet{'s' if length > 1 else ''}")
    return value.to_bytes(length, "big")


def octets_in(name, text):
    def octet(found):
        if found[0] == b"\\":
            raise Wrong(f"{name}: behind a backslash comes xHH, or a backslash")
        return bytes([int(found[1], 16)]) if found[1] else found[2]

    return ESCAPE.sub(octet, os.fsencode(text))


def text_of(octets):
    return ESCAPED.sub(lambda found: b"\\\\" if found[0] == b"\\" else b"\\x%02x" % found[0][0], octets).decode("ascii")


# ---- from words to octets

def pair(word):
    name, sign, value = word.partition("=")
    if not sign:
        raise Wrong(f"{word!r} is no NAME=VALUE")
    return LONG_NAMES.get(name, name), value


def parameter(name, value):
    """The octets of an optional parameter, from its tag on."""
    tag = TAG_CODES[name].to_bytes(2, "big") if name in TAG_CODES else number("a tag", name, 2)
    length = NUMBERS.get(TAGS.get(int.from_bytes(tag, "big")))
    octets = number(name, value, length) if length and NUMBER.fullmatch(value) else octets_in(name, value)
    return tag + number(name, str(len(octets)), 2) + octets


def field(name, given):
    """The octets of a field."""
    value = given.get(name)
    if name in LIMITS:
        text = octets_in(name, value or "")
        if 0 in text:
            raise Wrong(f"{name}: an octet of zero would end it")
        return text + b"\0"
    if name == "short_message":
        return octets_in(name, value or "")
    if value is None and name == "sm_length":
        value = str(len(field("short_message", given)))
    if value is None and name == "interface_version":
        value = "0x34"
    return number(name, value or ("1" if given.get(ADDRESSES.get(name)) else "0"), 1)


def body_of(command, pairs):
    """The body of a command with these fields and optional parameters."""
    fields = BODIES.get(command, [])
    given = dict((name, value) for name, value in pairs if name in fields)
    others = [(name, value) for name, value in pairs if name not in fields]
    for name, _ in others:
        if PARAMETERS not in fields or not (name in TAG_CODES or name.startswith("0x")):
            raise Wrong(f"{command} has no {name}; it has {', '.join(fields) or 'no fields'}")
    return b"".join(b"".join(parameter(*other) for other in others) if name == PARAMETERS else field(name, given) for name in fields)


def written(words):
    """The octets of a PDU that words say."""
    pairs = [pair(word) for word in words[1:]]
    head = {"sequence": "1", "status": "0"} | {name: value for name, value in pairs if name in HEAD}
    pairs = [(name, value) for name, value in pairs if name not in HEAD]
    if words[0] not in COMMANDS and not words[0].startswith("0x"):
        raise Wrong(f"{words[0]} is no command; there are {', '.join(COMMANDS)}")
    code = number("a command", str(COMMANDS.get(words[0], words[0])), 4)
    status = number("status", str(STATUS_CODES.get(head["status"], head["status"])), 4)
    command = command_name(int.from_bytes(code, "big")) or words[0]
    if "body" in head:
        if pairs or not DIGITS.fullmatch(head["body"]):
            raise Wrong("body: hexadecimal digits, and no fields beside them")
        body = bytes.fromhex(head["body"])
    else:
        is_refusal = code[0] >= 0x80 and any(status) and not pairs
        body = b"" if is_refusal else body_of(command, pairs)
    length = number("length", head.get("length", str(SHORTEST + len(body))), 4)
    return length + code + status + number("sequence", head["sequence"], 4) + body


def too_long(octets):
    """What of a PDU is longer than it may be."""
    pdu = pdu_of(octets)
    try:
        found, _ = split(BODIES.get(command_name(pdu.command), []), pdu.body)
    except Cut:
        found = {}
    most = LIMITS | {"short_message": LONGEST_TEXT, PARAMETERS: MOST_PARAMETERS}
    lengths = [(name, len(text), most[name]) for name, text in found.items() if name in most] + [("the PDU", len(octets), LONGEST)]
    return [f"{name}: {length} octets, of {limit} at most" for name, length, limit in lengths if length > limit]


# ---- from octets to words

def number_text(name, octets):
    value = int.from_bytes(octets, "big")
    return f"0x{value:02x}" if name in VERSIONS else str(value)


def parameter_words(octets):
    while octets:
        tag, length, behind = int.from_bytes(octets[:2], "big"), int.from_bytes(octets[2:4], "big"), octets[4:]
        if len(octets) < 4 or len(behind) < length:
            raise Cut(PARAMETERS)
        name, value, octets = TAGS.get(tag, f"0x{tag:04x}"), behind[:length], behind[length:]
        as_octets = "".join(f"\\x{octet:02x}" for octet in value) if name in NUMBERS else text_of(value)
        yield f"{name}={number_text(name, value) if NUMBERS.get(name) == length else as_octets}"


def field_words(command, body, is_whole):
    """The fields of a body as words: all of them, or those that would be others if they were not given."""
    found, behind = split(BODIES[command], body)
    if behind:
        raise Cut("octets behind the body")
    parameters = found.pop(PARAMETERS, b"")
    given = {name: text_of(octets) if name in LIMITS or name == "short_message" else number_text(name, octets) for name, octets in found.items()}
    for name, value in given.items():
        others = {other: value for other, value in given.items() if other != name}
        if is_whole or field(name, others) != field(name, given):
            yield f"{SHORT_NAMES.get(name, name)}={value}"
    yield from parameter_words(parameters)


def head_words(octets):
    pdu, name = pdu_of(octets), command_name(pdu_of(octets).command)
    yield name or f"0x{pdu.command:08x}"
    if pdu.status or pdu.command >= RESPONSE:
        yield f"status={STATUSES.get(pdu.status, f'0x{pdu.status:08x}')}"
    yield f"sequence={pdu.sequence}"
    if int.from_bytes(octets[:4], "big") != len(octets):
        yield f"length={int.from_bytes(octets[:4], 'big')}"


def told(octets):
    """The words that write these octets: the fewest of three ways to say them."""
    if len(octets) < SHORTEST:
        raise Wrong(f"{len(octets)} octets are no PDU")
    pdu, head = pdu_of(octets), list(head_words(octets))
    for is_whole in (False, True):
        try:
            words = head + (list(field_words(head[0], pdu.body, is_whole)) if head[0] in BODIES and pdu.body else [])
        except Cut:
            break
        if written(words) == octets:
            return words
    return [*head, f"body={pdu.body.hex()}"]


def frames(octets):
    """Each PDU by itself, if octets are several; else all of them."""
    lengths, at = [], 0
    while at < len(octets):
        lengths.append(max(SHORTEST, int.from_bytes(octets[at:at + 4], "big")))
        at += lengths[-1]
    if at != len(octets):
        return [octets]
    return [octets[sum(lengths[:place]):][:length] for place, length in enumerate(lengths)]


# ---- lines

def quoted(words):
    return " ".join(shlex.quote(word) for word in words)


def line_written(found):
    words = shlex.split(found[2])
    return found[0] if DIGITS.fullmatch(found[2]) else f"{found[1]} {written(words).hex()}"


def line_read(found):
    """A line in words, if its octets are one whole PDU."""
    octets = bytes.fromhex(found[2]) if DIGITS.fullmatch(found[2]) else b""
    is_whole = len(octets) >= SHORTEST and int.from_bytes(octets[:4], "big") == len(octets)
    return f"{found[1]} {quoted(told(octets))}" if is_whole else found[0]


def filtered(lines, change):
    for place, line in enumerate(lines, start=1):
        found = LINE.fullmatch(line.rstrip("\n"))
        try:
            print(change(found) if found else line.rstrip("\n"))
        except (Wrong, ValueError) as fault:
            sys.exit(f"line {place}: {fault}")


def tell_all(digits):
    """Prints the words that write these octets, a line for each PDU."""
    if len(digits) % 2:
        raise Wrong(f"{len(digits)} digits are an odd number")
    print(*(quoted(told(octets)) for octets in frames(bytes.fromhex(digits))), sep="\n")


def write(words):
    """Prints the digits of a PDU, and tells what of it is too long."""
    octets = written(words)
    print(*too_long(octets), sep="\n", end="\n" if too_long(octets) else "", file=sys.stderr)
    print(octets.hex())


def main():
    reader = argparse.ArgumentParser(description=__doc__, formatter_class=argparse.RawDescriptionHelpFormatter)
    way = reader.add_mutually_exclusive_group(required=True)
    way.add_argument("words", metavar="WORD", nargs="*", default=[])
    way.add_argument("--write", dest="change", action="store_const", const=line_written)
    way.add_argument("--read", dest="change", action="store_const", const=line_read)
    given = reader.parse_args()
    if given.change:
        filtered(sys.stdin, given.change)
    elif re.fullmatch("[0-9a-fA-F]+", " ".join(given.words)):
        tell_all(given.words[0])
    else:
        write(given.words)


if __name__ == "__main__":
    try:
        main()
    except Wrong as fault:
        sys.exit(str(fault))
