#!/usr/bin/env python3
"""A small ESME over Python's standard library: it binds, submits a message, asks of one, cancels one, or shows what is delivered.

    python3 tools/esme.py bind
    python3 tools/esme.py listen
    python3 tools/esme.py submit --from 144 --to 155 --text Hello --receipt
    python3 tools/esme.py query 1000100001 --from 144
    python3 tools/esme.py cancel 1000100001 --from 144

Each command binds, asks for one thing, and unbinds. What was asked for goes to standard output: a message_id, a state, a line for each deliver_sm. What the
centre answered goes to standard error, by name and number, with what to do. docs/ESME.md says what the centre does with each PDU.

The exit status is 0 if the answer was ESME_ROK, 1 if it was not or none came, and 2 if the arguments are wrong.
"""
import argparse
import contextlib
import pathlib
import sys

sys.path.insert(0, str(pathlib.Path(__file__).resolve().parent / "clients"))

import pdus
from chart_pdus import BODIES, LONGEST_TEXT, PARAMETERS, STATES, STATUSES, split
from pdu import parameter_words
from plain_esme import Ended, Esme

ROLES = {"transmitter": pdus.BIND_TRANSMITTER, "receiver": pdus.BIND_RECEIVER, "transceiver": pdus.BIND_TRANSCEIVER}
# The centre answers within 30 seconds, or says that it could not.
SECONDS, FOR_EVER = 60, 10 ** 9
LONGEST_PAYLOAD, UDHI = 4_096, 0x40
# How the letters of a text are octets, by its data_coding; of any other a letter is one octet.
DEFAULT, UCS2 = 0, 8
ALPHABETS = {0x00: "ascii", 0x01: "ascii", 0x08: "utf-16-be", 0x10: "ascii", 0x18: "utf-16-be", 0xF0: "ascii"}
OTHER_ALPHABET = "latin-1"
HINTS = {
    0x01: "the text is too long, of 254 octets as short_message, or of 4,096 as message_payload; do not send it again as it is",
    0x02: "the PDU ends too early or too late; do not send it again as it is",
    0x03: "the centre does not have this command",
    0x04: "bind first, and to submit, query or cancel as a transmitter or a transceiver",
    0x05: "the session is bound already",
    0x07: "registered_delivery is 0, 1 or 2",
    0x08: "nothing is known: what was asked for may have been done. Query and cancel again; a message that is submitted again may be delivered twice",
    0x0A: "source_addr has 20 octets at most",
    0x0B: "destination_addr is empty or too long, or no route of the centre leads from it; ask the operator",
    0x0C: "the centre has no such message",
    0x0D: "the account may not bind so; ask the operator",
    0x0E: "the password is wrong",
    0x0F: "the centre has no account of this system_id",
    0x11: "the message is being delivered, has ended, or is from or to another address; ask by query",
    0x14: "the node has no message_id left; submit again in a minute, or at another node",
    0x15: "service_type has 5 octets at most",
    0x53: "system_type has 12 octets at most",
    0x58: "too many requests wait; the message is not taken: send it again in a moment",
    0x61: "the schedule is no time, or not before the end of the validity",
    0x62: "the validity is no time, or has passed",
    0x67: "the message is of another account, or from another address",
    0xC0: "the optional parameters are cut, or have more than 7,000 octets",
}


class Wrong(Exception):
    """These arguments can't be sent."""


# ---- what is told

def told(name, answer):
    """Tells on standard error what the centre answered to a request; whether that is ESME_ROK."""
    if answer is None:
        print(f"{name}: no answer within {SECONDS} seconds", file=sys.stderr)
        return False
    is_nack = answer.command == pdus.GENERIC_NACK
    status = f"{STATUSES.get(answer.status, 'a status without a name')} (0x{answer.status:02x})"
    hint = f": {HINTS[answer.status]}" if answer.status in HINTS else ""
    print(f"{'generic_nack to ' + name if is_nack else name + '_resp'}: {status}{hint}", file=sys.stderr)
    return answer.status == pdus.OK and not is_nack


def alphabet(coding):
    return ALPHABETS.get(coding, OTHER_ALPHABET)


def visible(text):
    """A text on one line: what cannot be seen stands as Python writes it."""
    return "".join(letter if letter.isprintable() else letter.encode("unicode_escape").decode() for letter in text)


def delivered_line(body):
    """A line that shows a deliver_sm: whether it is a message or a receipt, from where to where, its text, and what stands beside it."""
    found = pdus.message(body)
    text, beside = found["short_message"] or found["parameters"].get(pdus.MESSAGE_PAYLOAD, b""), []
    if found["esm_class"] & UDHI and text:
        header, text = text[:text[0] + 1], text[text[0] + 1:]
        beside.append(f"udh={header.hex()}")
    words = parameter_words(split(BODIES["deliver_sm"], body)[0][PARAMETERS])
    beside += [word for word in words if not word.startswith("message_payload=")]
    kind = "receipt" if pdus.is_receipt(found) else "message"
    shown = visible(text.decode(alphabet(found["coding"]), "backslashreplace"))
    return f"{kind} from {visible(found['source'])} to {visible(found['destination'])}: {shown}" + (f" [{' '.join(beside)}]" if beside else "")


class Client(Esme):
    """An ESME that shows each deliver_sm before it answers it, so that none is lost."""

    def serve(self, pdu):
        if pdu.command == pdus.DELIVER_SM:
            print(delivered_line(pdu.body), flush=True)
        super().serve(pdu)


# ---- what is asked for

def ton_and_npi(address):
    """Of a number, of a name, and of nothing (SMPP 3.4, 5.2.5 and 5.2.6)."""
    if not address:
        return 0, 0
    return (1, 1) if address.lstrip("+").isdigit() else (5, 0)


def text_octets(text, coding):
    """The octets of a text, and its data_coding: UCS2 if nothing else is said, and the default alphabet lacks a letter."""
    if coding is None:
        coding = DEFAULT if text.isascii() else UCS2
    try:
        return text.encode(alphabet(coding)), coding
    except UnicodeEncodeError as fault:
        raise Wrong(f"data_coding {coding} has no {fault.object[fault.start]!r}; --data-coding {UCS2} has all letters") from None


def message_fields(given):
    """The text, the optional parameters and the other fields of a submit_sm."""
    text, coding = text_octets(given.text, given.data_coding)
    longest = LONGEST_PAYLOAD if given.payload else LONGEST_TEXT
    if len(text) > longest:
        raise Wrong(f"the text has {len(text)} octets, of {longest} at most" + ("" if given.payload else f"; with --payload {LONGEST_PAYLOAD}"))
    (source_ton, source_npi), (destination_ton, destination_npi) = ton_and_npi(given.source), ton_and_npi(given.destination)
    fields = {
        "source": given.source, "source_ton": source_ton, "source_npi": source_npi, "destination_ton": destination_ton, "destination_npi": destination_npi,
        "schedule": given.schedule, "validity": given.validity, "registered": int(given.receipt), "coding": coding,
    }
    return (b"", [(pdus.MESSAGE_PAYLOAD, text)], fields) if given.payload else (text, (), fields)


def submit(esme, given):
    text, parameters, fields = given.message
    answer = esme.answer(esme.submit(given.destination, text, parameters, **fields), SECONDS)
    if is_ok := told("submit_sm", answer):
        print(pdus.Reader(answer.body).text())
    return is_ok


def query(esme, given):
    answer = esme.ask(pdus.QUERY_SM, pdus.query_body(given.id, given.source), SECONDS)
    if is_ok := told("query_sm", answer):
        date, state, error = pdus.state(answer.body)
        print(f"{given.id} {STATES.get(state, state)} error {error}" + (f" final_date {date}" if date else ""))
    return is_ok


def cancel(esme, given):
    return told("cancel_sm", esme.ask(pdus.CANCEL_SM, pdus.cancel_body(given.id, given.source, given.destination), SECONDS))


def listen(esme, given):
    """Shows what comes until so many came, so many seconds are over, or somebody types Ctrl-C; whether all came that were asked for."""
    def are_all():
        return given.count is not None and len(esme.delivered) >= given.count
    with contextlib.suppress(KeyboardInterrupt):
        esme.wait(are_all, FOR_EVER if given.seconds is None else given.seconds)
        return given.count is None or are_all()
    return True


def bind(esme, given):
    """Nothing is asked for but the bind itself, and its end."""
    return told("unbind", esme.ask(pdus.UNBIND, seconds=SECONDS))


def run(given):
    """Binds, asks, and unbinds; whether the answer was ESME_ROK."""
    if given.ask is submit:
        given.message = message_fields(given)
    with Client(given.port, host=given.host) as esme:
        answer = esme.bind(given.system_id, given.password, ROLES[given.role])
        if not told(f"bind_{given.role}", answer):
            return False
        if given.ask is bind:
            print(f"bound at {pdus.Reader(answer.body).text()}")
        is_ok = given.ask(esme, given)
        if given.ask is not bind:
            with contextlib.suppress(Ended, OSError):
                esme.unbind()
        return is_ok


# ---- the arguments

def octet(text):
    value = int(text, 0)
    if not 0 <= value <= 255:
        raise ValueError
    return value


def connection_arguments():
    parser = argparse.ArgumentParser(add_help=False)
    parser.add_argument("--host", default="127.0.0.1", help="where the node listens (default: %(default)s)")
    parser.add_argument("--port", type=int, default=2775, help="its port (default: %(default)s)")
    parser.add_argument("--system-id", default="sme1", help="the account (default: %(default)s)")
    parser.add_argument("--password", default="pw1", help="its password (default: that of examples/centre.toml)")
    return parser


def add_role(parser, roles):
    parser.add_argument("--as", dest="role", choices=roles, default=roles[0], help="how it binds (default: %(default)s)")


def add_source(parser):
    parser.add_argument("--from", dest="source", required=True, metavar="ADDRESS", help="source_addr of the message")


def add_message(parser):
    parser.add_argument("--to", dest="destination", required=True, metavar="ADDRESS", help="destination_addr")
    parser.add_argument("--text", required=True, help="what it says")
    parser.add_argument("--receipt", action="store_true", help="ask for a delivery receipt, which comes to who listens at this node")
    parser.add_argument("--schedule", default="", metavar="TIME", help="not before this time: 000000010000000R is an hour from now")
    parser.add_argument("--validity", default="", metavar="TIME", help="not from this time on")
    parser.add_argument("--data-coding", type=octet, metavar="N", help="0 to 255; 8 is UCS2 (default: 0, or 8 if the text is no ASCII)")
    parser.add_argument("--payload", action="store_true", help="send the text as message_payload, of up to 4,096 octets")


def parser_of_all():
    parser = argparse.ArgumentParser(description=__doc__, formatter_class=argparse.RawDescriptionHelpFormatter)
    commands, connection = parser.add_subparsers(required=True, metavar="COMMAND"), connection_arguments()

    def command(ask, text, role="transmitter"):
        found = commands.add_parser(ask.__name__, parents=[connection], help=text, description=text)
        found.set_defaults(ask=ask, role=role)
        return found

    add_role(command(bind, "binds, says what the centre answered, and unbinds"), ["transmitter", "receiver", "transceiver"])
    submitting = command(submit, "submits a message, and prints its message_id")
    add_source(submitting)
    add_message(submitting)
    querying = command(query, "asks for the state of a message")
    cancelling = command(cancel, "cancels a message that is not being delivered")
    for one in (querying, cancelling):
        one.add_argument("id", metavar="ID", help="its message_id, as submit prints it")
        add_source(one)
    cancelling.add_argument("--to", dest="destination", default="", metavar="ADDRESS", help="its destination_addr, if that is to be compared, too")
    listening = command(listen, "shows the messages and receipts that are delivered, a line each, and answers each with ESME_ROK; Ctrl-C ends it")
    add_role(listening, ["receiver", "transceiver"])
    listening.add_argument("--count", type=int, metavar="N", help="end after so many")
    listening.add_argument("--seconds", type=float, metavar="N", help="end after so many seconds; the exit status is 1 if fewer came than --count says")
    return parser


def main(arguments=None):
    """The exit status."""
    parser = parser_of_all()
    given = parser.parse_args(arguments)
    try:
        return 0 if run(given) else 1
    except Wrong as fault:
        parser.error(str(fault))
    except (Ended, OSError, ValueError, IndexError) as fault:
        print(f"{given.host}:{given.port}: {fault or 'no answer'}", file=sys.stderr)
    except KeyboardInterrupt:
        print("interrupted", file=sys.stderr)
    return 1


if __name__ == "__main__":
    sys.exit(main())
