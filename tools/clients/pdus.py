"""PDUs of SMPP 3.4 (section 4) as far as the clients here need them, written and read from the standard; it knows nothing of the centre's code."""
import struct
from typing import NamedTuple

BIND_RECEIVER, BIND_TRANSMITTER, QUERY_SM, SUBMIT_SM, DELIVER_SM, UNBIND = 1, 2, 3, 4, 5, 6
CANCEL_SM, BIND_TRANSCEIVER, ENQUIRE_LINK = 8, 9, 0x15
# Bit 31 of the command_id of a response; alone it is a generic_nack.
RESPONSE = GENERIC_NACK = 0x80000000

OK, INVALID_LENGTH, INVALID_COMMAND, INVALID_BIND_STATE, ALREADY_BOUND, SYSTEM_ERROR = 0, 2, 3, 4, 5, 8
INVALID_DESTINATION, INVALID_ID, BIND_FAILED, CANCEL_FAILED, THROTTLED, QUERY_FAILED = 0x0B, 0x0C, 0x0D, 0x11, 0x58, 0x67
PERMANENT_ERROR, REJECTED_BY_APPLICATION = 0x65, 0x66

ENROUTE, DELIVERED, EXPIRED, DELETED, UNDELIVERABLE, REJECTED = 1, 2, 3, 4, 5, 8

USER_MESSAGE_REFERENCE, RECEIPTED_MESSAGE_ID, SC_INTERFACE_VERSION, MESSAGE_STATE, MESSAGE_PAYLOAD = 0x0204, 0x001E, 0x0210, 0x0427, 0x0424

HEADER = struct.Struct(">IIII")
# The fields of submit_sm and deliver_sm up to the text, and which of them are texts.
MESSAGE = ("service_type", "source_ton", "source_npi", "source", "destination_ton", "destination_npi", "destination", "esm_class", "protocol_id", "priority",
           "schedule", "validity", "registered", "replaces", "coding", "default_message")
TEXTS = ("service_type", "source", "destination", "schedule", "validity")


class Pdu(NamedTuple):
    command: int
    status: int
    sequence: int
    body: bytes


def frame(command, sequence, body=b"", status=OK):
    """The octets of a PDU."""
    return HEADER.pack(HEADER.size + len(body), command, status, sequence) + body


def text(value):
    return (value if isinstance(value, bytes) else value.encode()) + b"\0"


def bind_body(system_id, password, version):
    return text(system_id) + text(password) + text("") + bytes([version, 0, 0]) + text("")


def message_body(short_message, parameters=(), **fields):
    """The body of a submit_sm; a field that is not given is empty, or zero."""
    head = b"".join(text(fields.get(name, "")) if name in TEXTS else bytes([fields.get(name, 0)]) for name in MESSAGE)
    return head + bytes([len(short_message)]) + short_message + b"".join(struct.pack(">HH", tag, len(value)) + value for tag, value in parameters)


def query_body(message_id, source):
    return text(message_id) + bytes([1, 1]) + text(source)


def cancel_body(message_id, source, destination=""):
    return text("") + text(message_id) + bytes([1, 1]) + text(source) + bytes([1, 1] if destination else [0, 0]) + text(destination)


class Reader:
    """Takes fields off the front of a body."""

    def __init__(self, octets):
        self.octets, self.at = octets, 0

    def text(self):
        end = self.octets.index(0, self.at)
        found, self.at = self.octets[self.at:end], end + 1
        return found.decode("latin-1")

    def take(self, count):
        found, self.at = self.octets[self.at:self.at + count], self.at + count
        if len(found) < count:
            raise ValueError("a PDU that ends too early")
        return found

    def number(self):
        return self.take(1)[0]

    def parameters(self):
        found = {}
        while self.at < len(self.octets):
            tag, length = struct.unpack(">HH", self.take(4))
            found[tag] = self.take(length)
        return found


def message(body):
    """The fields of a deliver_sm, by their names, with its short_message and its optional parameters."""
    reader = Reader(body)
    found = {name: reader.text() if name in TEXTS else reader.number() for name in MESSAGE}
    found["short_message"] = reader.take(reader.number())
    found["parameters"] = reader.parameters()
    return found


def state(body):
    """The final_date, the message_state and the error_code of a query_sm_resp."""
    reader = Reader(body)
    reader.text()
    return reader.text(), reader.number(), reader.number()


def is_receipt(delivered):
    return delivered["esm_class"] & 0x3C == 4
