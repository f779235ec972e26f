"""The PDUs of scripts and their outputs, as `tools/chart.py` draws them and `tools/pdu.py` writes them; all fields of all PDUs are listed here."""
import collections
import re

NAMES = {
    0x01: "bind_receiver", 0x02: "bind_transmitter", 0x03: "query_sm", 0x04: "submit_sm", 0x05: "deliver_sm", 0x06: "unbind", 0x08: "cancel_sm",
    0x09: "bind_transceiver", 0x15: "enquire_link",
}
STATUSES = {
    0x00: "ESME_ROK", 0x01: "ESME_RINVMSGLEN", 0x02: "ESME_RINVCMDLEN", 0x03: "ESME_RINVCMDID", 0x04: "ESME_RINVBNDSTS", 0x05: "ESME_RALYBND",
    0x07: "ESME_RINVREGDLVFLG", 0x08: "ESME_RSYSERR", 0x0A: "ESME_RINVSRCADR", 0x0B: "ESME_RINVDSTADR", 0x0C: "ESME_RINVMSGID", 0x0D: "ESME_RBINDFAIL",
    0x0E: "ESME_RINVPASWD", 0x0F: "ESME_RINVSYSID", 0x11: "ESME_RCANCELFAIL", 0x14: "ESME_RMSGQFUL", 0x15: "ESME_RINVSERTYP", 0x53: "ESME_RINVSYSTYP",
    0x58: "ESME_RTHROTTLED", 0x61: "ESME_RINVSCHED", 0x62: "ESME_RINVEXPIRY", 0x64: "ESME_RX_T_APPN", 0x65: "ESME_RX_P_APPN", 0x66: "ESME_RX_R_APPN",
    0x67: "ESME_RQUERYFAIL", 0xC0: "ESME_RINVOPTPARSTREAM",
}
STATES = {1: "ENROUTE", 2: "DELIVERED", 3: "EXPIRED", 4: "DELETED", 5: "UNDELIVERABLE", 8: "REJECTED"}
TAGS = {
    0x001E: "receipted_message_id", 0x0204: "user_message_reference", 0x020C: "sar_msg_ref_num", 0x020E: "sar_total_segments", 0x020F: "sar_segment_seqnum",
    0x0210: "sc_interface_version", 0x0424: "message_payload", 0x0427: "message_state",
}
# The fields of each body, in their order. Those of the first list are texts up to a zero, each of so many octets at most without it; a short_message has as
# many octets as sm_length says; optional parameters are all that is left; every other field is one octet.
LIMITS = {
    "system_id": 15, "password": 8, "system_type": 12, "address_range": 40, "service_type": 5, "source_addr": 20, "destination_addr": 20, "message_id": 64,
    "schedule_delivery_time": 16, "validity_period": 16, "final_date": 16,
}
LONGEST_TEXT, MOST_PARAMETERS, PARAMETERS = 254, 7_000, "optional parameters"
SOURCE, DESTINATION = ["source_addr_ton", "source_addr_npi", "source_addr"], ["dest_addr_ton", "dest_addr_npi", "destination_addr"]
BIND = ["system_id", "password", "system_type", "interface_version", "addr_ton", "addr_npi", "address_range"]
MESSAGE = [
    "service_type", *SOURCE, *DESTINATION, "esm_class", "protocol_id", "priority_flag", "schedule_delivery_time", "validity_period", "registered_delivery",
    "replace_if_present_flag", "data_coding", "sm_default_msg_id", "sm_length", "short_message", PARAMETERS,
]
BODIES = {
    "bind_receiver": BIND, "bind_transmitter": BIND, "bind_transceiver": BIND, "bind_receiver_resp": ["system_id", PARAMETERS],
    "bind_transmitter_resp": ["system_id", PARAMETERS], "bind_transceiver_resp": ["system_id", PARAMETERS],
    "submit_sm": MESSAGE, "submit_sm_resp": ["message_id"], "deliver_sm": MESSAGE, "deliver_sm_resp": ["message_id"],
    "query_sm": ["message_id", *SOURCE], "query_sm_resp": ["message_id", "final_date", "message_state", "error_code"],
    "cancel_sm": ["service_type", "message_id", *SOURCE, *DESTINATION], "cancel_sm_resp": [],
    "unbind": [], "unbind_resp": [], "enquire_link": [], "enquire_link_resp": [], "generic_nack": [],
}
RESPONSE, NACK = 0x80000000, 0x80000000
DELIVER, DELIVER_ANSWER = 0x05, 0x80000005
SHORTEST, LONGEST = 16, 8_192
IS_RECEIPT, RECEIPT = 0x04, re.compile(rb"id:(\d{10}) .*? done date:(\d{10}) stat:(\S+) err:(\d{3})", re.DOTALL)

Pdu = collections.namedtuple("Pdu", "command status sequence body")
# A delivery receipt: its message, the minute of its end, its end and its error.
Receipt = collections.namedtuple("Receipt", "message minute end error")


class Cut(Exception):
    """A body ends before this field does."""


def pdu_of(octets):
    words = [int.from_bytes(octets[at:at + 4], "big") for at in range(4, 16, 4)]
    return Pdu(*words, octets[16:])


def cut(octets):
    """The PDUs at the front of a stream, and what is left; a wrong length takes all of it as one PDU."""
    pdus = []
    while len(octets) >= 4:
        length = int.from_bytes(octets[:4], "big")
        if not SHORTEST <= length <= LONGEST:
            return pdus + [Pdu(None, 0, 0, octets)], b""
        if len(octets) < length:
            break
        pdus.append(pdu_of(octets[:length]))
        octets = octets[length:]
    return pdus, octets


def name_of(pdu):
    return NAMES.get((pdu.command or 0) & ~RESPONSE, "")


def is_response(pdu):
    return pdu.command is not None and pdu.command >= RESPONSE


def shown(octets):
    text = "".join(letter if letter.isprintable() else "?" for letter in octets.decode("latin-1"))
    return text if len(text) <= 24 else text[:23] + "…"


def texts(octets):
    return [shown(text) for text in octets.split(b"\0")]


def message_in(body):
    """Of a submit_sm or deliver_sm: its source, its destination, and what is behind them."""
    _, _, rest = body.partition(b"\0")
    source, _, rest = rest[2:].partition(b"\0")
    target, _, rest = rest[2:].partition(b"\0")
    return shown(source), shown(target), rest


def receipt_of(pdu):
    """What a deliver_sm reports, if it is a delivery receipt."""
    found = RECEIPT.search(pdu.body) if message_in(pdu.body)[2][:1] and message_in(pdu.body)[2][0] & 0x3C == IS_RECEIPT else None
    return Receipt(*(part.decode("latin-1") for part in found.groups())) if found else None


def about(pdu):
    """What a PDU is about: who binds, from where to where, or which message."""
    name, body = name_of(pdu), pdu.body
    if pdu.command is None or not body:
        return ""
    if is_response(pdu):
        told = texts(body)[0]
        if name == "query_sm" and len(body) > 1:
            return f"{told} {STATES.get(body[-2], body[-2])}"
        return told
    if name in ("submit_sm", "deliver_sm"):
        return "{} → {}".format(*message_in(body)[:2])
    return texts(body)[1 if name == "cancel_sm" and b"\0" in body else 0]


def command_name(code):
    """The whole name of a command, or none."""
    if code == NACK:
        return "generic_nack"
    name = NAMES.get(code & ~RESPONSE, "")
    return name + "_resp" if name and code & RESPONSE else name


def title(pdu):
    if pdu.command is None:
        return "a wrong length"
    name = command_name(pdu.command) or f"command 0x{pdu.command & ~RESPONSE:08x}" + ("_resp" if pdu.command & RESPONSE else "")
    receipt = receipt_of(pdu) if name == "deliver_sm" else None
    if receipt:
        return f"{name}, receipt: {receipt.end} of {receipt.message}"
    status = f" {STATUSES.get(pdu.status, hex(pdu.status))}" if is_response(pdu) else ""
    return f"{name}{status} {about(pdu)}".rstrip()


def taken(field, body, found):
    """What a body begins with as this field, and what is behind it; the fields before it were found."""
    if field in LIMITS:
        text, zero, behind = body.partition(b"\0")
        length = len(text) if zero else len(body) + 1
    else:
        length = {"short_message": found.get("sm_length", b"\0")[0], PARAMETERS: len(body)}.get(field, 1)
        text, behind = body[:length], body[length:]
    if len(text) < length:
        raise Cut(field)
    return text, behind


def split(fields, body):
    """Each of these fields with its octets, and what is behind them."""
    found = {}
    for field in fields:
        found[field], body = taken(field, body, found)
    return found, body


def is_whole(pdu):
    """Whether a request ends neither too early nor too late; of a text, or parameters, that come to an end it has none to say."""
    try:
        return not split(BODIES.get(name_of(pdu), []), pdu.body)[1]
    except Cut:
        return False


def is_id(text):
    return re.fullmatch("[1-9][0-9]{9}", text) is not None and text[1:5] != "0000" and text[5:] != "00000"
