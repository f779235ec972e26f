"""An ESME over a plain socket, which does what it is told and nothing else: what the clients of others never do, such as a PDU in pieces, it does as well."""
import select
import socket
import struct
import time

import pdus
from pdus import Pdu

NOT_READY = (BlockingIOError, InterruptedError)


class Ended(Exception):
    """The centre has closed the connection."""


class Esme:
    """One connection. It answers each deliver_sm with `status`, or not at all if that is None; `delivered` has their fields."""

    def __init__(self, port, receive_buffer=None, segment=None, host="127.0.0.1"):
        """`segment`: how many octets a segment has at most. With small ones the system takes less of what the centre writes and nobody reads."""
        self.socket = socket.socket()
        if receive_buffer:
            self.socket.setsockopt(socket.SOL_SOCKET, socket.SO_RCVBUF, receive_buffer)
        if segment:
            self.socket.setsockopt(socket.IPPROTO_TCP, socket.TCP_MAXSEG, segment)
        self.socket.settimeout(10)
        self.socket.connect((host, port))
        self.socket.setsockopt(socket.IPPROTO_TCP, socket.TCP_NODELAY, 1)
        self.buffer, self.sequence, self.is_ended = bytearray(), 0, False
        self.answers, self.delivered, self.nacks, self.status = {}, [], [], pdus.OK

    def __enter__(self):
        return self

    def __exit__(self, *_):
        self.close()

    def fileno(self):
        return self.socket.fileno()

    def close(self):
        self.is_ended = True
        self.socket.close()

    def vanish(self):
        """Resets the connection, as a peer does that lost its memory."""
        self.socket.setsockopt(socket.SOL_SOCKET, socket.SO_LINGER, struct.pack("ii", 1, 0))
        self.close()

    # What goes out.

    def framed(self, command, body=b""):
        """The octets of a request with the next sequence_number, which `self.sequence` then is."""
        self.sequence += 1
        return pdus.frame(command, self.sequence, body)

    def send(self, octets):
        self.socket.settimeout(10)
        self.socket.sendall(octets)

    def push_unread(self, octets, most):
        """Sends these octets again and again without reading: how many could be sent until that were so many or it had to wait for two seconds, and whether the
        connection ended."""
        sent, last = 0, time.monotonic()
        self.socket.settimeout(0)
        while sent < most and time.monotonic() < last + 2:
            try:
                sent, last = sent + self.socket.send(octets[sent % len(octets):]), time.monotonic()
            except NOT_READY:
                time.sleep(0.01)
            except OSError:
                return sent, True
        return sent, False

    def request(self, command, body=b""):
        """Sends a request, and gives its sequence_number."""
        self.send(self.framed(command, body))
        return self.sequence

    # What comes in.

    def take(self):
        """Reads what has come, without waiting, and serves it; Ended once the centre has closed."""
        self.socket.settimeout(0)
        try:
            octets = self.socket.recv(65536)
        except NOT_READY:
            return
        except OSError:
            octets = b""
        if not octets:
            self.is_ended = True
            raise Ended("the centre closed the connection")
        self.buffer += octets
        while len(self.buffer) >= pdus.HEADER.size and len(self.buffer) >= int.from_bytes(self.buffer[:4], "big"):
            length, *head = pdus.HEADER.unpack_from(self.buffer)
            if length < pdus.HEADER.size:
                raise ValueError(f"a command_length of {length}")
            found = Pdu(*head, bytes(self.buffer[pdus.HEADER.size:length]))
            del self.buffer[:length]
            self.serve(found)

    def serve(self, pdu):
        if pdu.command == pdus.DELIVER_SM:
            self.delivered.append(pdus.message(pdu.body) | {"sequence": pdu.sequence})
            if self.status is not None:
                self.send(pdus.frame(pdu.command | pdus.RESPONSE, pdu.sequence, b"\0", self.status))
        elif pdu.command == pdus.ENQUIRE_LINK:
            self.send(pdus.frame(pdu.command | pdus.RESPONSE, pdu.sequence))
        elif pdu.command == pdus.GENERIC_NACK:
            self.nacks.append(pdu)
            self.answers[pdu.sequence] = pdu
        else:
            self.answers[pdu.sequence] = pdu

    def wait(self, test, seconds=10):
        """Serves what comes until the test gives something, which is given, or the seconds are over."""
        return wait([self], test, seconds)

    def answer(self, sequence, seconds=10):
        """The response with this sequence_number, or None if none comes in time."""
        self.wait(lambda: sequence in self.answers, seconds)
        return self.answers.pop(sequence, None)

    def ask(self, command, body=b"", seconds=10):
        return self.answer(self.request(command, body), seconds)

    def is_closed(self, seconds=10):
        """Whether the centre closes the connection in time; what comes before is served."""
        try:
            self.wait(lambda: False, seconds)
        except Ended:
            return True
        return self.is_ended

    # What an ESME asks for.

    def bind(self, system_id, password, command=pdus.BIND_TRANSCEIVER, version=0x34):
        return self.ask(command, pdus.bind_body(system_id, password, version))

    def submit(self, destination, short_message, parameters=(), **fields):
        """Submits a message, with a receipt unless it is told otherwise, and gives the sequence_number."""
        given = {"source_ton": 1, "source_npi": 1, "source": "144", "destination_ton": 1, "destination_npi": 1, "registered": 1} | fields
        return self.request(pdus.SUBMIT_SM, pdus.message_body(short_message, parameters, destination=destination, **given))

    def id_of(self, sequence, seconds=10):
        """The message_id that a submit_sm was answered with, or None."""
        found = self.answer(sequence, seconds)
        return pdus.Reader(found.body).text() if found and found.status == pdus.OK else None

    def submitted(self, destination, short_message, parameters=(), **fields):
        return self.id_of(self.submit(destination, short_message, parameters, **fields))

    def state(self, message_id, source="144"):
        """The command_status, the final_date, the message_state and the error_code of a query_sm; None for what it does not tell."""
        found = self.ask(pdus.QUERY_SM, pdus.query_body(message_id, source))
        if found is None:
            return None, None, None, None
        return found.status, *(pdus.state(found.body) if found.status == pdus.OK else (None, None, None))

    def cancel(self, message_id, source="144"):
        """The command_status of a cancel_sm."""
        found = self.ask(pdus.CANCEL_SM, pdus.cancel_body(message_id, source))
        return found and found.status

    def unbind(self):
        found = self.ask(pdus.UNBIND)
        return found and found.status

    # What was delivered.

    def messages(self, short_message=None):
        return [one for one in self.delivered if not pdus.is_receipt(one) and short_message in (None, one["short_message"])]

    def receipts(self, message_id=None):
        """The delivery receipts of a message, or all of them, by the message_id in their text."""
        wanted = f"id:{message_id or ''}".encode()
        return [one for one in self.delivered if pdus.is_receipt(one) and one["short_message"].startswith(wanted)]


def wait(esmes, test, seconds):
    """Serves what comes to these ESMEs until the test gives something, which is given, or the seconds are over. Each pings every ten seconds."""
    end, ping = time.monotonic() + seconds, time.monotonic() + 10
    while not (found := test()):
        now = time.monotonic()
        if now >= end:
            return None
        if now >= ping:
            ping = now + 10
            for one in esmes:
                one.request(pdus.ENQUIRE_LINK)
        ready, _, _ = select.select([one for one in esmes if not one.is_ended], [], [], min(0.1, end - now))
        for one in ready:
            one.take()
    return found
