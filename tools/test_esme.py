#!/usr/bin/env python3
"""Tests of tools/esme.py, over a centre on loopback that knows some PDUs by heart: python3 tools/test_esme.py

What it is asked and what it answers are lines of the worked scripts, which were written by hand from SMPP 3.4; the sequence_number of an answer is that of its
request."""
import contextlib
import io
import pathlib
import re
import socket
import sys
import threading
import unittest

import esme
from chart_pdus import BODIES, STATUSES, split

ROOT = pathlib.Path(__file__).resolve().parent.parent
ROWS, EXAMPLES = ROOT / "crates/centre/data/rows", ROOT / "examples"
PAGE = (ROOT / "docs/ESME.md").read_text()
ENOUGH = 5


def lines(path):
    """The PDUs of a script or of its output."""
    return [line.split()[3] for line in path.read_text().splitlines() if line.startswith("pdu ")]


def row(name, folder=ROWS):
    return lines(folder / f"{name}.script"), lines(folder / f"{name}.expected")


BOUND, SENT = row("transmitter_submits_and_receiver_does_not")
# A bind as a transmitter, and one as a receiver, with their answers.
BINDS = {BOUND[0]: [SENT[0]], BOUND[2]: [SENT[1]]}
UNBIND = {row("unbind")[0][1]: row("unbind")[1][1:]}


def without_sequence(octets):
    return octets[:12] + octets[16:]


class Centre(threading.Thread):
    """A centre for one connection: to each request that it knows it sends what belongs to it, and closes at any other. `came` has what came."""

    def __init__(self, known):
        super().__init__(daemon=True)
        self.known = {without_sequence(bytes.fromhex(asked)): [bytes.fromhex(one) for one in answers] for asked, answers in known.items()}
        self.listener, self.came = socket.create_server(("127.0.0.1", 0)), []
        self.port = self.listener.getsockname()[1]

    def run(self):
        with self.listener, self.listener.accept()[0] as connection, connection.makefile("rb") as stream:
            connection.settimeout(ENOUGH)
            while (length := stream.read(4)) and self.is_served(connection, length + stream.read(int.from_bytes(length, "big") - 4)):
                pass

    def is_served(self, connection, octets):
        self.came.append(octets.hex())
        if octets[4] & 0x80:
            return True
        for answer in self.known.get(without_sequence(octets), []):
            is_request = answer[4] & 0x80 == 0
            connection.sendall(answer if is_request else answer[:12] + octets[12:16] + answer[16:])
        return without_sequence(octets) in self.known


class Asking(unittest.TestCase):
    def ask(self, known, *words):
        """What the command prints, line by line, on either stream, and its exit status; the PDUs that it sent are in `came`."""
        centre, out, err = Centre(BINDS | UNBIND | known), io.StringIO(), io.StringIO()
        centre.start()
        with contextlib.redirect_stdout(out), contextlib.redirect_stderr(err):
            try:
                status = esme.main([words[0], "--port", str(centre.port), *words[1:]])
            except SystemExit as end:
                status = end.code
        if status != 2:
            centre.join(ENOUGH)
            self.assertFalse(centre.is_alive())
        self.came = centre.came
        return out.getvalue().splitlines(), err.getvalue().splitlines(), status


class Answers(Asking):
    def test_bind(self):
        self.assertEqual(self.ask({}, "bind"), (["bound at CENTRE"], ["bind_transmitter_resp: ESME_ROK (0x00)", "unbind_resp: ESME_ROK (0x00)"], 0))
        self.assertEqual(self.came[0], BOUND[0])
        self.assertEqual(self.ask({}, "bind", "--as", "receiver")[2], 0)
        self.assertEqual(self.came[0], BOUND[2])

    def test_refused_bind(self):
        (asked,), (answer,) = row("wrong_password")
        out, err, status = self.ask({asked: [answer]}, "bind", "--as", "transceiver", "--password", "pw2")
        self.assertEqual((out, err[0][:49], status), ([], "bind_transceiver_resp: ESME_RINVPASWD (0x0e): the", 1))
        self.assertEqual(self.came, [asked])

    def test_submit(self):
        for (asked, answers), words in [
            ((BOUND, SENT), ["--text", "Hi"]),
            (row("delivered_with_a_receipt"), ["--text", "Hi", "--receipt"]),
            (row("expiry", EXAMPLES), ["--text", "Hi", "--validity", "000000000100000R"]),
            (row("schedule_delays_the_attempt"), ["--text", "Hi", "--schedule", "000000000100000R"]),
            (row("payload_of_255_octets"), ["--text", 255 * "a", "--payload"]),
        ]:
            out, err, status = self.ask({asked[1]: [SENT[3]]}, "submit", "--from", "144", "--to", "155", *words)
            self.assertEqual((out, err[1:], status), (["1000100001"], ["submit_sm_resp: ESME_ROK (0x00)"], 0), answers)
            self.assertEqual(self.came[1], asked[1])

    def test_query(self):
        asked, answers = row("expiry", EXAMPLES)
        for place, state in ((2, "ENROUTE error 0"), (3, "EXPIRED error 0 final_date 240131000100000+")):
            out, _, status = self.ask({asked[2]: [answers[place]]}, "query", "1000100001", "--from", "144")
            self.assertEqual((out, status), ([f"1000100001 {state}"], 0))

    def test_cancel(self):
        asked, answers = row("expiry", EXAMPLES)
        out, err, status = self.ask({asked[4]: [answers[4]]}, "cancel", "1000100001", "--from", "144")
        self.assertEqual((out, err[1][:50], status), ([], "cancel_sm_resp: ESME_RCANCELFAIL (0x11): the messa", 1))
        asked, answers = row("cancel_of_a_taken_message")
        self.assertEqual(self.ask({asked[2]: [answers[2]]}, "cancel", "1000100001", "--from", "144")[2], 0)

    def test_statuses(self):
        asked, answers = row("queries_and_cancels_that_do_not_match")
        late = row("eleventh_open_query")[1][2]
        nacked = row("refusals", EXAMPLES)[1][9]
        for request, answer, words, told in [
            (asked[2], answers[2], ["1000100001", "--from", "145"], "query_sm_resp: ESME_RQUERYFAIL (0x67): the message is of another"),
            (asked[3], answers[3], ["1000100009", "--from", "144"], "query_sm_resp: ESME_RINVMSGID (0x0c): the centre has no such mes"),
            (asked[3], late, ["1000100009", "--from", "144"], "query_sm_resp: ESME_RTHROTTLED (0x58): too many requests wait; "),
            (asked[3], nacked, ["1000100009", "--from", "144"], "generic_nack to query_sm: ESME_RINVCMDID (0x03): the centre does"),
        ]:
            out, err, status = self.ask({request: [answer]}, "query", *words)
            self.assertEqual((out, err[1][:len(told)], status), ([], told, 1))

    def test_a_centre_that_closes(self):
        out, err, status = self.ask({}, "query", "1000100001", "--from", "144")
        self.assertEqual((out, err[1].split(": ")[1], status), ([], "the centre closed the connection", 1))


class Listening(Asking):
    def listen(self, delivered, *words):
        return self.ask({BOUND[2]: [SENT[1], *delivered]}, "listen", *words)

    def test_a_message_and_its_receipt(self):
        asked, answers = row("delivered_with_a_receipt")
        out, _, status = self.listen(answers[2:], "--count", "2", "--seconds", "5")
        text = "id:1000100001 sub:001 dlvrd:001 submit date:2401310000 done date:2401310000 stat:DELIVRD err:000 text:Hi"
        self.assertEqual(out, ["message from 144 to 155: Hi", rf"receipt from 155 to 144: {text} [receipted_message_id=1000100001\x00 message_state=2]"])
        self.assertEqual((self.came[1], status), (asked[2], 0))
        self.assertEqual(self.came[2], asked[2][:24] + "00000002" + asked[2][32:])

    def test_a_payload_and_parameters(self):
        self.assertEqual(self.listen(row("payload_of_255_octets")[1][2:], "--count", "1")[0], ["message from 144 to 155: " + 255 * "a"])
        out, _, _ = self.listen(row("fields_of_a_deliver_sm")[1][2:], "--count", "1")
        beside = "user_message_reference=43981 sar_msg_ref_num=258 sar_total_segments=5 sar_segment_seqnum=3"
        # Its esm_class says that the text begins with a header, and so all of it is one.
        self.assertEqual(out, [f"message from 144 to 155:  [udh=48656c6c6f {beside}]"])

    def test_too_few(self):
        self.assertEqual(self.listen([], "--count", "1", "--seconds", "0.1")[::2], ([], 1))
        self.assertEqual(self.listen([], "--seconds", "0.1")[::2], ([], 0))


class Texts(Asking):
    def test_data_coding(self):
        for words, wanted in [
            (("Hi", None), (b"Hi", 0)), (("Hi", 8), (b"\0H\0i", 8)), (("Grüezi", None), ("Grüezi".encode("utf-16-be"), 8)), (("ü", 3), (b"\xfc", 3)),
            (("Hi", 0x18), (b"\0H\0i", 0x18)), (("Hi", 0x10), (b"Hi", 0x10)), (("ü", 4), (b"\xfc", 4)),
        ]:
            self.assertEqual(esme.text_octets(*words), wanted)

    def test_what_cannot_be_sent(self):
        for words in ([255 * "a"], [4097 * "a", "--payload"], ["ü", "--data-coding", "0"], ["a", "--data-coding", "256"]):
            out, err, status = self.ask({}, "submit", "--from", "144", "--to", "155", "--text", *words)
            self.assertEqual((out, status, self.came), ([], 2, []))
            self.assertIn("error: ", err[-1])

    def test_addresses(self):
        for address, wanted in [("144", (1, 1)), ("+41791234567", (1, 1)), ("MyBank", (5, 0)), ("", (0, 0))]:
            self.assertEqual(esme.ton_and_npi(address), wanted)

    def test_hints_are_of_statuses(self):
        # With the other three an ESME answers a deliver_sm.
        self.assertEqual(set(STATUSES) - set(esme.HINTS), {0x00, 0x64, 0x65, 0x66})
        self.assertEqual(set(esme.HINTS) - set(STATUSES), set())


class Page(unittest.TestCase):
    """What docs/ESME.md has of Python, and its table of statuses."""
    def setUp(self):
        self.code = {}
        exec("\n".join(re.findall("```python\n(.*?)```", PAGE, re.DOTALL)), self.code)

    def test_a_submit_sm(self):
        octets = self.code["submit_sm"](2, b"144", b"155", 0, 0, b"Hi", b"")
        self.assertEqual(octets.hex(), row("delivered_with_a_receipt")[0][1])
        (esm_class, text, parameters), = self.code["by_payload"](255 * b"a")
        octets = self.code["submit_sm"](2, b"144", b"155", 0, esm_class, text, parameters, 0)
        self.assertEqual(octets.hex(), row("payload_of_255_octets")[0][1])

    def test_parts(self):
        text = bytes(range(256)) + b"and more"
        headers = [(0x40, bytes([5, 0, 3, 7, 2, number]) + part, b"") for number, part in ((1, text[:134]), (2, text[134:]))]
        self.assertEqual(self.code["by_header"](text, 7), headers)
        for number, (esm_class, part, parameters) in enumerate(self.code["by_parameters"](text, 7), 1):
            self.assertEqual((esm_class, part), (0, text[134 * (number - 1):134 * number]))
            self.assertEqual(parameters.hex(), f"020c00020007020e000102020f0001{number:02x}")
            found, behind = split(BODIES["submit_sm"], self.code["submit_sm"](2, b"144", b"155", 8, esm_class, part, parameters)[16:])
            self.assertEqual((found["short_message"], found["data_coding"], behind), (part, b"\x08", b""))

    def test_receipts(self):
        for name, place, told in [
            ("delivered_with_a_receipt", 3, (b"1000100001", b"001", b"2401310000", b"2401310000", b"DELIVRD", b"000", b"Hi")),
            ("receipt_on_failure_only_expired", 2, (b"1000100001", b"000", b"2401310000", b"2402030000", b"EXPIRED", b"000", b"Hi")),
            ("eight_failed_attempts", -1, (b"1000100001", b"000", b"2401310000", b"2401310028", b"UNDELIV", b"100", b"Hi")),
        ]:
            found, _ = split(BODIES["deliver_sm"], bytes.fromhex(row(name)[1][place])[16:])
            self.assertEqual(self.code["RECEIPT"].fullmatch(found["short_message"]).groups(), told)

    def test_statuses(self):
        self.assertEqual(set(re.findall(r"^\| 0x([0-9A-F]{2}) (ESME_\w+)", PAGE, re.MULTILINE)),
                         {(f"{code:02X}", STATUSES[code]) for code in esme.HINTS})


if __name__ == "__main__":
    unittest.main()
