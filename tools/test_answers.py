#!/usr/bin/env python3
"""Tests of how tools/fuzz.py follows a session (clients/answers.py): python3 tools/test_answers.py"""
import pathlib
import sys
import unittest

sys.path.insert(0, str(pathlib.Path(__file__).resolve().parent / "clients"))

import pdus
from answers import Stream
from chart_pdus import pdu_of

INVALID_SERVICE = 0x15
SUBMIT_RESPONSE = pdus.SUBMIT_SM | pdus.RESPONSE
SUBMIT = pdus.frame(pdus.SUBMIT_SM, 7, pdus.message_body(b"Hi", source="144", destination="155"))
QUERY = pdus.frame(pdus.QUERY_SM, 7, pdus.query_body("1000100001", "144"))
CUT = pdus.frame(pdus.SUBMIT_SM, 7, b"cut")


def answer(command, status=pdus.OK, body=b"", sequence=7):
    return pdu_of(pdus.frame(command, sequence, body, status))


class Session(unittest.TestCase):
    def setUp(self):
        self.stream = Stream()
        self.stream.hear(pdus.frame(pdus.BIND_TRANSCEIVER, 1, pdus.bind_body("sme1", "pw1", 0x34)))
        self.stream.told(answer(pdus.BIND_TRANSCEIVER | pdus.RESPONSE, body=b"CENTRE\0", sequence=1))

    def hear(self, *frames):
        self.stream.hear(b"".join(frames))

    def tell(self, *answers):
        for one in answers:
            self.stream.told(one)

    def test_a_refusal_of_the_second_request_comes_first(self):
        """Of two submit_sm with one sequence_number in one line the second is refused at once, and the first waits."""
        for second in (SUBMIT, CUT):
            self.hear(SUBMIT, second)
            self.tell(answer(SUBMIT_RESPONSE, INVALID_SERVICE))
            self.assertIsNone(self.stream.late())
            self.tell(answer(SUBMIT_RESPONSE, body=b"1000100001\0"))
            self.assertEqual(self.stream.owed, [])

    def test_an_answer_that_another_request_was_owed_is_exchanged(self):
        self.hear(SUBMIT, CUT)
        self.tell(answer(SUBMIT_RESPONSE, INVALID_SERVICE), answer(pdus.GENERIC_NACK, pdus.INVALID_LENGTH))
        self.assertEqual(self.stream.owed, [])

    def test_answers_are_exchanged_along_three_requests(self):
        """What was taken for one request may free another one, whose answer frees a third."""
        self.hear(CUT, SUBMIT, CUT)
        self.tell(*[answer(SUBMIT_RESPONSE, INVALID_SERVICE)] * 2)
        self.tell(answer(pdus.GENERIC_NACK, pdus.INVALID_LENGTH))
        self.assertEqual(self.stream.owed, [])

    def test_no_answer_is_taken_twice(self):
        self.hear(SUBMIT, QUERY)
        self.tell(answer(SUBMIT_RESPONSE, INVALID_SERVICE))
        with self.assertRaises(ValueError):
            self.tell(answer(SUBMIT_RESPONSE, body=b"1000100001\0"))
        with self.assertRaises(ValueError):
            self.tell(answer(SUBMIT_RESPONSE, INVALID_SERVICE))

    def test_what_is_never_told(self):
        self.hear(CUT)
        self.assertIn("never told", self.stream.late())


if __name__ == "__main__":
    unittest.main()
