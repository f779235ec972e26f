#!/usr/bin/env python3
"""Tests of tools/chart.py: python3 tools/test_chart.py"""
import pathlib
import re
import subprocess
import sys
import unittest
import xml.etree.ElementTree

import chart
import chart_pdus
import chart_rows
import rows

ROOT = pathlib.Path(__file__).resolve().parent.parent
FIRST = [(ROOT / "crates/centre" / name).read_text() for name in ("stdin", "stdout")]
SVG = "{http://www.w3.org/2000/svg}"
ALL = {name: (script, output) for name, script, output, _, _ in rows.rows()}

BIND = "0000001e000000090000000000000001736d653100707731000034000000"
BOUND = "0000001c80000009000000000000000143454e545245000210000134"
SUBMIT = "0000002900000004000000000000000200010131343400010131353500000000000000000000024869"
SUBMITTED = "0000001b8000000400000000000000023130303031303030303100"
UNBIND, UNBOUND = "00000010000000060000000000000003", "00000010800000060000000000000003"
QUERY = "000000210000000300000000000000033130303031303030303100010131343400"
CANCEL, CANCELLED = "00000025000000080000000000000004003130303031303030303100010131343400000000", "00000010800000080000000000000004"
LATE = "00000010800000040000000800000002"
HEAD = ["nodes 3", f"pdu 1 1 {BIND}", f"pdu 1 1 {SUBMIT}"]


def picture(script, output):
    return chart.svg(chart_rows.charted(script, output))


def told(script, output):
    """The rows: kind and text."""
    return [(row.kind, row.text) for row in chart_rows.rows_of(script, output)]


def lines(*given):
    return "".join(line + "\n" for line in given)


def message(command, sequence, target="155"):
    """A submit_sm or deliver_sm from 144, with the text Hi."""
    body = b"\0\1\x01144\0\1\1" + target.encode() + bytes(10) + b"\2Hi"
    return b"".join(word.to_bytes(4, "big") for word in (16 + len(body), command, 0, sequence)).hex() + body.hex()


def many_messages(count, *behind):
    """A script that submits so many messages, each to sme1, and a line of the output for each."""
    submits = [line for place in range(count) for line in (f"pdu 1 1 {message(0x04, place + 2)}", "settle")]
    answers = [f"0000001b8000000400000000{place + 2:08x}{f'10001{place + 1:05}'.encode().hex()}00" for place in range(count)]
    script = lines("nodes 1", f"pdu 1 1 {BIND}", *submits, "tick 1 946684800", "settle", *behind)
    return script, [f"pdu 1 1 {BOUND}", *(f"pdu 1 1 {answer}" for answer in answers)]


class FirstScript(unittest.TestCase):
    def test_rows(self):
        self.assertEqual(told(*FIRST), [
            ("ask", "bind_transceiver sme1"), ("answer", "bind_transceiver_resp ESME_ROK CENTRE"), ("ask", "submit_sm 144 → 155"), ("note", "settle"),
            ("answer", "submit_sm_resp ESME_ROK 1000100001"), ("ask", "query_sm 1000100001"), ("note", "settle"),
            ("answer", "query_sm_resp ESME_ROK 1000100001 ENROUTE"),
        ])

    def test_output_of_another_script(self):
        with self.assertRaises(chart.Misfit):
            chart_rows.rows_of("nodes 1\n", FIRST[1])


class Pictures(unittest.TestCase):
    def test_they_are_of_today(self):
        given = {"first_script": FIRST, "three_nodes": ALL["three_nodes"], "a_node_stops": ALL["a_node_stops"]}
        for name, (script, output) in given.items():
            with self.subTest(name):
                self.assertEqual((ROOT / "docs/pictures" / (name + ".svg")).read_text(), picture(script, output))

    def test_the_documents_show_them(self):
        shown = [(ROOT / name).read_text() for name in ("README.md", "examples/README.md")]
        for path in (ROOT / "docs/pictures").glob("*.svg"):
            self.assertTrue(any(f"docs/pictures/{path.name})" in text for text in shown), path.name)


class Examples(unittest.TestCase):
    def rows(self, name):
        return chart_rows.rows_of(*ALL[name])

    def test_answers_follow_what_they_answer(self):
        rows = [row.text for row in self.rows("refusals")]
        self.assertEqual(rows[-5:], ["command 0x00000021", "generic_nack ESME_RINVCMDID", "a wrong length", "generic_nack ESME_RINVCMDLEN", "gone"])

    def test_moments_pieces_and_bad_lines(self):
        self.assertIn("tick 2024-01-31 00:01:00", [row.text for row in self.rows("expiry")])
        self.assertIn("a piece: 10 octets", [row.text for row in self.rows("two_esmes")])
        self.assertEqual(self.rows("bad_line")[-1].text, "bad line 5")

    def test_three_nodes(self):
        day = "tick 2024-01-31 00:00:00"
        self.assertEqual([tuple(row) for row in self.rows("three_nodes")], [
            ("note", None, (1,), day), ("note", None, (2,), day), ("note", None, (3,), day),
            ("ask", 1, (1,), "bind_transceiver sme1"), ("answer", 1, (1,), "bind_transceiver_resp ESME_ROK CENTRE"),
            ("ask", 1, (1,), "submit_sm 144 → 155"),
            ("note", None, (1, 2, 3), "settle"), ("answer", 1, (1,), "submit_sm_resp ESME_ROK 1000100001"),
            ("note", None, (1,), day), ("note", None, (1, 2, 3), "settle"),
            ("note", None, (1,), "grant 1000100001"), ("push", 1, (1,), "deliver_sm 144 → 155"),
            ("told", 1, (1,), "deliver_sm_resp ESME_ROK"),
            ("note", None, (1, 2, 3), "settle"), ("push", 1, (1,), "deliver_sm, receipt: DELIVRD of 1000100001"),
            ("ask", 1, (3,), "bind_transceiver sme1"), ("answer", 1, (3,), "bind_transceiver_resp ESME_ROK CENTRE"),
            ("ask", 1, (3,), "query_sm 1000100001"),
            ("note", None, (1, 2, 3), "settle"), ("answer", 1, (3,), "query_sm_resp ESME_ROK 1000100001 DELIVERED"),
        ])

    def test_a_node_stops(self):
        self.assertEqual([tuple(row) for row in self.rows("a_node_stops")], [
            ("ask", 1, (1,), "bind_transceiver sme1"), ("answer", 1, (1,), "bind_transceiver_resp ESME_ROK CENTRE"),
            ("ask", 1, (1,), "submit_sm 144 → 155"),
            ("note", None, (1,), "deliver 1"), ("note", None, (2,), "deliver 1"), ("note", None, (1,), "deliver 2"), ("note", None, (1,), "deliver 3"),
            ("crash", None, (2,), "crash 4 after"), ("note", None, (2,), "deliver 4"), ("refused", None, (2,), "refused 4"),
            ("restart", None, (2,), "restart"),
            ("note", None, (1, 3), "settle 1 3"), ("answer", 1, (1,), "submit_sm_resp ESME_ROK 1000100001"),
            ("ask", 1, (2,), "bind_transceiver sme1"), ("answer", 1, (2,), "bind_transceiver_resp ESME_ROK CENTRE"),
            ("ask", 1, (2,), "query_sm 1000100001"),
            ("note", None, (1, 2, 3), "settle"), ("answer", 1, (2,), "query_sm_resp ESME_ROK 1000100001 ENROUTE"),
        ])


class Lines(unittest.TestCase):
    """At which line of the script a line of the output stands."""

    def test_transcripts_say_so(self):
        for name in ("delivered", "cancelled"):
            transcript = [line.split(" ", 1) for line in (ROOT / "tools/transcripts" / (name + ".txt")).read_text().splitlines()[1:]]
            script, output = (lines(*(line for side, line in transcript if side == wanted)) for wanted in "><")
            wanted = [self.drawn(line) for _, line in transcript]
            found = [text if kind not in ("note", "refused") else text.split(" ")[0] for kind, text in told("nodes 3\n" + script, output)]
            self.assertEqual(found, wanted, name)

    def drawn(self, line):
        words = line.split(" ")
        return chart_pdus.title(chart_pdus.pdu_of(bytes.fromhex(words[3]))) if words[0] == "pdu" else words[0]

    def test_by_single_packets_a_majority_has_to_vote(self):
        script, output = ALL["three_of_four_are_a_majority"]
        self.assertEqual(told(script, output)[-2:], [("note", "deliver 8"), ("answer", "submit_sm_resp ESME_ROK 1000100001")])
        with self.assertRaises(chart.Misfit):
            told(ALL["two_of_four_are_no_majority"][0], output)

    def test_a_settle_of_too_few_answers_nothing(self):
        found = told(*ALL["query_waits_for_a_majority"])
        self.assertEqual(found[-7:], [
            ("note", "settle 3"), ("note", "tick 2024-01-31 00:00:29"), ("note", "tick 2024-01-31 00:00:30"), ("bad", "query_sm_resp ESME_RSYSERR"),
            ("ask", "query_sm 1000100001"), ("note", "settle"), ("answer", "query_sm_resp ESME_ROK 1000100001 DELIVERED"),
        ])

    def test_a_round_is_two_hops_of_packets(self):
        script = lines(*HEAD, *["replay 1"] * 5)
        found = told(script, lines(f"pdu 1 1 {BOUND}", f"pdu 1 1 {SUBMITTED}"))
        self.assertEqual(found[3:], [("note", "replay 1")] * 4 + [("answer", "submit_sm_resp ESME_ROK 1000100001"), ("note", "replay 1")])

    def test_receipts(self):
        wanted = {
            "rejected_by_the_esme": [
                ("failed", "deliver_sm_resp ESME_RX_R_APPN"), ("note", "settle"), ("failed", "deliver_sm_resp ESME_RX_R_APPN"), ("note", "settle"),
                ("push", "deliver_sm, receipt: REJECTD of 1000100001"),
            ],
            "receipt_on_failure_only_expired": [
                ("note", "tick 2024-02-03 00:00:00"), ("note", "settle"), ("push", "deliver_sm, receipt: EXPIRED of 1000100001"),
            ],
            "cancelled_with_a_receipt": [
                ("note", "settle"), ("answer", "cancel_sm_resp ESME_ROK"), ("push", "deliver_sm, receipt: DELETED of 1000100001"),
            ],
        }
        for name, last in wanted.items():
            self.assertEqual(told(*ALL[name])[-len(last):], last, name)

    def test_a_receipt_that_waits_goes_out_at_a_bind(self):
        script, output = ALL["delivered_with_a_receipt"]
        unbound = f"pdu 1 1 {UNBIND}\n"
        script = script.removesuffix("settle\n") + unbound + "settle\n" + f"pdu 1 2 {BIND}\n"
        *before, receipt = output.splitlines()
        output = lines(*before, f"pdu 1 1 {UNBOUND}", "gone 1 1", f"pdu 1 2 {BOUND}", receipt.replace("pdu 1 1", "pdu 1 2"))
        self.assertEqual(told(script, output)[-6:], [
            ("answer", "unbind_resp ESME_ROK"), ("gone", "gone"), ("note", "settle"), ("ask", "bind_transceiver sme1"),
            ("answer", "bind_transceiver_resp ESME_ROK CENTRE"), ("push", "deliver_sm, receipt: DELIVRD of 1000100001"),
        ])

    def test_only_the_eleventh_query_is_throttled(self):
        found = told(*ALL["eleventh_open_query"])
        self.assertEqual(found[-12:], [("ask", "query_sm 1000100001")] * 11 + [("bad", "query_sm_resp ESME_RTHROTTLED")])

    def test_grants(self):
        found = told(*ALL["granted_twice"])
        self.assertEqual(found[-4:], [
            ("note", "grant 1000100001"), ("push", "deliver_sm 144 → 155"), ("note", "grant 1000100001"), ("refused", "refused 3 4"),
        ])
        found = told(*ALL["eleventh_open_attempt"])
        self.assertEqual([text for _, text in found if text.startswith(("grant", "deliver_sm "))][18:21], [
            "grant 1000100010", "deliver_sm 144 → 155", "grant 1000100011",
        ])

    def test_a_grant_is_of_its_message(self):
        head = ["nodes 1", f"pdu 1 1 {BIND}", f"pdu 1 1 {message(0x04, 2, '255')}", "settle", f"pdu 1 1 {message(0x04, 3)}", "settle"]
        script = lines(*head, "tick 1 946684800", "settle", "grant 1 1000100001", "grant 1 1000100002")
        answers = [f"pdu 1 1 0000001b8000000400000000{place + 1:08x}{f'100010000{place}'.encode().hex()}00" for place in (1, 2)]
        output = [f"pdu 1 1 {BOUND}", *answers]
        self.assertEqual(told(script, lines(*output, f"pdu 1 1 {message(0x05, 1)}"))[-3:], [
            ("note", "grant 1000100001"), ("note", "grant 1000100002"), ("push", "deliver_sm 144 → 155"),
        ])
        with self.assertRaises(chart.Misfit):
            told(script, lines(*output, f"pdu 1 1 {message(0x05, 1, '255')}"))

    def test_a_session_has_room_for_ten(self):
        grants = [f"grant 1 10001{place:05}" for place in range(1, 12)]
        pushed = [f"pdu 1 1 {message(0x05, place)}" for place in range(1, 12)]
        script, output = many_messages(12, *grants, "pdu 1 1 0000001180000005000000000000000400", "grant 1 1000100012")
        self.assertEqual(told(script, lines(*output, *pushed))[-5:], [
            ("push", "deliver_sm 144 → 155"), ("note", "grant 1000100011"), ("told", "deliver_sm_resp ESME_ROK"), ("note", "grant 1000100012"),
            ("push", "deliver_sm 144 → 155"),
        ])
        script, output = many_messages(12, *grants, "tick 1 946684830", "grant 1 1000100012")
        self.assertEqual(told(script, lines(*output, *pushed))[-4:], [
            ("note", "grant 1000100011"), ("note", "tick 2000-01-01 00:00:30"), ("note", "grant 1000100012"), ("push", "deliver_sm 144 → 155"),
        ])
        script, output = many_messages(12, *grants, "tick 1 946684829", "grant 1 1000100012")
        with self.assertRaises(chart.Misfit):
            told(script, lines(*output, *pushed))

    def test_a_message_is_deleted_after_its_cancel_is_told(self):
        script = lines(*HEAD, "settle", f"pdu 1 1 {CANCEL}", *["replay 1"] * 7, f"pdu 1 1 {CANCEL}", *["replay 1"] * 3)
        output = lines(*(f"pdu 1 1 {digits}" for digits in (BOUND, SUBMITTED, CANCELLED, CANCELLED)))
        self.assertEqual([text for _, text in told(script, output)[6:]], [
            *["replay 1"] * 6, "cancel_sm_resp ESME_ROK", "replay 1", "cancel_sm 1000100001", *["replay 1"] * 2, "cancel_sm_resp ESME_ROK", "replay 1",
        ])

    def test_nodes_that_are_down_or_not_named_do_not_vote(self):
        output = lines(f"pdu 1 1 {BOUND}", f"pdu 1 1 {SUBMITTED}")
        answer = "submit_sm_resp ESME_ROK 1000100001"
        for behind, wanted in [
            (["settle 2 3", "settle 1", "settle 1 2"], ["settle 2 3", "settle 1", "settle 1 2", answer]),
            (["crash 2 1 before", "crash 3 1 before", "settle", "restart 2", "settle"], ["crash 1 before"] * 2 + ["settle", "restart", "settle", answer]),
        ]:
            self.assertEqual([text for _, text in told(lines(*HEAD, *behind), output)[3:]], wanted)

    def test_a_clock_does_not_turn_back(self):
        script = lines("nodes 1", "tick 1 946684830", "tick 1 946684800", *HEAD[1:], "tick 1 946684859", "tick 1 946684860")
        found = told(script, lines(f"pdu 1 1 {BOUND}", f"pdu 1 1 {LATE}"))
        self.assertEqual(found[-2:], [("note", "tick 2000-01-01 00:01:00"), ("bad", "submit_sm_resp ESME_RSYSERR")])

    def test_a_generic_nack_is_of_what_deserves_it(self):
        cut_short = "00000020" + QUERY[8:-2]
        script = lines("nodes 1", f"pdu 1 1 {BIND}", f"pdu 1 1 {QUERY}", f"pdu 1 1 {cut_short}")
        found = told(script, lines(f"pdu 1 1 {BOUND}", "pdu 1 1 00000010800000000000000200000003"))
        self.assertEqual(found[2:], [("ask", "query_sm 1000100001"), ("ask", "query_sm 1000100001"), ("bad", "generic_nack ESME_RINVCMDLEN")])

    def test_the_last_incarnation(self):
        restarts = ["restart 1"] * 9_998
        found = told(lines("nodes 1", *restarts, f"pdu 1 1 {BIND}", "restart 1"), lines(f"pdu 1 1 {BOUND}", "refused 6"))
        self.assertEqual(found[-3:], [("answer", "bind_transceiver_resp ESME_ROK CENTRE"), ("note", "restart"), ("refused", "refused 6")])
        with self.assertRaises(chart.Misfit):
            told(lines("nodes 1", *restarts), "refused 6\n")

    def test_receipts_that_do_not_fit(self):
        script, output = ALL["cancelled_with_a_receipt"]
        with self.assertRaises(chart.Misfit):
            told(script.replace(f"pdu 1 1 {CANCEL}\n", ""), output.replace(f"pdu 1 1 {CANCELLED}\n", ""))
        script, output = ALL["delivered_with_a_receipt"]
        script = script.replace("nodes 1", f"nodes 2\npdu 2 1 {BIND}")
        output = f"pdu 2 1 {BOUND}\n{output}"
        self.assertEqual(told(script, output)[-1], ("push", "deliver_sm, receipt: DELIVRD of 1000100001"))
        with self.assertRaises(chart.Misfit):
            told(script, output.replace("pdu 1 1 000000a3", "pdu 2 1 000000a3"))

    def test_sessions_go_with_their_node(self):
        script = lines(
            "nodes 2", f"pdu 2 7 {BIND}", f"pdu 2 3 {BIND}", f"pdu 2 3 {SUBMIT}", "crash 2 1 before", f"pdu 2 3 {QUERY}", "tick 2 946684801", "restart 2",
        )
        output = lines(f"pdu 2 7 {BOUND}", f"pdu 2 3 {BOUND}", "gone 2 3", "gone 2 7", "refused 4", "refused 4")
        self.assertEqual([tuple(row) for row in chart_rows.rows_of(script, output)[4:]], [
            ("ask", 3, (2,), "submit_sm 144 → 155"), ("crash", None, (2,), "crash 1 before"), ("gone", 3, (2,), "gone"), ("gone", 7, (2,), "gone"),
            ("ask", 3, (2,), "query_sm 1000100001"), ("refused", None, (2,), "refused 4"), ("note", None, (2,), "tick 2000-01-01 00:00:01"),
            ("refused", None, (2,), "refused 4"), ("restart", None, (2,), "restart"),
        ])

    def test_sessions_go_at_the_restart(self):
        found = told(*ALL["last_serial_and_restart"])
        self.assertEqual(found[6:9], [("bad", "submit_sm_resp ESME_RMSGQFUL"), ("restart", "restart"), ("gone", "gone")])

    def test_which_packet_was_not_sent(self):
        script = lines(
            "nodes 1", "deliver 0 1", f"pdu 1 1 {BIND}", f"pdu 1 1 {SUBMIT}", "deliver 1 1", "deliver 99 1", "crash 1 100 after", "settle", "unsettle",
        )
        output = lines("refused 1", f"pdu 1 1 {BOUND}", "refused 1", "refused 1", f"pdu 1 1 {SUBMITTED}", "unsettled")
        self.assertEqual(told(script, output), [
            ("note", "deliver 0"), ("refused", "refused 1"), ("ask", "bind_transceiver sme1"), ("answer", "bind_transceiver_resp ESME_ROK CENTRE"),
            ("ask", "submit_sm 144 → 155"), ("note", "deliver 1"), ("note", "deliver 99"), ("refused", "refused 1"), ("note", "crash 100 after"),
            ("refused", "refused 1"), ("note", "settle"), ("answer", "submit_sm_resp ESME_ROK 1000100001"), ("refused", "unsettled"),
            ("refused", "bad line 9"),
        ])

    def test_what_does_not_fit(self):
        head = lines(*HEAD)
        bound, answered = f"pdu 1 1 {BOUND}", f"pdu 1 1 {SUBMITTED}"
        deliver = ALL["three_nodes"][1].splitlines()[2]
        for script, output in [
            ("", [bound, answered]), ("settle 1\n", [bound, answered]), ("settle 2 3\n", [bound, answered]), ("deliver 1 1\n", [bound, answered]),
            ("settle\n", [bound, answered, "gone 1 1"]), ("settle\n", [bound, answered, "refused 4"]), ("settle\n", [bound, answered, deliver]),
            ("restart 1\n", [bound]), ("deliver 0 1\n", [bound]), ("crash 2 1 after\ntick 2 946684800\n", [bound]), ("settle\n", ["nonsense"]),
            ("tick 1 946684830\n", [bound, answered]), ("tick 1 946684829\n", [bound, f"pdu 1 1 {LATE}"]),
        ]:
            with self.subTest(script=script, output=output), self.assertRaises(chart.Misfit):
                told(head + script, lines(*output))

    def test_bad_lines(self):
        for line in [
            "nodes 2", "pdu 3 1 00", "pdu 1 0 00", "pdu 1 100 00", "pdu 1 1 000", "pdu 1 1 ", "pdu 1 1 0g", "pdu 1 1 00 ", "tick 1 946684799",
            "tick 1 4102444800", "tick 01 946684800", "grant 1 1000100000", "grant 1", "settle 3", "settle ", "settle  1", "deliver 1", "deliver -1 1",
            "deliver 1 1 ", "replay", "replay 18446744073709551616", "crash 1 1", "crash 1 1 while", "restart", "restart 3", "settled", " settle",
            "replay " + "9" * 9_999, "#" * 20_001,
        ]:
            self.assertEqual(told(lines("nodes 2", line, "settle"), ""), [("refused", "bad line 2")], line)
        for line in ["nodes 0", "nodes 10", "nodes 1 0", "nodes 1 100000", "nodes 1 1 1", "settle", "replay 1", "tick 1 946684800", "restart 1"]:
            self.assertEqual(told(line, ""), [("refused", "bad line 1")], line)
        good = lines("# nodes", "", "nodes 9 99999", "settle 9 9 1", "replay 18446744073709551615", "replay 0", "restart 9", "tick 9 4102444799")
        self.assertEqual([text for _, text in told(good, "")], [
            "settle 1 9", "replay 18446744073709551615", "replay 0", "restart", "tick 2099-12-31 23:59:59",
        ])


class Drawing(unittest.TestCase):
    def tree(self, name):
        return xml.etree.ElementTree.fromstring(picture(*ALL[name]))

    def test_all_rows_and_examples_are_drawn(self):
        self.assertGreater(len(ALL), 100)
        for name in ALL:
            with self.subTest(name):
                self.assertGreater(len(self.tree(name)), 3)

    def texts(self, tree):
        """Of each text: its height, from where to where it goes, and what it says."""
        for text in tree.iter(SVG + "text"):
            width, x = chart.text_width(text.text), float(text.get("x"))
            left = x - width / 2 if text.get("text-anchor") == "middle" else x
            yield float(text.get("y")), left, left + width, text.text

    def test_no_texts_overlap(self):
        for name in ALL:
            tree = self.tree(name)
            found = sorted(self.texts(tree))
            for place, (y, left, right, text) in enumerate(found):
                self.assertTrue(0 < left and right < float(tree.get("width")), (name, text))
                for other in found[place + 1:]:
                    if other[0] - y < 13:
                        self.assertTrue(right < other[1] or other[2] < left, (name, text, other[3]))

    def test_texts_stand_between_their_session_and_their_node(self):
        for name in ALL:
            layout = chart.Layout(chart_rows.charted(*ALL[name]))
            for row in layout.rows:
                if row.kind in chart.ARROWS:
                    self.assertLess(chart.text_width(row.text), layout.gap - 10, (name, row.text))

    def test_boxes_hold_their_texts_within_the_page(self):
        for name in ALL:
            tree = self.tree(name)
            boxes = [rect for rect in tree.iter(SVG + "rect") if rect.get("rx")]
            for box in boxes:
                left = float(box.get("x"))
                self.assertTrue(0 < left and left + float(box.get("width")) < float(tree.get("width")), name)
            for text in re.findall("(?:tick|settle|grant|deliver|crash|replay|restart|refused) [^<]*", picture(*ALL[name])):
                self.assertLess(chart.text_width(text), chart.note_width(text), text)

    def columns(self, name):
        return list(chart.Layout(chart_rows.charted(*ALL[name])).columns)

    def test_sessions_stand_left_of_their_node(self):
        self.assertEqual(self.columns("three_nodes"), [(1, 1), (1, None), (2, None), (3, 1), (3, None)])
        self.assertEqual(self.columns("sessions_1_and_99"), [(1, 1), (1, 99), (1, None)])
        self.assertEqual(self.columns("tick_before_nodes"), [(1, None)])

    def test_sessions_are_named_by_their_accounts(self):
        def names(name):
            layout = chart.Layout(chart_rows.charted(*ALL[name]))
            return [chart.name_of(layout, *column) for column in layout.columns]

        self.assertEqual(names("three_nodes"), ["sme1, session 1", "node 1", "node 2", "sme1, session 1", "node 3"])
        self.assertEqual(names("two_esmes"), ["sme1, session 1", "sme2, session 2", "node 1"])
        self.assertEqual(names("submit_before_a_bind"), ["ESME, session 1", "node 1"])

    def test_a_line_is_dashed_while_its_node_is_down(self):
        layout = chart.Layout(chart_rows.charted(*ALL["a_node_stops"]))
        stops, starts = (next(place for place, row in enumerate(layout.rows) if row.kind == kind) for kind in ("crash", "restart"))
        (since, until), = layout.pauses(2, None)
        self.assertTrue(layout.y(stops) < since < layout.y(stops + 1) and layout.y(starts - 1) < until < layout.y(starts))
        self.assertEqual([list(layout.pauses(*column)) for column in [(1, 1), (1, None), (2, 1), (3, None)]], [[]] * 4)

    def test_a_line_is_dashed_while_its_session_is_gone(self):
        layout = chart.Layout(chart_rows.charted(*ALL["sessions_1_and_99"]))
        goes = next(place for place, row in enumerate(layout.rows) if row.kind == "gone")
        comes = max(place for place, row in enumerate(layout.rows) if row.kind == "ask")
        (since, until), = layout.pauses(1, 1)
        self.assertTrue(layout.y(goes - 1) < since < layout.y(goes) and until == layout.y(comes))
        self.assertEqual(list(layout.pauses(1, 99)), [])

    def test_a_settle_of_some_nodes_has_a_box_for_each_group(self):
        self.assertEqual(list(chart.neighbours((1, 2, 4, 7, 8, 9))), [(1, 2), (4, 4), (7, 9)])


class Faults(unittest.TestCase):
    """What is told in place of a picture."""

    def told(self, *names):
        ran = subprocess.run([sys.executable, ROOT / "tools/chart.py", *map(str, names)], capture_output=True, text=True)
        self.assertEqual((ran.returncode, ran.stdout), (1, ""))
        return ran.stderr.strip()

    def test_a_file_that_is_not_there(self):
        self.assertEqual(self.told(ROOT / "crates/centre/stdin", "/nowhere/output"), "/nowhere/output: No such file or directory")
        self.assertTrue(self.told(ROOT / "crates/centre", "/nowhere/output").endswith("Is a directory"))

    def test_an_output_of_another_script(self):
        script, output = ROOT / "crates/centre/stdin", ROOT / "crates/centre/stdout"
        head = "the output does not fit the script: "
        self.assertEqual(self.told(script, script), head + "line 1 of the output, `nodes 1`, is of no line of the script")
        with self.assertRaises(chart.Misfit) as raised:
            told("nodes 2\ncrash 2 0 before\nsettle\n", output.read_text())
        self.assertEqual(str(raised.exception), head + f"line 1 of the output, `pdu 1 1 {BOUND}`, is not of line 2 of the script, `crash 2 0 before`")
        with self.assertRaises(chart.Misfit) as raised:
            told(lines("nodes 1", f"pdu 1 1 {UNBIND}", "restart 1"), "")
        self.assertEqual(str(raised.exception), head + "it ends at line 3 of the script, `restart 1`, which prints more")


class Streams(unittest.TestCase):
    def test_cut(self):
        enquire = bytes.fromhex("00000010000000150000000000000007")
        pdus, rest = chart_pdus.cut(enquire + enquire[:5])
        self.assertEqual(([pdu.sequence for pdu in pdus], rest), ([7], enquire[:5]))

    def test_messages_of_these_tests(self):
        self.assertEqual(message(0x04, 2), SUBMIT)

    def test_requests_that_end_too_early_or_too_late(self):
        for digits, whole in [(BIND, True), (SUBMIT, True), (QUERY, True), (UNBIND, True), (BIND + "00", False), (SUBMIT[:-2], False), (QUERY[:-2], False)]:
            self.assertEqual(chart_pdus.is_whole(chart_pdus.pdu_of(bytes.fromhex(digits))), whole, digits)


if __name__ == "__main__":
    unittest.main()
