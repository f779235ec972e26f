#!/usr/bin/env python3
"""Tests of tools/pdu.py: python3 tools/test_pdu.py

The vectors are the PDUs of the worked scripts, written by hand from SMPP 3.4. If tshark and text2pcap are there (Debian's tshark), it reads a PDU of each
command in which no two fields are alike, too."""
import pathlib
import shlex
import shutil
import subprocess
import sys
import tempfile
import unittest
import xml.etree.ElementTree

import pdu
from chart_pdus import BODIES, LIMITS

ROOT = pathlib.Path(__file__).resolve().parent.parent
RECEIPT = "id:1000100001 sub:001 dlvrd:001 submit date:2401310000 done date:2401310000 stat:DELIVRD err:000 text:Hi"
# The fewest words that write a PDU, and its digits.
VECTORS = [
    ("bind_transceiver sequence=1 system_id=sme1 password=pw1", "0000001e000000090000000000000001 736d653100 70773100 00 34 00 00 00"),
    ("bind_transceiver_resp status=ESME_ROK sequence=1 system_id=CENTRE sc_interface_version=0x34",
     "0000001c800000090000000000000001 43454e54524500 0210000134"),
    ("submit_sm sequence=2 source=144 destination=155 registered_delivery=1 text=Hi",
     "00000029000000040000000000000002 00 010131343400 010131353500 000000 0000 0100000002 4869"),
    ("submit_sm_resp status=ESME_ROK sequence=2 message_id=1000100001", "0000001b800000040000000000000002 3130303031303030303100"),
    ("submit_sm sequence=2 source=144 destination=155 text=Hi", "00000029000000040000000000000002 00 010131343400 010131353500 000000 0000 0000000002 4869"),
    ("query_sm sequence=3 message_id=1000100001 source=144", "00000021000000030000000000000003 3130303031303030303100 010131343400"),
    ("query_sm_resp status=ESME_ROK sequence=3 message_id=1000100001 message_state=1", "0000001e800000030000000000000003 3130303031303030303100 00 01 00"),
    ("deliver_sm sequence=1 source=144 destination=155 text=Hi", "00000029000000050000000000000001 00 010131343400 010131353500 000000 0000 0000000002 4869"),
    ("deliver_sm_resp status=ESME_ROK sequence=1", "00000011800000050000000000000001 00"),
    ("deliver_sm_resp status=ESME_RX_T_APPN sequence=1", "00000010800000050000006400000001"),
    (f"deliver_sm sequence=2 source=155 destination=144 esm_class=4 'text={RECEIPT}' 'receipted_message_id=1000100001\\x00' message_state=2",
     "000000a3000000050000000000000002 00 010131353500 010131343400 040000 0000 0000000068" + RECEIPT.encode().hex()
     + "001e000b3130303031303030303100 0427000102"),
    ("cancel_sm sequence=4 message_id=1000100001 source=144", "00000025000000080000000000000004 00 3130303031303030303100 010131343400 000000"),
    ("cancel_sm_resp status=ESME_ROK sequence=4", "00000010800000080000000000000004"),
    ("cancel_sm_resp status=ESME_RCANCELFAIL sequence=4", "00000010800000080000001100000004"),
    ("query_sm_resp status=ESME_ROK sequence=3 message_id=1000100001 final_date=240131000000000+ message_state=2",
     "0000002e800000030000000000000003 3130303031303030303100 3234303133313030303030303030302b00 02 00"),
    ("enquire_link sequence=7", "00000010000000150000000000000007"),
    ("generic_nack status=ESME_RINVCMDID sequence=7", "00000010800000000000000300000007"),
    ("submit_sm_resp status=ESME_ROK sequence=255 body=", "000000108000000400000000000000ff"),
    ("0x00000021 sequence=7", "00000010000000210000000000000007"),
    ("query_sm sequence=3 body=313030303130303030310001013134", "0000001f000000030000000000000003 3130303031303030303100 01013134"),
    ("cancel_sm sequence=4 source=144", "0000001b000000080000000000000004 00 00 010131343400 000000"),
]
# Of each command all fields in their order, no two alike, with optional parameters behind them if it has any.
BIND = "system_id=name password=secret system_type=VMS interface_version=0x34 addr_ton=2 addr_npi=6 address_range=14"
BOUND = "system_id=CENTRE sc_interface_version=0x34"
SOURCE, DESTINATION = "source_addr_ton=1 source_addr_npi=8 source_addr=144", "dest_addr_ton=2 dest_addr_npi=9 destination_addr=15555"
TIMES = "schedule_delivery_time=240131000000000+", "validity_period=000000000100000R"
MESSAGE = (f"service_type=WAP {SOURCE} {DESTINATION} esm_class=0x40 protocol_id=0x7f priority_flag=3 {' '.join(TIMES)} registered_delivery=0x11"
           " replace_if_present_flag=1 data_coding=4 sm_default_msg_id=9 sm_length=5 short_message=Hello")
ALL = {
    "bind_receiver": BIND, "bind_transmitter": BIND, "bind_transceiver": BIND, "bind_receiver_resp": BOUND, "bind_transmitter_resp": BOUND,
    "bind_transceiver_resp": BOUND, "unbind": "", "unbind_resp": "", "enquire_link": "", "enquire_link_resp": "", "generic_nack": "",
    "submit_sm": MESSAGE + " user_message_reference=300 sar_msg_ref_num=77 sar_total_segments=6 sar_segment_seqnum=5",
    "submit_sm_resp": "message_id=1000100001",
    "deliver_sm": MESSAGE.replace("sm_length=5 short_message=Hello", "sm_length=0 short_message=") + " message_payload=Hello message_state=2",
    "deliver_sm_resp": "message_id=7", "query_sm": f"message_id=1000100001 {SOURCE}",
    "query_sm_resp": "message_id=1000100001 final_date=240131000000000+ message_state=5 error_code=101",
    "cancel_sm": f"service_type=WAP message_id=1000100001 {SOURCE} {DESTINATION}", "cancel_sm_resp": "",
}
# What tshark calls otherwise, and the fields of which it tells bits, each by a name of its own.
OTHERWISE = {"message": "short_message", "validity_period_r": "validity_period", "SC_interface_version": "sc_interface_version"}
BITS = {"esm": "esm_class", "regdel": "registered_delivery"}
LENGTHS = {"user_message_reference": 2, "sar_msg_ref_num": 2}


def digits(text):
    return text.replace(" ", "")


def wanted(words):
    """Each field and its octets, by what stands in the words alone."""
    for word in words.split():
        name, _, value = word.partition("=")
        if name in LIMITS:
            yield name, value.encode().hex() + "00"
        elif name in ("short_message", "message_payload"):
            yield name, value.encode().hex()
        else:
            yield name, f"{int(value, 0):0{2 * LENGTHS.get(name, 1)}x}"


def hex_dump(octets):
    """What text2pcap reads."""
    return "".join(f"{place:06x} {octets[place:place + 16].hex(' ')}\n" for place in range(0, len(octets), 16))


def read_by_tshark(pdus):
    """Of each PDU the fields that tshark finds in it, with their octets."""
    with tempfile.TemporaryDirectory() as folder:
        dump, capture = pathlib.Path(folder, "dump"), pathlib.Path(folder, "capture")
        dump.write_text("".join(map(hex_dump, pdus)))
        subprocess.run(["text2pcap", "-q", "-T", "2775,2775", dump, capture], check=True, capture_output=True)
        ran = subprocess.run(["tshark", "-r", capture, "-d", "tcp.port==2775,smpp", "-T", "pdml"], check=True, capture_output=True, text=True)
    for packet in xml.etree.ElementTree.fromstring(ran.stdout).iter("packet"):
        fields = packet.findall("proto[@name='smpp']//field")
        yield [(one.get("name").removeprefix("smpp."), one.get("unmaskedvalue") or one.get("value") or "") for one in fields]


class Words(unittest.TestCase):
    def test_vectors(self):
        for words, text in VECTORS:
            with self.subTest(words):
                self.assertEqual(pdu.written(shlex.split(words)).hex(), digits(text))
                self.assertEqual(pdu.quoted(pdu.told(bytes.fromhex(digits(text)))), words)

    def test_what_is_not_given(self):
        for words, others in [
            ("submit_sm text=Hi", "submit_sm sequence=1 source_addr_ton=0 dest_addr_npi=0 sm_length=2 short_message=Hi"),
            ("submit_sm source=144", "submit_sm source_addr=144 source_addr_ton=1 source_addr_npi=1 dest_addr_ton=0"),
            ("bind_receiver", "bind_receiver interface_version=52 status=0"), ("0x00000004 text=Hi", "submit_sm text=Hi"),
            ("deliver_sm 0x0427=2", "deliver_sm message_state=2"), (r"deliver_sm message_state=\x02", "deliver_sm message_state=2"),
        ]:
            self.assertEqual(pdu.written(words.split()), pdu.written(others.split()), words)

    def test_octets_that_are_no_text(self):
        for text in [r"text=\x00\xff\\", r"0x1400=\x00\x01", "user_message_reference=", r"user_message_reference=\x07"]:
            words = ["submit_sm", "sequence=1", text]
            self.assertEqual(pdu.told(pdu.written(words)), words)

    def test_all_octets_are_told(self):
        """Whatever is changed or cut, the words that are told write the same octets."""
        for _, text in VECTORS:
            octets = bytes.fromhex(digits(text))
            for place in range(16, len(octets)):
                for changed in (octets[:place], *(octets[:place] + bytes([octet]) + octets[place + 1:] for octet in (0x00, 0x7F, 0x80, 0xFF))):
                    self.assertEqual(pdu.written(pdu.told(changed)), changed, changed.hex())

    def test_what_is_wrong(self):
        for words, fault in [
            ("zork", "zork is no command"), ("submit_sm Hi", "'Hi' is no NAME=VALUE"), ("query_sm text=Hi", "query_sm has no short_message"),
            ("submit_sm esm_class=256", "esm_class: 256 needs more than 1 octet"), ("submit_sm esm_class=x", "esm_class: 'x' is no number"),
            (r"submit_sm source=\x00", "source_addr: an octet of zero"), (r"submit_sm text=a\b", "short_message: behind a backslash"),
            ("submit_sm text=" + "a" * 256, "sm_length: 256 needs more"), ("submit_sm body=0", "body: hexadecimal digits"),
            ("submit_sm body=00 text=a", "body: hexadecimal digits"), ("submit_sm status=OK", "status: 'OK' is no number"),
        ]:
            with self.assertRaises(pdu.Wrong) as raised:
                pdu.written(words.split())
            self.assertTrue(str(raised.exception).startswith(fault), (words, str(raised.exception)))

    def test_what_is_too_long(self):
        self.assertEqual(pdu.too_long(pdu.written(["submit_sm", "source=" + "1" * 20, "text=" + "a" * 254])), [])
        found = pdu.too_long(pdu.written(["submit_sm", "source=" + "1" * 21, "text=" + "a" * 255]))
        self.assertEqual(found, ["source_addr: 21 octets, of 20 at most", "short_message: 255 octets, of 254 at most"])


class Lines(unittest.TestCase):
    def filtered(self, way, text):
        ran = subprocess.run([sys.executable, ROOT / "tools/pdu.py", way], input=text, capture_output=True, text=True)
        return ran.stdout, ran.stderr.strip(), ran.returncode

    def test_scripts_are_written_and_outputs_are_read(self):
        words = "# a comment\nnodes 1\npdu 1 1 enquire_link\npdu 1 1 submit_sm 'text=Hi there'\nsettle\n"
        script = words.replace("enquire_link", "00000010000000150000000000000001").replace(
            "submit_sm 'text=Hi there'", "0000002900000004000000000000000100000000000000000000000000000000084869207468657265")
        self.assertEqual(self.filtered("--write", words), (script, "", 0))
        self.assertEqual(self.filtered("--write", script), (script, "", 0))
        told = script.replace("00000010000000150000000000000001", "enquire_link sequence=1")
        self.assertEqual(self.filtered("--read", script)[0].splitlines()[2], told.splitlines()[2])
        self.assertEqual(self.filtered("--write", self.filtered("--read", script)[0]), (script, "", 0))
        self.assertEqual(self.filtered("--read", "pdu 1 1 0000\ngone 1 1\n"), ("pdu 1 1 0000\ngone 1 1\n", "", 0))

    def test_digits_of_several_pdus(self):
        link, refused = "00000010000000150000000000000001", "00000010800000000000000300000007"
        for digits, words in [
            (link + refused, "enquire_link sequence=1\ngeneric_nack status=ESME_RINVCMDID sequence=7\n"),
            (link.replace("10", "0f", 1), "enquire_link sequence=1 length=15\n"), (link + "00", "enquire_link sequence=1 length=16 body=00\n"),
        ]:
            ran = subprocess.run([sys.executable, ROOT / "tools/pdu.py", digits], capture_output=True, text=True)
            self.assertEqual(ran.stdout, words)

    def test_faults_name_their_line(self):
        self.assertEqual(self.filtered("--write", "nodes 1\npdu 1 1 query_sm text=Hi\n")[1:], (
            "line 2: query_sm has no short_message; it has message_id, source_addr_ton, source_addr_npi, source_addr", 1))


class Page(unittest.TestCase):
    def test_the_table_of_fields(self):
        page = (ROOT / "docs/SCRIPTS.md").read_text()
        for name, fields in BODIES.items():
            told = ", ".join(f"{field} ({LIMITS[field]})" if field in LIMITS else field for field in fields) or "none"
            row = next((line for line in page.splitlines() if line.startswith("|") and name in line.split("|")[1].replace(",", "").split()), "")
            self.assertIn(f"| {told} |", row, name)


@unittest.skipUnless(shutil.which("tshark") and shutil.which("text2pcap"), "tshark is not there")
class Tshark(unittest.TestCase):
    def test_each_field_of_each_command(self):
        self.assertEqual(set(ALL), set(BODIES))
        self.assertEqual(len(ALL), 19)
        pdus = [pdu.written([name, "sequence=3", *words.split()]) for name, words in ALL.items()]
        for (name, words), octets, found in zip(ALL.items(), pdus, read_by_tshark(pdus), strict=True):
            with self.subTest(name):
                self.assertEqual(found[0], ("command_length", f"{len(octets):08x}"))
                self.assertEqual(found[1], ("command_id", octets[4:8].hex()))
                self.assertEqual(next(value for field, value in found if field == "sequence_number"), "00000003")
                self.assertEqual(self.fields(found), [(field, octets) for field, octets in wanted(words) if octets])

    def fields(self, found):
        """The fields of the body, and the values of optional parameters. An octet of which tshark tells bits stands once."""
        head = {"command_length", "command_id", "command_status", "sequence_number", "opt_params", "opt_param", "opt_param_tag", "opt_param_len"}
        body = [(BITS.get(name.split(".")[0], OTHERWISE.get(name, name)), value) for name, value in found if name not in head]
        return [pair for place, pair in enumerate(body) if pair not in body[:place] or pair[0] not in BITS.values()]

    def test_a_status_is_told(self):
        found, = read_by_tshark([pdu.written(["cancel_sm_resp", "status=ESME_RCANCELFAIL", "sequence=3"])])
        self.assertIn(("command_status", "00000011"), found)


if __name__ == "__main__":
    unittest.main()
