#!/usr/bin/env python3
"""Tests of tools/lint.py: python3 tools/test_lint.py"""
import pathlib
import subprocess
import sys
import unittest

import lint
import rows

ROOT = pathlib.Path(__file__).resolve().parent.parent


def told(*lines):
    return list(lint.faults("\n".join(lines)))


class Rows(unittest.TestCase):
    def test_the_first_bad_line_is_that_of_each_script(self):
        for name, script, _, status, fault in rows.rows():
            found = next((f"bad line {place}" for place, _ in lint.faults(script)), "")
            self.assertEqual(found, fault.strip() if status == 2 else "", name)


class Reasons(unittest.TestCase):
    def test_what_nobody_sees(self):
        for line, reason in [
            ("settle\r", "it ends in a carriage return"), ("settle ", "octet 7 is a space too many"), ("settle  1", "octet 8 is a space too many"),
            (" settle", "it begins with a space"), ("settle\t1", "octet 7 is a tab"), ("settle\u00a0", "octet 7 is 0xa0"), ("\t", "octet 1 is a tab"),
            ("\u00ef\u00bb\u00bfsettle", "it begins with a byte order mark"), ("\r", "it ends in a carriage return"),
        ]:
            (place, found), = told("nodes 1", line, "settle")
            self.assertEqual((place, found[:len(reason)]), (2, reason))

    def test_words(self):
        for line, reason in [
            ("nodes 1", "nodes comes once"), ("setle", "no line begins with 'setle': is it settle?"), ("Settle", "no line begins with 'Settle': is it settle?"),
            ("pdu 1 1", "its form is: pdu NODE SESSION HEX"), ("pdu 1 1 0", "HEX has 1 digits, an odd number"), ("pdu 1 1 0g", "HEX has 'g', which is no"),
            ("pdu 0 1 00", "NODE is 0, and not from 1 to 2"), ("pdu 1 100 00", "SESSION is 100, and not from 1 to 99"),
            ("pdu 1 x 00", "SESSION is 'x', and no decimal number"),
            ("tick 1 946684799", "MOMENT is 946684799, and not from"), ("tick 01 946684800", "NODE is 01: it begins with a zero"),
            ("grant 1 1000000001", "ID is '1000000001', and no message_id"), ("settle 3", "NODE is 3, and not from 1 to 2"),
            ("deliver 18446744073709551616 1", "NUMBER is 18446744073709551616, and not from 0 to"), ("replay -1", "K is '-1', and no decimal number"),
            ("replay " + "9" * 30, "K is 9999"), ("crash 1 1 while", "its form is: crash NODE NUMBER before"), ("#" * 20_001, "it has 20,001 octets"),
        ]:
            (place, found), = told("# two", "nodes 2", line)
            self.assertEqual((place, found[:len(reason)]), (3, reason))

    def test_scripts_that_do_not_begin(self):
        self.assertEqual(told("settle", "settle 9"), [(1, "the first line is nodes N")])
        self.assertEqual(told("nodes 10", "settle 9"), [(1, "N is 10, and not from 1 to 9")])
        self.assertEqual(told(""), [])

    def test_good_lines(self):
        good = [
            "#\tcomment\r", "", "nodes 9 99999", "pdu 9 99 aAbB", "settle 9 9 1", "replay 18446744073709551615", "deliver 0 1", "crash 1 7 after", "restart 9",
            "tick 9 4102444799", "grant 1 9999999999", "",
        ]
        self.assertEqual(told(*good), [])


class Program(unittest.TestCase):
    def run_on(self, *names):
        ran = subprocess.run([sys.executable, ROOT / "tools/lint.py", *map(str, names)], capture_output=True, text=True)
        return ran.returncode, ran.stdout, ran.stderr

    def test_files(self):
        script = ROOT / "examples/bad_line.script"
        self.assertEqual(self.run_on(script), (1, f"{script}:5: SESSION is 100, and not from 1 to 99\n1 bad line\n", ""))
        self.assertEqual(self.run_on(ROOT / "crates/centre/stdin"), (0, "0 bad lines\n", ""))
        self.assertEqual(self.run_on("/nowhere"), (1, "", "/nowhere: No such file or directory\n"))


if __name__ == "__main__":
    unittest.main()
