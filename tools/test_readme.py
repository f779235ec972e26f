#!/usr/bin/env python3
"""Looks whether what README says of the set-up is so, here and on this machine: python3 tools/test_readme.py

Of the kit it looks at what `rt version` prints, if there is an `rt`: its logic has to be that of README. tools/check looks at all but this machine."""
import ast
import pathlib
import re
import shutil
import subprocess
import sys
import unittest

ROOT = pathlib.Path(__file__).resolve().parent.parent
README = (ROOT / "README.md").read_text()
SET_UP = README.split("\n## Set up\n")[1].split("\n## ")[0]
LOGIC = re.compile(r"logic ([0-9a-f]{16})")
KIT = re.compile(r"rattle-kit-\w+")
PYTHON = tuple(int(word) for word in re.search(r"Python (\d+)\.(\d+) or later", SET_UP).groups())


def commands(text):
    """The indented lines of a page, with those that go on in the next one put together."""
    lines = re.findall(r"^    (.+)$", text.replace("\\\n", " "), re.MULTILINE)
    return [" ".join(line.split()) for line in lines]


def packed(text):
    return " ".join(text.replace("\\\n", " ").split())


class Kit(unittest.TestCase):
    def test_one_logic_is_asked_for(self):
        self.assertEqual(len(set(LOGIC.findall(SET_UP))), 1)

    def test_the_gate_passed_with_a_kit_that_is_named(self):
        measured = re.search(r"`(rattle-kit-\w+) logic (\w+)`.*?(\d+) failed", (ROOT / "docs/GATE.md").read_text(), re.DOTALL)
        self.assertEqual(measured[3], "0")
        self.assertIn(measured[1], KIT.findall(SET_UP))
        self.assertEqual(measured[2], LOGIC.search(SET_UP)[1])


class ThisMachine(unittest.TestCase):
    def test_the_version_of_python(self):
        self.assertGreaterEqual(sys.version_info, PYTHON)

    @unittest.skipUnless(shutil.which("rt"), "rt is not on the path")
    def test_this_kit_has_the_logic(self):
        version = subprocess.run(["rt", "version"], capture_output=True, text=True, check=True).stdout
        self.assertEqual(LOGIC.findall(version), LOGIC.findall(SET_UP)[:1], f"README asks for another kit than this one, {version.strip()}")
        self.assertTrue(version.strip().endswith(LOGIC.search(version)[0]))
        page = subprocess.run(["rt", "doc"], capture_output=True, text=True, check=True).stdout.strip()
        self.assertTrue(pathlib.Path(page).is_file(), page)


class Commands(unittest.TestCase):
    def test_tools_are_python_of_the_version(self):
        """As far as their grammar tells."""
        commands = [ROOT / "tools" / name for name in ("check", "mutate", "harm")]
        for path in [*commands, *ROOT.glob("tools/**/*.py"), *ROOT.glob("bench/**/*.py")]:
            ast.parse(path.read_text(), str(path), feature_version=PYTHON)

    def test_the_gate_is_what_is_called(self):
        gate = packed((ROOT / ".ci/run").read_text()).partition("rt ci ")
        self.assertIn("rt ci " + gate[2], commands(SET_UP))

    def test_the_first_script_prints_three_pdus(self):
        lines = (ROOT / "crates/centre/stdout").read_text().splitlines()
        self.assertEqual([line.split(" ")[0] for line in lines], ["pdu"] * 3)
        self.assertIn("three lines that begin with `pdu`", SET_UP)
        self.assertIn("(cd crates/centre && rt try -- script < stdin)", commands(SET_UP))
        self.assertIn("(cd crates/centre && rt run -- script < stdin)", commands(SET_UP))

    def test_its_ports_and_accounts_are_those_of_the_example(self):
        server = README.split("\n## A first server\n")[1].split("\n## ")[0]
        example = (ROOT / "examples/centre.toml").read_text()
        for port in re.findall(r"\b277\d\b", server):
            self.assertIn(f':{port}"', example)
        for word in ("sme1", "pw1"):
            self.assertIn(f"`{word}`", server)
            self.assertIn(f'"{word}"', example)


if __name__ == "__main__":
    unittest.main()
