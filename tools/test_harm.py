#!/usr/bin/env python3
"""Tests of tools/harm, with a tool that says what it is to say: python3 tools/test_harm.py"""
import contextlib
import importlib.machinery
import importlib.util
import io
import pathlib
import sys
import tempfile
import unittest
from types import SimpleNamespace
from unittest import mock

from repository import TOP, write_between_marks

LOADER = importlib.machinery.SourceFileLoader("harm", str(TOP / "tools/harm"))
harm = importlib.util.module_from_spec(importlib.util.spec_from_loader("harm", LOADER))
LOADER.exec_module(harm)

# The last line of each tool, and what is told of it.
LINES = {
    "200 kills of 20 stores, seed 868450, 307 s: 0 wrong": ("kills of 20 stores", "200", 0),
    "scripts: 10,677,049 inputs in 5,500 scripts, seed 48, 2012 s: 1,002 wrong": ("inputs in 5,500 scripts", "10,677,049", 1002),
    "TCP: 20,051 inputs in 1,218 sessions, seed 5, 28 s: 0 wrong": ("inputs in 1,218 sessions", "20,051", 0),
    "79 checks, 2 wrong": ("checks", "79", 2),
    "1,549 reads and writes failed of 100 scripts, 0 wrong": ("reads and writes failed of 100 scripts", "1,549", 0),
}


class Table(unittest.TestCase):
    def test_last_lines(self):
        for line, (tried, count, wrong) in LINES.items():
            self.assertEqual(harm.seen_of(line, int(wrong > 0), 3), (tried, count, wrong, 3, ""), line)

    def test_a_tool_that_does_not_end_in_order_is_wrong(self):
        for line, status in (("Traceback", 1), ("", 0), ("79 checks, 0 wrong", 1), ("79 checks, 0 wrong", -9)):
            self.assertEqual(harm.seen_of(line, status, 3).wrong, 1, (line, status))

    def test_rows(self):
        left_out = harm.Seen("left out, since it needs --store", "", 0, 0, "it needs --store")
        seen = {"kill": harm.Seen("kills of 20 stores", "200", 0, 306.7), "store_checks": left_out}
        self.assertEqual(list(harm.table(seen)), ["| kill | kills of 20 stores | 200 | 0 | 307 |", "| store_checks | left out, since it needs --store | | | |"])


class Commands(unittest.TestCase):
    def given(self, **others):
        return SimpleNamespace(**{"program": "/program", "quick": False, "seed": 7, "store": None, "tests": [], **others})

    def words(self, name, **others):
        return harm.command(name, self.given(**others))[1:]

    def test_words(self):
        tools = TOP / "tools"
        self.assertEqual(self.words("kill"), [f"{tools}/kill.py", "/program", "--seed", "7"])
        self.assertEqual(self.words("fuzz_tcp", quick=True), [f"{tools}/fuzz.py", "/program", "--count", "0", "--tcp", "1000", "--seed", "7"])
        self.assertEqual(self.words("store_checks", store="/store"), [f"{tools}/store_checks.py", "/store"])
        self.assertEqual(self.words("refuse_memory", tests=["/tests"]), [f"{tools}/refuse_memory.py", "/program", "--tests", "/tests"])

    def test_each_tool_is_there(self):
        self.assertEqual(len(harm.KINDS), 10)
        for kind in harm.KINDS.values():
            self.assertTrue((TOP / "tools" / kind.tool).is_file(), kind.tool)
        for row in harm.ROWS:
            self.assertTrue((TOP / "crates/centre/data/rows" / f"{row}.script").is_file(), row)

    def test_what_is_left_out(self):
        self.assertEqual(harm.lack("store_checks", self.given()), "it needs --store")
        self.assertEqual(harm.lack("cluster_checks", self.given()), "")


class Marks(unittest.TestCase):
    def test_what_stands_between_them_is_written(self):
        with tempfile.TemporaryDirectory() as folder:
            page = pathlib.Path(folder, "page.md")
            page.write_text("a\n<!-- harm: begin -->\nold\n<!-- harm: end -->\nb\n")
            write_between_marks(page, "harm", ["new", "newer"])
            self.assertEqual(page.read_text(), "a\n<!-- harm: begin -->\nnew\nnewer\n<!-- harm: end -->\nb\n")
            with self.assertRaises(ValueError):
                write_between_marks(page, "weakenings", [])

    def test_the_pages_have_them(self):
        for name, page in (("harm", "HOSTILE.md"), ("weakenings", "HEADLINE.md")):
            text = (TOP / "docs" / page).read_text()
            self.assertEqual([text.count(f"\n<!-- {name}: {side} -->\n") for side in ("begin", "end")], [1, 1], page)


class Command(unittest.TestCase):
    def ran(self, *words):
        """What it prints, and its status."""
        out = io.StringIO()
        with mock.patch.object(sys, "argv", ["harm", "/bin/true", *words]), contextlib.redirect_stdout(out), contextlib.redirect_stderr(out):
            with self.assertRaises(SystemExit) as ended:
                harm.main()
        return out.getvalue().splitlines(), ended.exception.code

    def test_a_kind_is_run_and_another_one_left_out(self):
        with tempfile.TemporaryDirectory() as folder:
            tool = pathlib.Path(folder, "tool.py")
            tool.write_text("import sys\nprint('not ok this')\nprint(f'7 things of {sys.argv[2]}, 2 wrong')\nsys.exit(1)\n")
            with mock.patch.dict(harm.KINDS, {"rough": harm.Kind(str(tool), (), ("few",))}):
                lines, status = self.ran("--only", "rough", "store_checks", "--quick")
        self.assertEqual(status, 1)
        self.assertIn("not ok this", lines)
        self.assertRegex(lines[-3], r"\| rough \| things of few \| 7 \| 2 \| \d \|")
        self.assertEqual(lines[-2:], ["| store_checks | left out, since it needs --store | | | |", "tools/harm: 2 kinds, 1 left out, 2 wrong"])

    def test_no_part_of_a_run_is_written(self):
        for words in (["--quick"], ["--only", "kill"]):
            lines, status = self.ran("--write", *words)
            self.assertEqual(status, 2)
            self.assertIn("of a whole run", lines[-1])


if __name__ == "__main__":
    unittest.main()
