#!/usr/bin/env python3
"""Tests of tools/mutate, with a command that answers as `rt` does: python3 tools/test_mutate.py"""
import contextlib
import importlib.machinery
import importlib.util
import pathlib
import subprocess
import tempfile
import unittest
from unittest import mock

from edit_files import Misplaced, edit_of, edited, make, put
from mutating import compile_checks, edits, refused_bodies, weakenings
from mutating.copies import copy_sources
from mutating.mutation import How, Mutation
from repository import TOP, git, libraries

LOADER = importlib.machinery.SourceFileLoader("mutate", str(TOP / "tools/mutate"))
mutate = importlib.util.module_from_spec(importlib.util.spec_from_loader("mutate", LOADER))
LOADER.exec_module(mutate)

# What `rt` would say: of each edit that it is refused, but of one that it is proved, and of another one nothing.
PROVER = """
test "$1" = must-fail || exit 9
for edit in crates/$2/must-fail/*.edit; do
    name=${edit##*/}
    case $name in
        message_*) echo "rt: must-fail $2/$name: the edit is proved" ;;
        parameters_*) ;;
        *) echo "rt: must-fail $2/$name: refused, as it must be" ;;
    esac
done
"""
# The compiler refuses a clone of a life alone.
COMPILER = """
test "$1 $2" = "try --test" || exit 9
grep -q 'life.clone()' src/lib.rt && echo 'error: `Life` is not `Clone`' && exit 1
exit 0
"""


class With(unittest.TestCase):
    def setUp(self):
        self.stack = contextlib.ExitStack()
        self.addCleanup(self.stack.close)
        self.folder = pathlib.Path(self.stack.enter_context(tempfile.TemporaryDirectory(prefix="test-mutate-")))

    def how(self, script):
        command = self.folder / "rt"
        command.write_text(f"#!/bin/sh\n{script}")
        command.chmod(0o755)
        return How(str(command), 5, self.stack)

    def file(self, name, text):
        path = self.folder / name
        path.write_text(text)
        return path

    def outcomes(self, module, mutations, script):
        how = self.how(script)
        return {mutation.name: outcome for task in module.tasks(mutations, how) for mutation, outcome in task()}


class Files(With):
    def test_what_an_edit_says(self):
        edit = edit_of(self.file("it.edit", "law: a::b\nfile: one\nold: x⏎y\nnew: z\nold:  z\nnew:\nfile: two\nold: a\nnew: b: c\n"))
        self.assertEqual(edit.head, {"law": "a::b"})
        self.assertEqual(edit.replacements, [("one", "x\ny", "z"), ("one", " z", ""), ("two", "a", "b: c")])

    def test_it_is_made_and_taken_back(self):
        edit = edit_of(self.file("it.edit", "file: one\nold: x⏎y\nnew: z\nold: z\nnew: w\n"))
        one = self.file("one", "x\nyx")
        before = make(edit, self.folder)
        self.assertEqual(one.read_text(), "wx")
        put(before)
        self.assertEqual(one.read_text(), "x\nyx")

    def test_what_is_no_edit(self):
        for text in ("", "file: one\n", "file: one\nold: x\n", "fiel: one\nold: x\nnew: y\n"):
            with self.subTest(text), self.assertRaises(Misplaced):
                edit_of(self.file("it.edit", text))

    def test_a_text_that_does_not_stand_there_once(self):
        edit = edit_of(self.file("it.edit", "file: one\nold: x\nnew: y\n"))
        for text in ("", "x x"):
            self.file("one", text)
            with self.subTest(text), self.assertRaises(Misplaced):
                edited(edit, self.folder)


class Selection(unittest.TestCase):
    def test_each_file_is_one(self):
        files = {file for pattern in ("crates/*/must-fail/*.edit", "crates/*/edits/*.edit", "tools/planted/*/*.edit", "tools/weakenings/*.edit",
                                      "tools/refused/*.edit", "tools/compile_checks/*.case") for file in TOP.glob(pattern)}
        self.assertEqual({mutation.file for mutation in mutate.of_kinds(mutate.MODULES)}, files)

    def test_names(self):
        every = mutate.of_kinds(["planted", "compile"])
        self.assertEqual({mutation.kind for mutation in mutate.named(every, ["node_core"])}, {"planted", "compile"})
        self.assertEqual([str(mutation) for mutation in mutate.named(every, ["session_99_is_none", "script_lines/session_99_is_none"])],
                         ["planted script_lines/session_99_is_none"])
        with self.assertRaises(SystemExit):
            mutate.named(every, ["nobody"])

    def changed(self, *files):
        with mock.patch.object(mutate, "git", lambda *words: "\n".join(files) + "\n" if words[0] == "diff" else ""):
            return {str(mutation) for mutation in mutate.changed(mutate.of_kinds(["planted", "weakenings"]), "HEAD")}

    def test_what_changed(self):
        self.assertEqual(self.changed("README.md", "crates/desk/README.md", "crates/desk/edits/any.edit"), set())
        self.assertEqual(self.changed("tools/planted/desk/last_serial_refused.edit"), {"planted desk/last_serial_refused"})
        above = self.changed("crates/mc_model/specs/node/Replies.antt")
        self.assertTrue({f"weakenings mc_model/{mutation.name}" for mutation in weakenings.found() if mutation.judge == "mc_laws"} & above)
        self.assertIn("planted desk/last_serial_refused", above)


class Copies(With):
    def test_crates_are_listed_as_they_are(self):
        copy_sources(self.folder, "worker_parts", libraries())
        listed = (self.folder / "crates.txt").read_text().splitlines()
        self.assertIn("worker_parts may_wait=", "\n".join(listed))
        self.assertLessEqual(set(listed), set((TOP / "crates.txt").read_text().splitlines()))
        self.assertEqual({line.replace(":", " ").split()[0] for line in listed}, {path.name for path in (self.folder / "crates").iterdir()})


class Tries(With):
    def test_edits(self):
        planted = mutate.named(mutate.of_kinds(["planted"]), ["pdu_fields"])
        found = self.outcomes(edits, planted, PROVER)
        self.assertEqual(len(found), 4)
        self.assertEqual({name for name, outcome in found.items() if not outcome.is_refused},
                         {"message_of_254_octets_refused", "parameters_kept_without_their_values"})
        self.assertIn("not tried", found["parameters_kept_without_their_values"].said)

    def test_many_edits_of_a_crate_go_to_several_copies(self):
        some = [Mutation("beside", "desk", "desk", pathlib.Path(f"{number}.edit")) for number in range(21)]
        tasks = list(edits.tasks(some, self.how("")))
        self.assertEqual(sorted(mutation.name for task in tasks for mutation in task.args[0]), sorted(mutation.name for mutation in some))
        self.assertEqual(len(tasks), 3)

    def test_weakenings(self):
        first, *_ = weakenings.found()
        law = edit_of(first.file).head["law"]
        for said, is_refused in ((f"fn {law}: proved", False), (f"fn {law}: not proved", True), ("specs/Any.antt:1: error", False), ("", False)):
            self.assertEqual(weakenings.judged(said, law).is_refused, is_refused, said)
        below = "rt: the library mc_model did not build\ncrates/mc_model/proofs/Any.antt:3: error: `any_lemma` is not proved"
        self.assertEqual(weakenings.judged(below, law), (True, "refused, by the lemma `any_lemma` of mc_model"))

    def test_a_weakening_is_made_for_the_check_alone(self):
        first, *_ = weakenings.found()
        edit = edit_of(first.file)
        new, file = edit.replacements[0].new.splitlines()[-1], edit.replacements[0].file
        script = f'test "$*" = "check --only {edit.head["law"]}" || exit 9\ngrep -qF \'{new}\' ../../{file} && echo "fn {edit.head["law"]}: refused"\n'
        copies = weakenings.Copies(libraries(), self.how(script))
        (_, outcome), = weakenings.tried(first, copies, self.how(script))
        self.assertTrue(outcome.is_refused, outcome)
        with copies.with_crate(first.judge) as copy:
            self.assertEqual((copy / file).read_text(), (TOP / file).read_text())

    def test_refused_bodies(self):
        said = ["running", "test one::two ... FAILED", "  it said", "  so"]
        self.assertEqual(refused_bodies.judged(said), (True, "one::two: it said | so"))
        self.assertEqual(refused_bodies.judged(["a", "b", "c", "d", "e"]), (False, "b | c | d | e"))

    def test_compile_checks(self):
        cases = [case._replace(crate="mc_types") for case in compile_checks.found()]
        found = self.outcomes(compile_checks, cases, COMPILER)
        crates = {"connection_parts", "esme_service", "journal_parts", "node_core", "waiting_requests"}
        self.assertEqual({case.crate for case in compile_checks.found()}, crates)
        self.assertEqual({name for name, outcome in found.items() if outcome.is_refused}, {"life_cloned"})
        self.assertEqual({outcome.said for outcome in found.values()}, {"refused, and right without the defect", "the wrong caller compiles"})


class Command(With):
    def test_summary(self):
        ran = subprocess.run([TOP / "tools/mutate", "--rt", self.how(PROVER).rt, "--kinds", "planted", "--", "pdu_fields"], capture_output=True, text=True)
        self.assertEqual((ran.returncode, ran.stderr), (1, ""))
        *lines, last = ran.stdout.splitlines()
        self.assertEqual(len(lines), 4)
        self.assertEqual(sum(line.startswith("not ok planted pdu_fields/") for line in lines), 2)
        self.assertIn(f"commit {git('rev-parse', '--short=8', 'HEAD').strip()}", last)
        self.assertTrue(last.endswith(": planted 2 refused, 2 let through"), last)


if __name__ == "__main__":
    unittest.main()
