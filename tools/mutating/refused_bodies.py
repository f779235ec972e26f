"""Bodies that no contract forbids, or that a test has to refuse as well: in each a test must fail.

The line `tests:` of each has a crate of tests and, behind it, a part of the names of the tests that are run. It is made in a copy of all crates, in which
`rt try --test` runs the tests before any proof. What does not compile is not refused.
"""
import functools
import pathlib
import re
import shutil

from edit_files import Misplaced, edit_of, make
from mutating.copies import folder
from mutating.mutation import Mutation, Outcome
from repository import TOP

FOLDER = TOP / "tools" / "refused"
FAILED = re.compile(r"test (\S+) \.\.\. FAILED")


def found():
    for file in sorted(FOLDER.glob("*.edit")):
        edit = edit_of(file)
        yield Mutation("refused", pathlib.PurePath(edit.replacements[0].file).parts[1], edit.head["tests"].split()[0], file)


def judged(lines):
    """The first test that failed, and what it said; or that none did, and the end of what was said."""
    for place, line in enumerate(lines):
        if failed := FAILED.search(line):
            return Outcome(True, f"{failed[1]}: {' | '.join(said.strip() for said in lines[place + 1:place + 4])}")
    return Outcome(False, " | ".join(lines[-4:]))


def tried(mutation, how):
    edit = edit_of(mutation.file)
    with folder() as copy:
        shutil.copytree(TOP / "crates", copy / "crates", ignore=shutil.ignore_patterns("out", "data"))
        for file in ("crates.txt", "HANDLES"):
            shutil.copy(TOP / file, copy)
        try:
            make(edit, copy)
        except (Misplaced, OSError) as fault:
            return [(mutation, Outcome(False, str(fault)))]
        tests = edit.head["tests"].split()[1:]
        done = how.run(["try", "--test", "--seconds", str(how.seconds), "--", *tests], copy / "crates" / mutation.judge)
    return [(mutation, judged((done.stdout + done.stderr).splitlines()))]


def tasks(mutations, how):
    return [functools.partial(tried, mutation, how) for mutation in mutations]
