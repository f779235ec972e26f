"""Weakenings of definitions: the law that each names must not be proved any more.

If a crate below the law's is refused first, the lemma that failed there is told. A weakening may change a proof, too, that names what is weakened: then it is
not refused for its shape.
"""
import contextlib
import functools
import pathlib
import queue
import re
import shutil
import tempfile

from edit_files import Misplaced, edit_of, make, put
from mutating.copies import list_crates
from mutating.mutation import Mutation, Outcome
from repository import TOP, libraries, with_beneath

FOLDER = TOP / "tools" / "weakenings"


def found():
    for file in sorted(FOLDER.glob("*.edit")):
        edit = edit_of(file)
        yield Mutation("weakenings", pathlib.PurePath(edit.replacements[0].file).parts[1], edit.head["law"].split("::")[0], file)


class Copies:
    """Copies of crates, each worked on by one thread at a time. What a check left there serves the next one."""

    def __init__(self, named, how):
        self.named, self.stack, self.free = named, how.stack, queue.SimpleQueue()

    @contextlib.contextmanager
    def with_crate(self, crate):
        """A copy with a crate and those below it, to which come those that are not there yet, with what earlier checks kept of them."""
        try:
            copy = self.free.get_nowait()
        except queue.Empty:
            copy = pathlib.Path(tempfile.mkdtemp(prefix="weaken-"))
            self.stack.callback(shutil.rmtree, copy)
        for name in with_beneath([crate], self.named):
            if not (copy / "crates" / name).is_dir():
                shutil.copytree(TOP / "crates" / name, copy / "crates" / name, symlinks=True)
        list_crates(copy, [path.name for path in (copy / "crates").iterdir()])
        yield copy
        self.free.put(copy)


def judged(said, law):
    """What a check says of a law."""
    if re.search(rf"^fn {re.escape(law)}: proved", said, re.M):
        return Outcome(False, "proved")
    if re.search(r"^[./]*(crates/\w+/)?specs/.*error", said, re.M):
        return Outcome(False, "no definition")
    # a law or a lemma of a crate below may fail first, and the crate above is not checked then
    if re.search(r"^fn (\S+): (?!proved)", said, re.M):
        return Outcome(True, "refused")
    below = re.search(r"^rt: the library (\w+) did not build", said, re.M)
    lemma = re.search(r"^[./]*(?:crates/\w+/)?proofs/\S+: error: `([^`]+)`", said, re.M)
    if below and lemma:
        return Outcome(True, f"refused, by the lemma `{lemma[1]}` of {below[1]}")
    return Outcome(False, "no such law")


def tried(mutation, copies, how):
    edit = edit_of(mutation.file)
    law = edit.head["law"]
    with copies.with_crate(mutation.judge) as copy:
        try:
            before = make(edit, copy)
        except (Misplaced, OSError) as fault:
            return [(mutation, Outcome(False, str(fault)))]
        try:
            done = how.run(["check", "--only", law], copy / "crates" / mutation.judge)
        finally:
            put(before)
    outcome = judged(done.stdout + done.stderr, law)
    return [(mutation, outcome._replace(said=f"{outcome.said} ({law})"))]


def tasks(mutations, how):
    copies = Copies(libraries(), how)
    return [functools.partial(tried, mutation, copies, how) for mutation in mutations]
