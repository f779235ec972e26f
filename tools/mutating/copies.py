"""Copies of crates in folders of their own, in which mutations are made."""
import contextlib
import pathlib
import shutil
import tempfile

from repository import TOP, with_beneath

SOURCES = ("src", "specs", "proofs")


@contextlib.contextmanager
def folder():
    """A folder that is gone at the end."""
    made = tempfile.mkdtemp(prefix="mutate-")
    try:
        yield pathlib.Path(made)
    finally:
        shutil.rmtree(made)


def list_crates(copy, crates):
    """Lists these crates in a copy, by their lines of crates.txt, with what they may handle."""
    lines = (TOP / "crates.txt").read_text().splitlines(keepends=True)
    (copy / "crates.txt").write_text("".join(line for line in lines if (words := line.replace(":", " ").split()) and words[0] in crates))
    shutil.copy(TOP / "HANDLES", copy)


def copy_sources(copy, crate, named):
    """Copies the sources of a crate and of those below it, which it gives."""
    crates = with_beneath([crate], named)
    for name in crates:
        for part in SOURCES:
            there = TOP / "crates" / name / part
            if there.is_dir():
                shutil.copytree(there, copy / "crates" / name / part)
    list_crates(copy, crates)
    return crates
