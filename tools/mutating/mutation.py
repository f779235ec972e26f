"""A mutation, who has to refuse it, and what comes of trying it."""
import contextlib
import pathlib
import subprocess
from typing import NamedTuple


class Mutation(NamedTuple):
    """A wrong text by its file: the crate whose text it changes, and the one that is checked or tested with it, which may stand above."""
    kind: str
    crate: str
    judge: str
    file: pathlib.Path

    @property
    def name(self):
        return self.file.stem

    def __str__(self):
        return f"{self.kind} {self.crate}/{self.name}"


class Outcome(NamedTuple):
    is_refused: bool
    said: str


class How(NamedTuple):
    """By what command mutations are tried, how long a test may take, and what is cleaned up at the end."""
    rt: str
    seconds: int
    stack: contextlib.ExitStack

    def run(self, words, folder):
        return subprocess.run([self.rt, *words], cwd=folder, capture_output=True, text=True, errors="replace", stdin=subprocess.DEVNULL)
