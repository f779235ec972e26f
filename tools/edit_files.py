"""Files of edits: what each replaces, and by what.

A file is lines `KEY: TEXT`. `file:` names a file; each pair `old:` and `new:` behind it replaces a text that stands there once, each pair in what the ones
before it made. U+23CE in a text stands for a line's end. What stands above the first `file:` says what the edit is: `law:` names the law that has to refuse a
weakening, `tests:` the tests that have to refuse a body, and `promise:` the promise of an edit of a crate, whose files are named from the crate's folder.
"""
import pathlib
from typing import NamedTuple

LINE_END = "\u23ce"
HEADS = ("law", "tests", "promise")
KEYS = (*HEADS, "file", "old", "new")


class Replacement(NamedTuple):
    file: str
    old: str
    new: str


class Edit(NamedTuple):
    """An edit by its file, the lines above its first `file:`, and what it replaces."""
    path: pathlib.Path
    head: dict
    replacements: list


class Misplaced(Exception):
    """A file is none of an edit, or a text does not stand there once."""


def edit_of(path):
    """What a file of an edit says."""
    head, given, replacements = {}, {}, []
    for line in path.read_text().splitlines():
        key, colon, text = line.partition(":")
        if key not in KEYS or not colon:
            raise Misplaced(f"{path.name} has a line that is none of an edit: {line[:80]}")
        text = text.removeprefix(" ").replace(LINE_END, "\n")
        if key in HEADS:
            head[key] = text
        given[key] = text
        if key == "new":
            replacements.append(Replacement(given["file"], given["old"], text))
    if not replacements:
        raise Misplaced(f"{path.name} replaces nothing")
    return Edit(path, head, replacements)


def edited(edit, folder):
    """The texts of the files that an edit changes, by their paths below a folder, as it makes them."""
    texts = {}
    for file, old, new in edit.replacements:
        path = folder / file
        text = texts[path] if path in texts else path.read_text()
        if text.count(old) != 1:
            raise Misplaced(f"{file} has {text.count(old)} times: {old.splitlines()[0][:80]}")
        texts[path] = text.replace(old, new)
    return texts


def make(edit, folder):
    """Makes an edit in a folder, and gives the texts that stood there, by their paths."""
    texts = edited(edit, folder)
    before = {path: path.read_text() for path in texts}
    put(texts)
    return before


def put(texts):
    for path, text in texts.items():
        path.write_text(text)
