#!/usr/bin/env python3
"""Tries the examples of use in the READMEs of the crates that are whole programs.

    python3 tools/readme_examples.py --try [CRATE ..]     # builds and runs the whole programs of these crates, or of all, unproved: half a minute each
    python3 tools/readme_examples.py --prove [CRATE ..]   # the same, proved: what is not proved below them is proved first

The README of each crate has a program that calls the crate, but for those of CALLED_BY_NOBODY and of crates of tests. The
program is a block with a `fn main`, or, if it is too long for that, the folder `examples/callers/CRATE`, which the README names. The README has its line for
`crates.txt`, as `caller: pdu_codec`, before the block or beside the folder's name, and behind that what it prints. A folder has what the crate `caller` has:
`src/main.rt` and, if its proof needs them, files in `proofs`; each file has `.in` behind its name, since `rt ci` refuses code that no check reads. To try a
program, the crates are copied to a folder of their own, with what is built of their libraries; there the program is the crate `caller`. This is beside the gate.

A block without a `fn main` is a part of a file, and comes after a sentence that names the file under `crates`. Each line of the block has to stand in the file
that was named last, in this order, as tools/check looks; so it is code that the gate proves.
"""
import argparse
import pathlib
import re
import shutil
import subprocess
import sys
import tempfile
from typing import NamedTuple

from repository import libraries

TOP = pathlib.Path(__file__).resolve().parent.parent
CRATES = TOP / "crates"
FOLDERS = TOP / "examples" / "callers"
BLOCK = re.compile(r"```rust\n(.*?)```", re.DOTALL)
FILE = re.compile(r"`([^`]+\.rt)`")
LINE, PRINTS = re.compile(r"`caller:\s+([\w\s]+)`"), re.compile(r"\sIt\s+prints\s+`([^`]*)`")
SOURCES = ("src", "specs", "proofs")
# Crates of definitions and of laws, which have nothing to call; the programs; and the server, whose caller can't be short.
CALLED_BY_NOBODY = {
    "mc_model", "mc_parts", "mc_laws", "node_model", "node_laws", "rest_laws", "table_laws", "arrival_laws", "node_runs", "journal_laws", "calm_laws", "world_fates",
    "octet_laws", "script_text", "esme_site", "centre", "earlier_stores", "server", "serve_status",
}


class Caller(NamedTuple):
    """A whole program: the crate whose README has it, what it stands on, what it prints, and its files by their paths."""
    crate: str
    beneath: str
    printed: str
    files: dict


def code(text):
    return [line.strip() for line in text.splitlines() if line.strip()]


def missing(block, lines):
    """The first line of a block that does not stand behind the line before it."""
    rest = iter(lines)
    return next((line for line in block if line not in rest), None)


def source(readme, before):
    """The file that was named last."""
    name = FILE.findall(before)[-1]
    return next(path for path in (CRATES / name, readme.parent / name) if path.exists())


def blocks():
    """Each README with each block of code in it."""
    for readme in sorted(CRATES.glob("*/README.md")):
        text = readme.read_text()
        for block in BLOCK.finditer(text):
            yield readme, text, block


def files_in(folder):
    """The files of a program by their paths in the crate `caller`."""
    return {str(path.relative_to(folder).with_suffix("")): path.read_text() for path in folder.rglob("*.in")}


def program_in(crate, text):
    """Where the program of a README stands, the text that has its line for crates.txt next to that, and its files; None if it has none."""
    for block in BLOCK.finditer(text):
        if "fn main(" in block.group(1):
            return block.end(), text[:block.start()], {"src/main.rt": block.group(1)}
    place = text.find(f"(../../examples/callers/{crate}/src/main.rt.in)")
    return None if place < 0 else (place, text[place:], files_in(FOLDERS / crate))


def callers():
    """The whole programs, each with the files that the README has or names."""
    for readme in sorted(CRATES.glob("*/README.md")):
        crate, text = readme.parent.name, readme.read_text()
        found = program_in(crate, text)
        if found:
            place, beside, files = found
            beneath, printed = LINE.findall(beside), PRINTS.search(text, place)
            if not beneath or not printed or "src/main.rt" not in files:
                sys.exit(f"{crate}: a program without its code, its line for crates.txt, or what it prints")
            yield Caller(crate, " ".join(beneath[-1].split()), " ".join(printed[1].split()), files)


def faults():
    """What is wrong with the parts of files, which crates have no program, and which folders no README names."""
    for readme, text, block in blocks():
        if "fn main(" not in block.group(1):
            path = source(readme, text[:block.start()])
            lost = missing(code(block.group(1)), code(path.read_text()))
            if lost:
                yield f"{readme.parent.name}: {path.name} has no line {lost!r}"
    called = {caller.crate for caller in callers()}
    for crate in libraries():
        if not crate.endswith("_tests") and (crate in called) == (crate in CALLED_BY_NOBODY):
            yield f"{crate}: its README has no program that calls it" if crate not in called else f"{crate}: it is called, though CALLED_BY_NOBODY names it"
    for folder in FOLDERS.iterdir():
        if folder.name not in called:
            yield f"{folder.name}: no README names its folder of examples/callers"


def copied(folder):
    """The crates in a folder of their own, with their built libraries."""
    for crate in (path for path in CRATES.iterdir() if path.is_dir()):
        for part in (*SOURCES, "out/rlib"):
            if (crate / part).is_dir():
                shutil.copytree(crate / part, folder / "crates" / crate.name / part)


def tried(folder, caller, command):
    """What is wrong with a program, if anything is."""
    crate = folder / "crates" / "caller"
    shutil.rmtree(crate, ignore_errors=True)
    for path, text in caller.files.items():
        (crate / path).parent.mkdir(parents=True, exist_ok=True)
        (crate / path).write_text(text)
    (folder / "crates.txt").write_text((TOP / "crates.txt").read_text() + f"caller: {caller.beneath}\n")
    ran = subprocess.run(["rt", command], cwd=crate, stdin=subprocess.DEVNULL, capture_output=True, text=True)
    if ran.returncode or ran.stdout != caller.printed + "\n":
        return f"{caller.crate}: status {ran.returncode}\n{ran.stdout}{ran.stderr}"
    return None


def try_callers(command, names):
    wrong = 0
    with tempfile.TemporaryDirectory() as name:
        folder = pathlib.Path(name)
        copied(folder)
        found = [caller for caller in callers() if not names or caller.crate in names]
        for caller in found:
            told = tried(folder, caller, command)
            print(told or f"{caller.crate}: {caller.printed}", flush=True)
            wrong += 1 if told else 0
    print(f"{len(found)} programs, {wrong} wrong")
    return wrong


def check():
    """How many examples there are, and what is wrong with them."""
    parts = sum(1 for _, _, block in blocks() if "fn main(" not in block.group(1))
    return f"{len(list(callers()))} programs, {parts} parts of files", list(faults())


def main():
    reader = argparse.ArgumentParser(description=__doc__, formatter_class=argparse.RawDescriptionHelpFormatter)
    way = reader.add_mutually_exclusive_group(required=True)
    way.add_argument("--try", dest="command", action="store_const", const="try")
    way.add_argument("--prove", dest="command", action="store_const", const="run")
    reader.add_argument("crates", metavar="CRATE", nargs="*")
    given = reader.parse_args()
    sys.exit(1 if try_callers(given.command, given.crates) else 0)


if __name__ == "__main__":
    main()
