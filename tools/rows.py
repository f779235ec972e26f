#!/usr/bin/env python3
"""The worked scripts of `crates/centre/data/rows`: NAME.script with NAME.expected, and, if they are not 0 and empty, NAME.status
and NAME.stderr; and after them the examples of `tools/examples.py`: the first script, the folder `examples`, and `docs/SCRIPTS.md`.

    python3 tools/rows.py --write            # writes the tests' crates/script_tests/src/rows.rt
    python3 tools/rows.py --run PROGRAM      # runs a built program, as crates/centre/out/centre, on each script, also without its last line feed

A script of more than 8,000 octets is left out of the file, and is run by `--run` alone. tools/check looks whether the file is what the folder says.
"""
import argparse
import pathlib
import subprocess
import sys

import examples

ROOT = pathlib.Path(__file__).resolve().parent.parent
FOLDER = ROOT / "crates/centre/data/rows"
FILE = ROOT / "crates/script_tests/src/rows.rt"
LONGEST = 8_000

HEAD = '''//! The worked scripts of `crates/centre/data/rows`, and the examples. Written by `tools/rows.py`.

/// Each with what it writes, a line each: its name, its lines, the lines of its output, its exit status, and its line on standard
/// error. A semicolon ends a line.
pub const ROWS: &str = "\\
'''


def rows():
    for path in sorted(FOLDER.glob("*.script")):
        def text(kind):
            other = path.with_suffix(kind)
            return other.read_text() if other.exists() else ""

        yield path.stem, path.read_text(), text(".expected"), int(text(".status") or 0), text(".stderr")
    yield from examples.first_script()
    yield from examples.in_folder()
    yield from examples.in_page()


def rust():
    out = [HEAD]
    for row in rows():
        if len(row[1]) <= LONGEST:
            fields = [str(field) for field in row]
            assert not any(it in field for field in fields for it in ';|"\\'), row[0]
            out.append("|".join(fields).replace("\n", ";") + "\\n\\\n")
    return "".join(out) + '";\n'


def run(program):
    wrong = 0
    for name, script, output, status, told in rows():
        for text in {script, script.removesuffix("\n")}:
            ran = subprocess.run([program, "script"], input=text, capture_output=True, text=True)
            if (ran.stdout, ran.returncode, ran.stderr.strip()) != (output, status, told.strip()):
                wrong += 1
                print(f"{name}: status {ran.returncode}, {ran.stderr.strip()!r}\n{ran.stdout}")
    print(f"{len(list(rows()))} scripts, {wrong} wrong")
    return wrong == 0


def check():
    """How many scripts there are, and whether the tests have them."""
    wrong = [] if FILE.read_text() == rust() else [f"{FILE.relative_to(ROOT)} is not what they say: python3 tools/rows.py --write"]
    return f"{len(list(rows()))} scripts and examples", wrong


def main():
    reader = argparse.ArgumentParser(description=__doc__, formatter_class=argparse.RawDescriptionHelpFormatter)
    way = reader.add_mutually_exclusive_group(required=True)
    way.add_argument("--write", action="store_true")
    way.add_argument("--run", metavar="PROGRAM")
    given = reader.parse_args()
    if given.write:
        FILE.write_text(rust())
    else:
        sys.exit(0 if run(given.run) else 1)


if __name__ == "__main__":
    main()
