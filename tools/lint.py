#!/usr/bin/env python3
"""Says which lines of scripts are bad, and why: `centre script` says of the first one its number alone, and stops there.

    python3 tools/lint.py SCRIPT ..

The exit status is 1 if a line is bad, or a file can't be read. docs/SCRIPTS.md has the lines of a script.
"""
import argparse
import pathlib
import sys

from script_lines import MOST_NODES, Bad, read_line


def faults(script):
    """The bad lines of a script, by their numbers from 1, and why each is bad."""
    count = 0
    for place, line in enumerate(script.split("\n"), start=1):
        try:
            said = read_line(line, count)
        except Bad as fault:
            yield place, str(fault)
            said = None if count else ("nodes", MOST_NODES, 1)
        if said and said[0] == "nodes":
            count = said[1]


def main():
    reader = argparse.ArgumentParser(description=__doc__, formatter_class=argparse.RawDescriptionHelpFormatter)
    reader.add_argument("scripts", metavar="SCRIPT", nargs="+")
    bad = []
    for name in reader.parse_args().scripts:
        try:
            script = pathlib.Path(name).read_bytes().decode("latin-1")
        except OSError as fault:
            sys.exit(f"{name}: {fault.strerror}")
        bad += [f"{name}:{place}: {reason}" for place, reason in faults(script)]
    print(*bad, f"{len(bad)} bad line{'' if len(bad) == 1 else 's'}", sep="\n")
    sys.exit(1 if bad else 0)


if __name__ == "__main__":
    main()
