#!/usr/bin/env python3
"""Prints by how many ways `rt` goes down from each crate of crates.txt.

    python3 tools/libraries.py --ways

Before each check `rt` sums up the files of all libraries along each way through crates.txt, so each needless entry multiplies what every crate above waits for.
tools/check looks whether each crate lists just the libraries that its sources name.
"""
import argparse
import functools

from repository import libraries, named_in, sources, with_beneath


def needless(crate, named):
    """The libraries that a crate lists and names nowhere. (One that it names and does not list is told by the check of the crate.)"""
    found = set().union(*(named_in(file.read_text()) for file in sources(crate)))
    return [library for library in named[crate] if library not in found]


def ways_down(named):
    """How many ways lead down from each crate; the one that goes nowhere is counted, too."""

    @functools.cache
    def ways(crate):
        return 1 + sum(ways(library) for library in named[crate] if library in named)

    return {crate: ways(crate) for crate in named}


def check():
    """How many entries there are, and which are needless."""
    named = libraries()
    wrong = [f"{crate} lists {library}, and names it nowhere" for crate in named for library in needless(crate, named)]
    return f"{sum(map(len, named.values()))} entries", wrong


def main():
    parser = argparse.ArgumentParser(description=__doc__, formatter_class=argparse.RawDescriptionHelpFormatter)
    parser.add_argument("--ways", action="store_true", required=True, help="print the ways of each crate, and what a check of it sums up")
    parser.parse_args()
    named = libraries()
    ways = ways_down(named)
    for crate in named:
        print(f"{ways[crate]:7} ways, {sum(ways[name] for name in with_beneath([crate], named)):7} with those of all below  {crate}")


if __name__ == "__main__":
    main()
