#!/usr/bin/env python3
"""Prints what memory a message takes in `centre script` once it has ended, by the function that asked for it.

    python3 bench/memory.py PROGRAM

It plays messages from their submit_sm to their receipts over one node, three and nine, as `bench/peer.py` does, and has Valgrind's massif tell what is held
behind the last of them: octets a message, of all nodes together, each put down to the first function of this program on its way. The packets are those of the
function that takes a step (`Member::take`); where a build has no name for who asked, there is `???`: the list of a store's records. A list grows to twice its
length, so what lists take is between what they hold and twice that. The program may be an unproved one. It takes seconds, and needs Debian's valgrind.
"""
import argparse
import collections
import pathlib
import re
import shutil
import subprocess
import sys
import tempfile

TOP = pathlib.Path(__file__).resolve().parent.parent
sys.path.insert(0, str(TOP / "bench" / "peer"))

import scripts

NODES = (1, 3, 9)
MESSAGES = 1_000
# Less than this a message is put down to the rest.
LEAST = 5
# Functions of libraries, which ask for whoever called them.
OF_LIBRARIES = re.compile(r"\?\?\?|\(heap|rattle_|std|core::|malloc|realloc|calloc")
ENTRY = re.compile(r"\s*n(\d+): (\d+) (?:0x[0-9A-F]+: )?(.*)")
SNAPSHOT = "#-----------\nsnapshot="


def snapshots(program, lines, work):
    out = work / "massif"
    words = ["valgrind", "--tool=massif", "--detailed-freq=1", "--max-snapshots=20", "--threshold=0.1", f"--massif-out-file={out}"]
    subprocess.run([*words, program, "script"], input="\n".join(lines).encode() + b"\n", capture_output=True, check=True)
    return out.read_text().split(SNAPSHOT)[1:]


def last_whole(found):
    """The last snapshot before the program lets all go: the newest of those that hold the most but for one that is larger for a moment."""
    held = [int(re.search(r"mem_heap_B=(\d+)", one)[1]) for one in found]
    return next(one for one, octets in reversed(list(zip(found, held))) if octets > max(held) / 2 and "heap_tree=empty" not in one)


def add_sites(entries, sites):
    """Reads one entry of the tree with those below it."""
    below, octets, name = ENTRY.match(next(entries)).groups()
    if OF_LIBRARIES.match(name) and int(below):
        for _ in range(int(below)):
            add_sites(entries, sites)
        return
    sites[re.sub(r" \(.*| in \d+ places?.*|::<.*", "", name)] += int(octets)
    skip(entries, int(below))


def skip(entries, below):
    for _ in range(below):
        skip(entries, int(ENTRY.match(next(entries))[1]))


def main():
    reader = argparse.ArgumentParser(description=__doc__, formatter_class=argparse.RawDescriptionHelpFormatter)
    reader.add_argument("program", metavar="PROGRAM")
    program = reader.parse_args().program
    if not shutil.which("valgrind"):
        sys.exit("valgrind is not here")
    for nodes in NODES:
        with tempfile.TemporaryDirectory() as work:
            found = snapshots(program, scripts.lives(nodes, MESSAGES), pathlib.Path(work))
        sites = collections.Counter()
        add_sites((line for line in last_whole(found).splitlines() if ENTRY.match(line)), sites)
        print(f"{nodes} node{'s' if nodes > 1 else ''}, {MESSAGES:,} messages: {sum(sites.values()) / MESSAGES:,.0f} octets a message")
        for name, octets in sites.most_common():
            if octets >= LEAST * MESSAGES:
                print(f"    {octets / MESSAGES:7.0f}  {name}")


if __name__ == "__main__":
    main()
