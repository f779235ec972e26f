#!/usr/bin/env python3
"""Prints how many instructions one line more costs `centre script`, with 1,000, 10,000 and 90,000 messages.

The scripts are those of `bench/one_node.py`, with 900 more submits or queries, each with its settle, with ten more ticks at which nothing is due, at
the clock that the node has, at a later one, and at a later one once all messages have expired, or with a restart. The ticks come behind one that
is like them. Valgrind's callgrind counts the instructions, so that two runs on a busy machine print the same; it does not say what they cost if
memory is far. It takes half an hour, most of it for the 90,000. Give the built program as the argument:

    python3 bench/instructions.py crates/centre/out/centre
"""
import argparse
import re
import subprocess
import tempfile

from one_node import START, SUBMIT, messages, query, settled

MORE, TICKS = 900, 10
EXPIRED = START + 10 * 86_400
MOST_DELIVERIES = 100_000


def instructions(program, lines):
    """How many instructions a script takes."""
    with tempfile.TemporaryFile() as source:
        source.write(("\n".join(lines) + "\n").encode())
        source.seek(0)
        counter = ["valgrind", "--tool=callgrind", "--callgrind-out-file=/dev/null", program, "script"]
        run = subprocess.run(counter, stdin=source, stdout=subprocess.DEVNULL, stderr=subprocess.PIPE, text=True)
    return int(re.search(r"Collected : (\d+)", run.stderr).group(1))


def main():
    reader = argparse.ArgumentParser(description=__doc__, formatter_class=argparse.RawDescriptionHelpFormatter)
    reader.add_argument("program", metavar="PROGRAM")
    program = reader.parse_args().program
    for count in (1_000, 10_000, 90_000):
        lines = messages(count)
        base = instructions(program, lines)

        def more(extra):
            return instructions(program, lines + extra) - base

        def ticks(before, moments):
            """What a tick costs behind these lines, at these moments, of which the first is not counted."""
            first, *others = [f"tick 1 {moment}" for moment in moments]
            behind = lines + before + [first]
            return (instructions(program, behind + others) - instructions(program, behind)) // len(others)

        def seconds(first):
            return range(first, first + TICKS + 1)

        # All expire, by four packets each, of which a settle delivers so many at most.
        ended = [f"tick 1 {EXPIRED}"] + ["settle"] * (1 + 4 * count // MOST_DELIVERIES)
        serials = [1 + 97 * number % count for number in range(MORE)]
        print(
            f"{count} messages: "
            f"a submit_sm {more(settled([SUBMIT] * MORE)) // MORE}, "
            f"a query_sm {more(settled([query(serial) for serial in serials])) // MORE}, "
            f"a tick at the same moment {ticks([], [START] * (TICKS + 1))}, "
            f"a tick a second later {ticks([], seconds(START + 1))}, "
            f"a tick over as many that are decided {ticks(ended, seconds(EXPIRED + 1))}, "
            f"a restart {more(['restart 1'])}",
            flush=True,
        )


if __name__ == "__main__":
    main()
