#!/usr/bin/env python3
"""Prints processor time and the most memory of a script of 10,000, of 100,000 and of a million lines, each an enquire_link.

    python3 bench/lines.py PROGRAM ..

Give built programs, as of two commits, to compare them in one run. Memory that grows with the lines would show in the last column.
"""
import argparse
import os
import subprocess
import sys
import tempfile

BIND = "pdu 1 1 0000001e000000090000000000000001736d653100707731000034000000\n"
LINK = "pdu 1 1 00000010000000150000000000000002\n"


def cost(program, count):
    """Processor time in seconds, and the most memory in KiB, of a script of so many lines."""
    with tempfile.TemporaryFile("w+") as script:
        script.write("nodes 1\n" + BIND)
        for _ in range(count // 10_000):
            script.write(LINK * 10_000)
        script.seek(0)
        run = subprocess.Popen([program, "script"], stdin=script, stdout=subprocess.DEVNULL)
        _, status, used = os.wait4(run.pid, 0)
    if status:
        sys.exit(f"{program}: status {status}")
    return used.ru_utime + used.ru_stime, used.ru_maxrss


def main():
    reader = argparse.ArgumentParser(description=__doc__, formatter_class=argparse.RawDescriptionHelpFormatter)
    reader.add_argument("programs", metavar="PROGRAM", nargs="+")
    for program in reader.parse_args().programs:
        for count in (10_000, 100_000, 1_000_000):
            seconds, memory = cost(program, count)
            print(f"{program}: {count} lines: {seconds:.2f} s, {seconds / count * 1e6:.1f} microseconds a line, {memory} KiB", flush=True)


if __name__ == "__main__":
    main()
