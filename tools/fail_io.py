#!/usr/bin/env python3
"""Lets a read or a write of the built program fail, at each of its places in turn, over the worked scripts; and lets both come in pieces and be interrupted.

    python3 tools/fail_io.py PROGRAM [ROW ..]

For each script that ends well (all rows of crates/centre/data/rows, or these) it runs `PROGRAM script`

- with the first, the second, the third read failed, and so on, until a run makes fewer: status 1, one line on standard error, and output that is the
  beginning of what is expected, up to the end of a line, and holds the text of each line of the script that had come whole;
- likewise with each write failed: status 1 and one line, and output that is the beginning of what is expected;
- with reads and writes of 1, 2, 3 and 7 octets at most, and with every second read and write interrupted: all of the output, and status 0.

A library that is written and built here with gcc stands in front of the C library's `read` and `write`. Prints a line for each script;
the exit status is 1 if something did not hold.
"""
import argparse
import os
import pathlib
import subprocess
import sys
import tempfile

ROWS = pathlib.Path(__file__).resolve().parent.parent / "crates" / "centre" / "data" / "rows"
# Each read gives so many octets while reads fail, so that a script has as many places.
PACE = 64
FAILER = r"""
#define _GNU_SOURCE
#include <dlfcn.h>
#include <errno.h>
#include <stdlib.h>
#include <unistd.h>

static unsigned long number(const char *name)
{
    const char *text = getenv(name);
    return text ? strtoul(text, NULL, 10) : 0;
}

#define STAND_IN(name, buffer_type, descriptors, FAIL)                  \
    ssize_t name(int descriptor, buffer_type buffer, size_t count)      \
    {                                                                   \
        static ssize_t (*next)(int, buffer_type, size_t);               \
        static unsigned long calls, turns;                              \
        if (!next)                                                      \
            next = dlsym(RTLD_NEXT, #name);                             \
        if (!(descriptors))                                             \
            return next(descriptor, buffer, count);                     \
        if (number("INTERRUPTS") && turns++ % 2 == 0) {                 \
            errno = EINTR;                                              \
            return -1;                                                  \
        }                                                               \
        if (++calls == number(FAIL)) {                                  \
            errno = EIO;                                                \
            return -1;                                                  \
        }                                                               \
        unsigned long pace = number("PACE");                            \
        return next(descriptor, buffer, pace && pace < count ? pace : count); \
    }

STAND_IN(read, void *, descriptor == 0, "FAILED_READ")
STAND_IN(write, const void *, descriptor == 1, "FAILED_WRITE")
"""


class Wrong(Exception):
    """A run is not as it has to be."""


def built_failer(work):
    source, failer = work / "failer.c", work / "failer.so"
    source.write_text(FAILER)
    subprocess.run(["gcc", "-O2", "-shared", "-fPIC", "-o", failer, source, "-ldl"], check=True)
    return failer


def run(program, script, failer, **how):
    environment = {**os.environ, "LD_PRELOAD": str(failer), **{name: str(value) for name, value in how.items()}}
    return subprocess.run([program, "script"], input=script, capture_output=True, env=environment)


def whole_lines(script, octets):
    """What of a script had come in whole lines, of so many octets."""
    come = script[:octets]
    return come[: come.rfind(b"\n") + 1]


def fault_in(ended, expected):
    """What is wrong with a run that failed; None if nothing is."""
    if ended.returncode != 1:
        return f"status {ended.returncode}"
    if ended.stderr.count(b"\n") != 1:
        return f"standard error {ended.stderr!r}"
    if not expected.startswith(ended.stdout):
        return f"output {ended.stdout!r}"
    return None


def failed_reads(program, row, failer):
    """How many reads a script takes; each failed, in a run of its own."""
    script, expected = row.read_bytes(), row.with_suffix(".expected").read_bytes()
    number = 1
    while True:
        ended = run(program, script, failer, FAILED_READ=number, PACE=PACE)
        if ended.returncode == 0 and ended.stdout == expected:
            return number - 1
        fault = fault_in(ended, expected)
        wanted = run(program, whole_lines(script, (number - 1) * PACE), failer).stdout
        if fault or ended.stdout != wanted:
            raise Wrong(f"read {number} failed: {fault or 'not the text of the lines that came'}")
        number += 1


def failed_writes(program, row, failer):
    """How many writes a script takes; each failed, in a run of its own."""
    script, expected = row.read_bytes(), row.with_suffix(".expected").read_bytes()
    number = 1
    while True:
        ended = run(program, script, failer, FAILED_WRITE=number)
        if ended.returncode == 0 and ended.stdout == expected:
            return number - 1
        fault = fault_in(ended, expected)
        if fault:
            raise Wrong(f"write {number} failed: {fault}")
        number += 1


def check_paces(program, row, failer):
    """That a script writes the same however its octets come and go."""
    script, expected = row.read_bytes(), row.with_suffix(".expected").read_bytes()
    for pace in (1, 2, 3, 7):
        for interrupts in (0, 1):
            ended = run(program, script, failer, PACE=pace, INTERRUPTS=interrupts)
            if ended.returncode or ended.stdout != expected:
                raise Wrong(f"by {pace} octets, interrupted {interrupts}: status {ended.returncode}")


def main():
    reader = argparse.ArgumentParser(description=__doc__, formatter_class=argparse.RawDescriptionHelpFormatter)
    reader.add_argument("program", metavar="PROGRAM", type=pathlib.Path)
    reader.add_argument("rows", metavar="ROW", nargs="*")
    given = reader.parse_args()
    program, count, wrong = given.program.resolve(), 0, 0
    rows = [ROWS / f"{name}.script" for name in given.rows] or [row for row in sorted(ROWS.glob("*.script")) if not row.with_suffix(".status").exists()]
    with tempfile.TemporaryDirectory(prefix="fail-") as work:
        failer = built_failer(pathlib.Path(work))
        for row in rows:
            try:
                check_paces(program, row, failer)
                reads, writes = failed_reads(program, row, failer), failed_writes(program, row, failer)
            except Wrong as fault:
                wrong += 1
                print(f"not ok {row.stem}: {fault}", flush=True)
            else:
                count += reads + writes
                print(f"{row.stem}: {reads} reads and {writes} writes failed", flush=True)
    print(f"{count:,} reads and writes failed of {len(rows)} scripts, {wrong} wrong")
    sys.exit(1 if wrong else 0)


if __name__ == "__main__":
    main()
