#!/usr/bin/env python3
"""Refuses memory at each request for some in turn: to the built program over the worked scripts, or to the tests of a crate.

    python3 tools/refuse_memory.py PROGRAM [ROW ..]
    python3 tools/refuse_memory.py --tests TESTS ..      # also behind PROGRAM

For each worked script (all rows of crates/centre/data/rows, or these) it runs `PROGRAM script` again and again, and refuses the first, the
second, the third request for memory, and so on, until a run asks for less. Each of these runs must end with status 1 and one line on standard
error, and what it wrote until then must be the beginning of what is expected, up to the end of a line. The last run must write all of it, and
end as the row says.

TESTS is what `rt test` leaves of a crate, as crates/memory_tests/out/memory_tests_tests. Each of its tests is run in the same way, alone, and
has to pass in each run: it looks at what was answered, and makes the call again.

A library that is written and built here with gcc counts the calls of malloc and its kin; the dynamic linker puts it in front of the C
library's. Prints a line for each script or test: how many requests were refused. Runs go on side by side, one a processor.
"""
import argparse
import concurrent.futures
import os
import pathlib
import subprocess
import sys
import tempfile

ROWS = pathlib.Path(__file__).resolve().parent.parent / "crates" / "centre" / "data" / "rows"
REFUSER = r"""
#define _GNU_SOURCE
#include <dlfcn.h>
#include <errno.h>
#include <fcntl.h>
#include <stddef.h>
#include <stdlib.h>
#include <unistd.h>

static unsigned long left;
static const char *mark;

__attribute__((constructor)) static void begin(void)
{
    const char *number = getenv("REFUSED");
    left = number ? strtoul(number, NULL, 10) : 0;
    mark = getenv("REFUSED_MARK");
}

static int refused(void)
{
    if (left == 0 || --left > 0)
        return 0;
    if (mark)
        close(open(mark, O_CREAT | O_WRONLY, 0600));
    return 1;
}

#define REFUSE(name, parameters, arguments)               \
    void *name parameters                                 \
    {                                                     \
        static void *(*next) parameters;                  \
        if (!next)                                        \
            next = dlsym(RTLD_NEXT, #name);               \
        if (refused()) {                                  \
            errno = ENOMEM;                               \
            return NULL;                                  \
        }                                                 \
        return next arguments;                            \
    }

REFUSE(malloc, (size_t size), (size))
REFUSE(realloc, (void *block, size_t size), (block, size))
REFUSE(aligned_alloc, (size_t alignment, size_t size), (alignment, size))

int posix_memalign(void **block, size_t alignment, size_t size)
{
    static int (*next)(void **, size_t, size_t);
    if (!next)
        next = dlsym(RTLD_NEXT, "posix_memalign");
    return refused() ? ENOMEM : next(block, alignment, size);
}
"""


def built_refuser(work):
    source, refuser = work / "refuser.c", work / "refuser.so"
    source.write_text(REFUSER)
    subprocess.run(["gcc", "-O2", "-shared", "-fPIC", "-o", refuser, source, "-ldl"], check=True)
    return refuser


def run(refuser, command, script, number):
    """A run with this request refused, and whether it made so many."""
    with tempfile.TemporaryDirectory(prefix="refused-", dir=refuser.parent) as folder:
        mark = pathlib.Path(folder) / "mark"
        environment = {**os.environ, "LD_PRELOAD": str(refuser), "REFUSED": str(number), "REFUSED_MARK": str(mark)}
        ended = subprocess.run(command, input=script, capture_output=True, env=environment)
        return ended, mark.exists()


def text_of(row, suffix, default):
    path = row.with_suffix(suffix)
    return path.read_bytes() if path.exists() else default


class Script:
    """A worked script, which is refused once, or ends as it must."""

    def __init__(self, program, row):
        self.name, self.command = row.stem, [program, "script"]
        self.octets, self.expected = row.read_bytes(), row.with_suffix(".expected").read_bytes()
        self.status, self.told = int(text_of(row, ".status", b"0")), text_of(row, ".stderr", b"")

    def fault_in(self, ended, refused):
        """What is wrong with a run; None if nothing is."""
        if not refused:
            whole = (ended.returncode, ended.stdout, ended.stderr) == (self.status, self.expected, self.told)
            return None if whole else f"it ends otherwise: status {ended.returncode}, {ended.stderr!r}"
        if ended.returncode != 1:
            return f"status {ended.returncode}"
        if ended.stderr.count(b"\n") != 1:
            return f"standard error {ended.stderr!r}"
        if not self.expected.startswith(ended.stdout) or (ended.stdout and not ended.stdout.endswith(b"\n")):
            return f"output {ended.stdout!r}"
        return None


class Test:
    """A test of a crate, which passes, refused or not."""

    def __init__(self, tests, name):
        self.name, self.command, self.octets = name, [tests, name], b""

    def fault_in(self, ended, refused):
        if ended.returncode == 0 and ended.stdout.endswith(b"test result: ok\n"):
            return None
        return f"status {ended.returncode}, {(ended.stdout + ended.stderr).decode(errors='replace')}"


def refusals(tried, refuser):
    """How many requests for memory it makes; each was refused, in a run of its own."""
    number = 1
    while True:
        ended, refused = run(refuser, tried.command, tried.octets, number)
        fault = tried.fault_in(ended, refused)
        if fault:
            return number, fault
        if not refused:
            return number - 1, None
        number += 1


def tests_of(tests):
    listed = subprocess.run([tests, "--list"], capture_output=True, text=True, check=True).stdout
    return [Test(tests, line.removesuffix(": test")) for line in listed.splitlines() if line.endswith(": test")]


def all_tried(given):
    scripts = [ROWS / f"{name}.script" for name in given.rows] or sorted(ROWS.glob("*.script"))
    yield from (Script(given.program.resolve(), row) for row in scripts if given.program)
    yield from (test for tests in given.tests for test in tests_of(tests.resolve()))


def arguments_of():
    reader = argparse.ArgumentParser(description=__doc__, formatter_class=argparse.RawDescriptionHelpFormatter)
    reader.add_argument("program", metavar="PROGRAM", type=pathlib.Path, nargs="?")
    reader.add_argument("rows", metavar="ROW", nargs="*")
    reader.add_argument("--tests", metavar="TESTS", type=pathlib.Path, nargs="+", default=[])
    given = reader.parse_args()
    if not (given.program or given.tests):
        reader.error("name a program, or --tests")
    return given


def main():
    given, total, wrong = arguments_of(), 0, 0
    with tempfile.TemporaryDirectory(prefix="refuse-") as work, concurrent.futures.ThreadPoolExecutor(os.cpu_count()) as pool:
        refuser, all_of = built_refuser(pathlib.Path(work)), list(all_tried(given))
        for tried, (number, fault) in zip(all_of, pool.map(lambda tried: refusals(tried, refuser), all_of)):
            total += number
            if fault:
                wrong += 1
                print(f"not ok {tried.name}: request {number} for memory refused: {fault}", flush=True)
            else:
                print(f"{tried.name}: {number} requests refused", flush=True)
    print(f"{total:,} requests refused of {len(all_of)} scripts and tests, {wrong} wrong")
    sys.exit(1 if wrong else 0)


if __name__ == "__main__":
    main()
