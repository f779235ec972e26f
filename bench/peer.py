#!/usr/bin/env python3
"""Prints what `centre script` costs beside a plain Rust program that prints the same octets, bench/peer.

    python3 bench/peer.py PROGRAM [SCRIPTS]

It builds the peer by rustc -O, and first compares what both print for SCRIPTS scripts by lot (300) and for each script that it measures: it ends if they are
not the same. Then it prints a table. Instructions are counted by Valgrind's callgrind, blocks of memory by its memcheck, memory by GNU time. Each figure is
the difference of two scripts, of which one has more of the same lines, for each of these. A packet that comes again does so by a `deliver` line, less what such
a line costs: what a Prepare costs by it more than by `replay`. The program may be an unproved one. It takes some three minutes, and needs rustc (1.88 or
later) and Debian's valgrind and time: it says which it lacks.
"""
import argparse
import concurrent.futures
import os
import pathlib
import re
import shutil
import subprocess
import sys
import tempfile
import typing

TOP = pathlib.Path(__file__).resolve().parent.parent
sys.path.insert(0, str(TOP / "bench" / "peer"))

import scripts

SCRIPTS, JOBS = 300, 2
NODES = (1, 3, 9)
# The status with which the peer ends at what it can't do.
UNABLE = 2
MORE, LINES, TIMES = 100, 400, 200
FEW_LIVES, MORE_LIVES, MANY_LIVES = 20, 60, 620
LIVE, TICKS = (1_000, 10_000), 10
SESSIONS = 40


def found(tool):
    """The path of a tool; rustc may stand where rustup puts it."""
    path = shutil.which(tool, path=f"{os.environ['PATH']}:{pathlib.Path.home()}/.cargo/bin")
    if not path:
        sys.exit(f"bench/peer.py needs {tool}, which is not here")
    return path


def built_peer(work):
    subprocess.run([found("rustc"), "--edition", "2024", "-O", "-o", work / "peer", TOP / "bench" / "peer" / "peer.rs"], check=True)
    return work / "peer"


def run(program, lines, before=()):
    """A run of a script, behind the words of a tool."""
    text = ("\n".join(lines) + "\n").encode()
    return subprocess.run([*before, program, "script"], input=text, capture_output=True)


def compare(programs, lines):
    """Whether the peer can do all lines, and then both print the same; ends if they do not."""
    ours, peers = [run(program, lines) for program in programs]
    if peers.returncode == UNABLE and ours.returncode == 0:
        return False
    if (ours.stdout, ours.returncode) != (peers.stdout, peers.returncode):
        path = pathlib.Path(tempfile.gettempdir()) / "peer.script"
        path.write_text("\n".join(lines) + "\n")
        sys.exit(f"the programs do not print the same, or do not end with the same status, for {path}: {peers.stderr.decode()}")
    return True


def instructions(program, lines):
    counted = run(program, lines, [found("valgrind"), "--tool=callgrind", "--callgrind-out-file=/dev/null"])
    return int(re.search(rb"Collected : (\d+)", counted.stderr)[1])


def peak(program, lines):
    """The peak memory, in octets."""
    return 1024 * int(run(program, lines, [found("time"), "-f", "%M"]).stderr.split()[-1])


def blocks(program, lines):
    """How many blocks of memory it takes, a block that grows among them."""
    counted = run(program, lines, [found("valgrind"), "--tool=memcheck", "--leak-check=no", "--undef-value-errors=no"])
    return int(re.search(rb"total heap usage: ([\d,]+) allocs", counted.stderr)[1].replace(b",", b""))


class Row(typing.NamedTuple):
    """What is measured, over what: a script, and the lines that another has more, which are so many times what is measured."""
    what: str
    over: str
    base: list
    more: list
    times: int


def requests():
    """Lines of each request, with their settles."""
    yield Row("an enquire_link", "1 node", scripts.bound(1), [f"pdu 1 1 {scripts.ENQUIRE_LINK}"] * LINES, LINES)
    serials = range(1, MORE + 1)
    kinds = {
        "a submit_sm with its settle": [scripts.SUBMIT] * MORE,
        "a query_sm with its settle": [scripts.query(serial) for serial in serials],
        "a cancel_sm with its settle": [scripts.cancel(serial) for serial in serials],
    }
    for what, pdus in kinds.items():
        for nodes in NODES:
            base = scripts.bound(nodes) + scripts.settled([scripts.SUBMIT] * MORE)
            yield Row(what, over(nodes), base, scripts.settled(pdus), MORE)


def all_lives(few, more):
    for nodes in NODES:
        base = scripts.lives(nodes, few)
        yield Row("a life: submit_sm, attempt, answer, receipt", over(nodes), base, scripts.lives(nodes, more)[len(base):], more - few)


def ticks():
    """Ticks of which one more comes before those that are counted."""
    moments = [f"tick 1 {scripts.START + second}" for second in range(1, TICKS + 2)]
    for live in LIVE:
        base = scripts.bound(1) + scripts.settled([scripts.SUBMIT] * live) + moments[:1]
        yield Row("a tick at which nothing is due", f"1 node with {live:,} live messages", base, moments[1:], TICKS)


def again(numbers, nodes):
    return [f"deliver {number} {node}" for _ in range(TIMES) for number in numbers for node in nodes]


def packets():
    """Packets of a submit_sm and a query_sm over three nodes, by lines of their own."""
    base = scripts.bound(3) + scripts.settled([scripts.SUBMIT, scripts.query(1)])
    kinds = {
        "a Prepare again": ([1], [1, 2, 3]),
        "a Promise again, to the node that prepares": ([2, 3, 4], [1]),
        "a Promise again, to another node": ([2, 3, 4], [2, 3]),
        "a Propose again": ([5], [1, 2, 3]),
        "a Voted again": ([6, 7, 8], [1, 2, 3]),
        "an Ask again": ([9], [1, 2, 3]),
        "a Tell again, to the node that asks": ([10, 11, 12], [1]),
        "a Tell again, to another node": ([10, 11, 12], [2, 3]),
    }
    for what, (numbers, nodes) in kinds.items():
        lines = again(numbers, nodes)
        yield Row(what, over(3), base, lines, len(lines))
    taken = scripts.bound(3) + [line for message in range(MORE) for line in scripts.taken_but_the_last(message)]
    yield Row("the third Voted, for the first time", over(3), taken, [f"deliver {8 * message + 8} 1" for message in range(MORE)], MORE)


def prepares():
    """A Prepare that comes again while its round runs: by lines of its own, and by one line."""
    base = [*scripts.bound(3), f"pdu 1 1 {scripts.SUBMIT}"]
    lines = again([1], [1, 2, 3])
    return Row("", "", [*base, "replay 1"], lines, len(lines)), Row("", "", base, [f"replay {TIMES}"], len(lines))


def submits():
    """A submit_sm before its settle, ten on each session, and an enquire_link, for blocks of memory."""
    sessions = range(1, SESSIONS + 1)
    base = ["nodes 1", *(f"pdu 1 {session} {scripts.BIND}" for session in sessions)]
    for what, pdu in {"a submit_sm before its settle": scripts.SUBMIT_OWN, "an enquire_link": scripts.ENQUIRE_LINK}.items():
        lines = [f"pdu 1 {session} {pdu}" for session in sessions for _ in range(scripts.WINDOW)]
        yield Row(what, "1 node", base, lines, len(lines))


def over(nodes):
    return "1 node" if nodes == 1 else f"{nodes} nodes"


class Table:
    """Prints rows of what two programs take."""

    def __init__(self, programs, pool):
        self.programs, self.pool = programs, pool
        print("| What | Over | Unit | This centre | The peer | Times |\n|---|---|---|---|---|---|", flush=True)

    def figures(self, count, row):
        """What each program takes more for what is measured."""
        longer = row.base + row.more
        if not compare(self.programs, longer):
            sys.exit(f"the peer can't do what is measured: {row.what}")
        counted = [(self.pool.submit(count, program, longer), self.pool.submit(count, program, row.base)) for program in self.programs]
        return [(more.result() - base.result()) / row.times for more, base in counted]

    def put(self, row, unit, figures, digits=0):
        ours, peers = figures
        times = f"{ours / peers:.1f}" if peers > 0 else ""
        print(f"| {row.what} | {row.over} | {unit} | {ours:,.{digits}f} | {peers:,.{digits}f} | {times} |", flush=True)

    def put_each(self, rows, unit, count, digits=0, less=(0, 0)):
        for row in rows:
            self.put(row, unit, [figure - known for figure, known in zip(self.figures(count, row), less)], digits)


def packets_sent(row, nodes):
    """The row for each packet that is sent for a life."""
    return row._replace(what="memory for a packet that is sent, with all that nodes keep of it", times=row.times * 4 * (2 + 2 * nodes))


def tell_all(table):
    table.put_each(requests(), "instructions", instructions)
    table.put_each(all_lives(FEW_LIVES, MORE_LIVES), "instructions", instructions)
    by_line, by_replay = [table.figures(instructions, row) for row in prepares()]
    lines = [line - replay for line, replay in zip(by_line, by_replay)]
    table.put(Row("a deliver line, without what comes of its packet", over(3), [], [], 1), "instructions", lines)
    table.put_each(packets(), "instructions", instructions, less=lines)
    table.put_each(ticks(), "instructions", instructions)
    table.put_each(submits(), "blocks", blocks, 2)
    table.put_each(all_lives(FEW_LIVES, MORE_LIVES), "blocks", blocks, 1)
    table.put_each(map(packets_sent, all_lives(FEW_LIVES, MANY_LIVES), NODES), "octets", peak)


def main():
    reader = argparse.ArgumentParser(description=__doc__, formatter_class=argparse.RawDescriptionHelpFormatter)
    reader.add_argument("program", metavar="PROGRAM", type=pathlib.Path)
    reader.add_argument("scripts", metavar="SCRIPTS", type=int, nargs="?", default=SCRIPTS)
    given = reader.parse_args()
    for tool in ("rustc", "valgrind", "time"):
        found(tool)
    with tempfile.TemporaryDirectory(prefix="peer-") as folder, concurrent.futures.ThreadPoolExecutor(JOBS) as pool:
        work = pathlib.Path(folder)
        programs = [given.program.resolve(), built_peer(work)]
        same = sum(compare(programs, scripts.by_lot(seed)) for seed in range(given.scripts))
        print(f"{same} of {given.scripts} scripts by lot: both programs print the same; the others the peer can't do.\n", flush=True)
        tell_all(Table(programs, pool))


if __name__ == "__main__":
    main()
