#!/usr/bin/env python3
"""Prints what a message costs from its submit_sm to its delivery receipt, over 1, 3, 5 and 9 nodes, with 100, 1,000 and 10,000 messages.

An ESME submits ten messages at node 1, with receipts; behind their settle comes a tick, by which the attempts are agreed on; they are granted, answered
and reported, and the receipts answered; then the next ten. So a message takes four rounds, of a Prepare, a Promise of each node, a Propose and a Voted of
each, which come to all nodes. Printed are the processor time of a message, less that of a script without messages, how many times that of a tenth of the
messages it is, the time of each packet that comes to a node, what a settle with nothing to deliver costs at the end, and the
peak memory of each packet that was sent, which has what the nodes keep of it. The time is the best of three runs, or that of one if it takes above
ten seconds; GNU time measures the memory in a run of its own, in which the receipts are counted. Give the built program, and how many
seconds a run may take: a longer one, as the tenth of its messages tells, is left out (300 if none are given).

    python3 bench/cluster.py crates/centre/out/centre [SECONDS]
    python3 bench/cluster.py --instructions crates/centre/out/centre      # counts with Valgrind's callgrind, up to 1,000 messages: 20 minutes
    python3 bench/cluster.py --others crates/centre/out/centre            # counts a submit_sm at node 1 beside messages of node 3: 10 minutes

It runs an unproved program as well; what `rt try` builds looks for faults of memory as it runs, which takes a hundred times as long, and more memory.
"""
import argparse
import os
import subprocess
import sys
import tempfile

from instructions import instructions
from one_node import BIND, START, processor_time

SUBMIT = "0000002900000004000000000000000200010131343400010131353500000000000001000000024869"
# The same for a day later.
LATER = "000000390000000400000000000000020001013134340001013135350000000030303030303130303030303030303052000001000000024869"
RECEIPT = b"stat:DELIVRD".hex().encode()
WINDOW = 10
SETTLES = 1_000
RUNS = 3
LONG = 10
OTHERS, MORE = (0, 30_000, 90_000), 500


def answers(first):
    return [f"pdu 1 1 000000118000000500000000{sequence:08x}00" for sequence in range(first, first + WINDOW)]


def ten_messages(batch):
    serials = range(WINDOW * batch + 1, WINDOW * (batch + 1) + 1)
    sequence = 2 * WINDOW * batch + 1
    submits = [f"pdu 1 1 {SUBMIT}"] * WINDOW
    grants = [f"grant 1 10001{serial:05d}" for serial in serials]
    decided = [*submits, "settle", f"tick 1 {START}", "settle"]
    return [*decided, *grants, *answers(sequence), "settle", *answers(sequence + WINDOW)]


def script(nodes, messages):
    return [f"nodes {nodes}", f"pdu 1 1 {BIND}"] + [line for batch in range(messages // WINDOW) for line in ten_messages(batch)]


def with_a_stop(nodes, lines):
    """The same script, in which the last node stops at the first packet and stays down."""
    first = lines.index(f"pdu 1 1 {SUBMIT}") + 1
    return lines[:first] + [f"crash {nodes} 1 before"] + lines[first:]


def packets(nodes):
    """How many packets are sent for one message."""
    return 4 * (2 + 2 * nodes)


def seconds_of(program, lines):
    with tempfile.TemporaryFile() as source, open(os.devnull, "wb") as nowhere:
        source.write(("\n".join(lines) + "\n").encode())
        source.flush()
        first = processor_time(program, source, nowhere)
        return min([first] + [processor_time(program, source, nowhere) for _ in range(RUNS - 1) if first < LONG])


def peak_of(program, lines, receipts):
    """The peak memory in octets of a run that writes so many receipts."""
    with tempfile.TemporaryFile() as source:
        source.write(("\n".join(lines) + "\n").encode())
        source.seek(0)
        run = subprocess.run(["/usr/bin/time", "-f", "%M", program, "script"], stdin=source, capture_output=True)
    if run.returncode != 0 or run.stdout.count(RECEIPT) != receipts:
        sys.exit(f"the program ended with status {run.returncode} and {run.stdout.count(RECEIPT)} receipts")
    return 1024 * int(run.stderr.split()[-1])


def rows(program, nodes, most):
    """A row for each number of messages."""
    empty = script(nodes, 0)
    start, least, before = seconds_of(program, empty), peak_of(program, empty, 0), None
    for messages in (100, 1_000, 10_000):
        if before and before * messages > most:
            return
        lines = script(nodes, messages)
        whole = seconds_of(program, lines)
        each = (whole - start) / messages
        settle = (seconds_of(program, lines + ["settle"] * SETTLES) - whole) / SETTLES
        memory = (peak_of(program, lines, messages) - least) / (messages * packets(nodes))
        times = f"{each / before:.2f}" if before else ""
        yield nodes, messages, f"{1e6 * each:.0f}", times, f"{1e6 * each / (nodes * packets(nodes)):.1f}", f"{1e6 * settle:.1f}", f"{memory:.0f}"
        before = each


def settle_with_a_stop(program, nodes, lines):
    """The instructions of a settle of nothing while the last node is down."""
    stopped = with_a_stop(nodes, lines)
    return (instructions(program, stopped + ["settle"] * SETTLES) - instructions(program, stopped)) / SETTLES


def counts(program, nodes):
    """A row for each number of messages, in instructions."""
    start, before = instructions(program, script(nodes, 0)), None
    for messages in (100, 1_000):
        lines = script(nodes, messages)
        whole = instructions(program, lines)
        each = (whole - start) / messages
        settle = (instructions(program, lines + ["settle"] * SETTLES) - whole) / SETTLES
        down = f"{settle_with_a_stop(program, nodes, lines):,.0f}" if nodes > 1 else ""
        times = f"{each / before:.2f}" if before else ""
        yield nodes, messages, f"{each:,.0f}", times, f"{each / (nodes * packets(nodes)):,.0f}", f"{settle:,.0f}", down
        before = each


def beside_others(program):
    """A row for each number of messages of node 3, all for a day later: the instructions of another submit_sm with its settle at node 1, and at node 3."""
    bound = ["nodes 3", f"pdu 1 1 {BIND}", f"pdu 3 1 {BIND}"]
    ticks = [f"tick {node} {START}" for node in (1, 2, 3)]
    for count in OTHERS:
        lines = bound + ([f"pdu 3 1 {LATER}"] * WINDOW + ["settle"]) * (count // WINDOW) + ticks
        whole = instructions(program, lines)
        more = [instructions(program, lines + [f"pdu {node} 1 {LATER}", "settle"] * MORE) for node in (1, 3)]
        yield f"{count:,}", *(f"{(one - whole) / MORE:,.0f}" for one in more)


def main():
    reader = argparse.ArgumentParser(description=__doc__, formatter_class=argparse.RawDescriptionHelpFormatter)
    reader.add_argument("program", metavar="PROGRAM", type=os.path.abspath)
    reader.add_argument("seconds", metavar="SECONDS", type=float, nargs="?", default=300)
    reader.add_argument("--instructions", action="store_true")
    reader.add_argument("--others", action="store_true")
    given = reader.parse_args()
    if given.others:
        print("| Messages of node 3 | A submit_sm with its settle at node 1 | At node 3 |\n|---|---|---|")
        for row in beside_others(given.program):
            print("|", " | ".join(row), "|", flush=True)
        return
    if given.instructions:
        print("| Nodes | Messages | A message | Times a tenth | A packet that comes | A settle of nothing | With a node down |")
        print("|---|---|---|---|---|---|---|")
        for nodes in (1, 3, 5, 9):
            for row in counts(given.program, nodes):
                print("|", " | ".join(map(str, row)), "|", flush=True)
        return
    print("| Nodes | Messages | A message, µs | Times a tenth | A packet that comes, µs | A settle of nothing, µs | Octets of memory a packet |")
    print("|---|---|---|---|---|---|---|")
    for nodes in (1, 3, 5, 9):
        for row in rows(given.program, nodes, given.seconds):
            print("|", " | ".join(map(str, row)), "|", flush=True)


if __name__ == "__main__":
    main()
