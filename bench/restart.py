#!/usr/bin/env python3
"""Prints what it costs a node to start anew, over 1 and 3 nodes, with 100, 300 and 1,000 messages, in instructions.

A script submits so many messages at node 1, each with its settle, to an account that has no session, so that no attempt is due. Behind them node 1 is started
anew, has its first tick, at which it begins a round for each message, and the nodes settle. Each figure is the difference of two scripts of which one has
these lines more. Valgrind's callgrind counts the instructions, so that it does not matter what else runs. With --settles it runs the longest script of
three nodes whose settle ends behind that tick, and one of a message more, and prints how often each says `unsettled`. Give the built program:

    python3 bench/restart.py crates/centre/out/centre
    python3 bench/restart.py --settles crates/centre/out/centre
"""
import argparse
import os
import subprocess

from instructions import MOST_DELIVERIES, instructions
from one_node import BIND, START, SUBMIT, settled

RESTART = ["restart 1", f"tick 1 {START}"]


def submits(nodes, messages):
    return [f"nodes {nodes}", f"pdu 1 1 {BIND}"] + settled([SUBMIT] * messages)


def deliveries(nodes):
    """How many deliveries a round takes: its packets, each of which comes to all nodes."""
    return nodes * (2 + 2 * nodes)


def row(program, nodes, messages):
    """What all submits cost, the restart with its tick, the settle behind it, and both of these beside the submits."""
    lines = submits(nodes, messages)
    start, taken, begun, known = (instructions(program, script) for script in (lines[:2], lines, lines + RESTART, lines + RESTART + ["settle"]))
    cost = known - taken
    return nodes, messages, *(f"{count / messages:,.0f}" for count in (taken - start, begun - taken, known - begun)), f"{cost / (taken - start):.2f}"


def unsettled(program, nodes, messages, settles):
    text = "\n".join(submits(nodes, messages) + RESTART + ["settle"] * settles) + "\n"
    run = subprocess.run([program, "script"], input=text, capture_output=True, text=True, check=True)
    return run.stdout.count("unsettled\n")


def main():
    reader = argparse.ArgumentParser(description=__doc__, formatter_class=argparse.RawDescriptionHelpFormatter)
    reader.add_argument("program", metavar="PROGRAM", type=os.path.abspath)
    reader.add_argument("--settles", action="store_true")
    given = reader.parse_args()
    if given.settles:
        most = MOST_DELIVERIES // deliveries(3)
        for messages in (most, most + 1):
            told = [unsettled(given.program, 3, messages, settles) for settles in (1, 2)]
            print(f"{messages:,} messages: {told[0]} of 1 settle, {told[1]} of 2 say `unsettled`")
    else:
        print("| Nodes | Messages | A submit_sm with its settle | A restart and its tick, a message | The settle behind it, a message | Beside all submits |")
        print("|---|---|---|---|---|---|")
        for nodes in (1, 3):
            for messages in (100, 300, 1_000):
                print("|", " | ".join(map(str, row(given.program, nodes, messages))), "|", flush=True)


if __name__ == "__main__":
    main()
