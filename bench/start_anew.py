#!/usr/bin/env python3
"""Prints what it costs that a node of `centre serve` starts anew over so many messages, since its message_ids run low, while a client stays bound.

    python3 bench/start_anew.py PROGRAM [MESSAGES ..]

Three nodes over stores in memory; a client at node 1 keeps ten submit_sm open: of a tenth of the messages, which are delivered to itself with a delivery
receipt each, and once these have come, of messages that are due in a week, until the node has few message_ids left: half of its own up to 10,000 messages, and
10,000 else. Printed are the messages, the submit_sm of the second kind that are answered in a second, the seconds from the last answer to the start, those from
the start until the node is through with its first tick, the processor time of `serve` meanwhile, the slowest of the query_sm that the client asks all the
while, the receipts that came before the start and those that came behind it, which should be none, and the parts of the journal that were closed, with the
longest pause.
MESSAGES are 1,000, 10,000 and 89,999 if none are named.
"""
import argparse
import pathlib
import shutil
import sys
import tempfile
import time

TOP = pathlib.Path(__file__).resolve().parent.parent
sys.path[:0] = [str(TOP / "tools" / "clients"), str(TOP / "bench")]

import pdus
from beside import processor_seconds
from plain_esme import Esme, wait
from ports import free_ports
from serve import parts_of
from serving import Serving

WINDOW, LAST_SERIAL, FEW, SECONDS = 10, 99_999, 10_000, 180
IN_A_WEEK = "000007000000000R"
# The esm_class of a receipt, and how many seconds without a deliver_sm are taken for the end of them.
RECEIPT, QUIET = 4, 3


def write_config(folder, messages):
    """Writes the configuration, by which so few message_ids are left behind these messages, and gives the ports of the nodes."""
    ports = free_ports(3)
    first = LAST_SERIAL + 1 - messages - min(messages, FEW)
    lines = ['system_id = "CENTRE"', f"first_serial = {first}"]
    for node, port in enumerate(ports, 1):
        lines += ["[[node]]", f"number = {node}", f'listen = "127.0.0.1:{port}"']
    lines += ["[[account]]", 'system_id = "load"', 'password = "load"', "transmit = true", "receive = true", "[[route]]", 'prefix = ""', 'account = "load"']
    (folder / "centre.toml").write_text("\n".join(lines) + "\n")
    return ports


def submit_all(esme, messages, **fields):
    """Submits so many messages; the seconds until the last was answered."""
    body = pdus.message_body(b"a message", source="144", destination="155", **fields)
    left, waiting, begun = messages, set(), time.monotonic()

    def is_done():
        nonlocal left
        for sequence in [one for one in waiting if one in esme.answers]:
            waiting.remove(sequence)
            esme.answers.pop(sequence)
        room = min(WINDOW - len(waiting), left)
        for _ in range(room):
            waiting.add(esme.request(pdus.SUBMIT_SM, body))
        left -= room
        return not left and not waiting
    wait([esme], is_done, SECONDS)
    return time.monotonic() - begun


def receipts(esme):
    """How many delivery receipts came."""
    return sum(1 for message in esme.delivered if message["esm_class"] == RECEIPT)


def deliver(esme, messages):
    """Submits so many messages with receipts, and waits until these have come."""
    submit_all(esme, messages, registered=1)
    if not wait([esme], lambda: len(esme.delivered) >= 2 * messages, SECONDS):
        sys.exit(f"of {messages} messages and their receipts {len(esme.delivered)} came in {SECONDS} seconds")


def queried(esme):
    """The seconds for which a query_sm waits."""
    begun = time.monotonic()
    esme.state("1000100001")
    return time.monotonic() - begun


def started(esme, serving):
    """The moments at which the node started anew and was through, the processor time between them, and the slowest query_sm meanwhile."""
    begun, used, slowest, end = None, 0, 0, time.monotonic() + SECONDS
    while time.monotonic() < end and not any("through with its first tick" in line for line in serving.lines):
        if begun is None and any("started anew" in line for line in serving.lines):
            begun, used = time.monotonic(), processor_seconds(serving.process.pid)
        waited = queried(esme)
        slowest = max(slowest, waited) if begun else 0
        time.sleep(0.05)
    return begun, time.monotonic(), processor_seconds(serving.process.pid) - used, slowest


def behind_the_start(esme, before):
    """The receipts that came behind so many, once none has come for a while."""
    count = -1
    while count != len(esme.delivered):
        count = len(esme.delivered)
        wait([esme], lambda: False, QUIET)
    return receipts(esme) - before


def run(program, messages):
    """A line of the table."""
    folder = pathlib.Path(tempfile.mkdtemp(prefix="anew-"))
    ports = write_config(folder, messages)
    serving = Serving(program, folder / "centre.toml", folder)
    try:
        if not serving.start():
            sys.exit(f"serve does not serve: {serving.said()}")
        esme = Esme(ports[0])
        esme.bind("load", "load")
        ended = messages // 10
        deliver(esme, ended)
        before, left = receipts(esme), messages - ended
        seconds = submit_all(esme, left, schedule=IN_A_WEEK)
        last = time.monotonic()
        begun, through, used, slowest = started(esme, serving)
        if begun is None:
            sys.exit(f"{messages} messages: the node did not start anew; {serving.said()}")
        cells = [f"{messages:,}", f"{left / seconds:,.0f}", f"{begun - last:.1f} s", f"{through - begun:.1f} s", f"{used:.2f} s", f"{slowest:.2f} s"]
        told = f"{before:,}, then {behind_the_start(esme, before):,}"
        print("| " + " | ".join([*cells, told, parts_of(serving)]) + " |", flush=True)
    finally:
        serving.kill()
        shutil.rmtree(folder)


def main():
    reader = argparse.ArgumentParser(description=__doc__, formatter_class=argparse.RawDescriptionHelpFormatter)
    reader.add_argument("program", metavar="PROGRAM", type=pathlib.Path)
    reader.add_argument("messages", metavar="MESSAGES", type=int, nargs="*", default=[1_000, 10_000, 89_999])
    given = reader.parse_args()
    print("| Messages | Submits a second | Until it starts | Until it is through | Processor time | Slowest query | Receipts | Parts closed |")
    print("|---|---|---|---|---|---|---|---|", flush=True)
    for messages in given.messages:
        run(given.program.resolve(), messages)


if __name__ == "__main__":
    main()
