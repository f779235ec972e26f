#!/usr/bin/env python3
"""Prints what a start of `centre serve` takes over a store with so many messages, and over one with twice as many.

    python3 bench/start.py PROGRAM [--messages MESSAGES] [--whole]

One node over a file takes a message that is due in a week, and ends in order. Its record is then written again and again under other message_ids, MESSAGES
times (100,000 if it is not said), by the incarnations that have so many. Over that store `serve` is started five times while its port is taken: it loads the
store, and ends at the port. Printed are the fewest seconds of the processor of such a start. With --whole it is started five times more, the port free, and
the seconds of the processor and of the clock are printed until it says `serving:`, behind a round for each message, which waits for the disk twice. The same is
done with twice as many messages. The last line says how many times as long that took; the exit status is 1 if one is more than 2.2 times for the processor.
"""
import argparse
import os
import pathlib
import shutil
import socket
import sqlite3
import struct
import subprocess
import sys
import tempfile
import time

TOP = pathlib.Path(__file__).resolve().parent.parent
sys.path[:0] = [str(TOP / "tools" / "clients"), str(TOP / "bench")]

import pdus
from beside import processor_seconds
from plain_esme import Esme
from ports import free_ports
from serving import SERVING, Serving
from start_anew import IN_A_WEEK, LAST_SERIAL

MESSAGES, STARTS, MOST_TIMES = 100_000, 5, 2.2
START_SECONDS, END_SECONDS = 1_800, 60
# Where the octets of a chain have the message_id, and where the incarnation of whoever took the message.
ID_AT, INCARNATION_AT = 1, 13


def write_config(folder, port):
    lines = ['system_id = "CENTRE"', "[[node]]", "number = 1", f'listen = "127.0.0.1:{port}"', f'store = "{folder}/1.db"']
    lines += ["[[account]]", 'system_id = "load"', 'password = "load"', "transmit = true", "receive = true", "[[route]]", 'prefix = ""', 'account = "load"']
    (folder / "centre.toml").write_text("\n".join(lines) + "\n")


def take_one(serving, port):
    """The node takes one message."""
    if not serving.start(START_SECONDS):
        sys.exit(f"serve does not serve: {serving.said()}")
    with Esme(port) as esme:
        esme.bind("load", "load", pdus.BIND_TRANSMITTER)
        if not esme.submitted("155", b"a message", schedule=IN_A_WEEK, registered=0):
            sys.exit("the message was not taken")
    if serving.end(END_SECONDS) != 0:
        sys.exit(f"it does not end in order: {serving.said()}")


def copied(row, number):
    """The record of a message under the message_id of another, of this number."""
    incarnation, serial = number // LAST_SERIAL + 1, number % LAST_SERIAL + 1
    new, chain = 1_000_000_000 + incarnation * 100_000 + serial, bytearray(row[4])
    struct.pack_into(">Q", chain, ID_AT, new)
    struct.pack_into(">H", chain, INCARNATION_AT, incarnation)
    return new, *row[1:4], bytes(chain)


def fill(store, messages):
    """The store has records of so many messages, by as many incarnations as they take."""
    with sqlite3.connect(store) as base:
        (row,) = base.execute("SELECT * FROM slots LIMIT 1").fetchall()
        base.execute("DELETE FROM slots")
        base.executemany("INSERT INTO slots VALUES (?, ?, ?, ?, ?)", (copied(row, number) for number in range(messages)))
        base.execute("UPDATE life SET incarnation = ?", (messages // LAST_SERIAL + 1,))
    base.close()


def opened(serving, port):
    """The seconds of the processor of a start that ends at its port."""
    with socket.socket() as holder:
        holder.setsockopt(socket.SOL_SOCKET, socket.SO_REUSEADDR, 1)
        holder.bind(("127.0.0.1", port))
        holder.listen()
        process = subprocess.Popen(serving.command, stdin=subprocess.PIPE, stderr=subprocess.PIPE)
        _, status, used = os.wait4(process.pid, 0)
        process.returncode = os.waitstatus_to_exitcode(status)
        said = process.stderr.read().decode()
        process.stdin.close()
        process.stderr.close()
    if "no node can listen" not in said:
        sys.exit(f"it ended before its port: {said}")
    return [used.ru_utime + used.ru_stime]


def served(serving):
    """The seconds of the processor and of the clock until it serves."""
    begun = time.monotonic()
    serving.start(0)
    if not serving.says(SERVING, START_SECONDS):
        sys.exit(f"serve does not serve: {serving.said()}")
    seen = [processor_seconds(serving.process.pid), time.monotonic() - begun]
    serving.kill()
    return seen


def best(starts):
    return [min(seconds) for seconds in zip(*starts)]


def main():
    reader = argparse.ArgumentParser(description=__doc__, formatter_class=argparse.RawDescriptionHelpFormatter)
    reader.add_argument("program", metavar="PROGRAM", type=pathlib.Path)
    reader.add_argument("--messages", metavar="MESSAGES", type=int, default=MESSAGES)
    reader.add_argument("--whole", action="store_true")
    given = reader.parse_args()
    folder, (port,) = pathlib.Path(tempfile.mkdtemp(prefix="start-")), free_ports(1)
    write_config(folder, port)
    serving, rows = Serving(given.program.resolve(), folder / "centre.toml", folder), []
    try:
        take_one(serving, port)
        print("| Messages | Opening: processor |" + " Until it serves: processor | clock |" * given.whole + "\n|" + "---|" * (2 + 2 * given.whole), flush=True)
        for messages in (given.messages, 2 * given.messages):
            fill(folder / "1.db", messages)
            rows.append(best(opened(serving, port) for _ in range(STARTS)))
            if given.whole:
                rows[-1] += best(served(serving) for _ in range(STARTS))
            print(f"| {messages:,} | " + " | ".join(f"{seconds:.2f} s" for seconds in rows[-1]) + " |", flush=True)
        times = [twice / once for once, twice in zip(*rows)]
        print("| times | " + " | ".join(f"{one:.2f}" for one in times) + " |")
        return int(max(times[:2]) > MOST_TIMES)
    finally:
        serving.kill()
        shutil.rmtree(folder)


if __name__ == "__main__":
    sys.exit(main())
