#!/usr/bin/env python3
"""Prints what one line more costs `centre script`, and what memory it takes, with 1,000, 10,000 and 90,000 messages.

A script binds a session and submits so many messages, with a settle behind each, to an account that has no session, so that no attempt
is due. To it come, each in a script of its own: 9,000 more submits with their settles, 9,000 queries with their settles, of messages all over,
100 ticks at the least moment, at which nothing is due, and a restart. What these cost is the processor time that the longer script takes more,
the best of five runs of both; it is printed as it is, so that a difference below 0 shows how noisy the machine was. GNU time (Debian's `time`)
measures the memory, in a run of its own, since the peak of a process that Python starts begins at Python's own. Give the built program as
the argument:

    python3 bench/one_node.py crates/centre/out/centre
"""
import argparse
import os
import subprocess
import sys
import tempfile

BIND = "0000001e000000090000000000000001736d653100707731000034000000"
SUBMIT = "0000002900000004000000000000000200010131343400010132353500000000000000000000024869"
RUNS = 5
START = 946_684_800
MORE = 9_000
TICKS = 100


def query(serial):
    message_id = f"10001{serial:05d}".encode().hex()
    return f"00000021000000030000000000000003{message_id}00010131343400"


def settled(pdus):
    return [line for pdu in pdus for line in (f"pdu 1 1 {pdu}", "settle")]


def messages(count):
    return ["nodes 1", f"pdu 1 1 {BIND}"] + settled([SUBMIT] * count)


def processor_time(program, source, sink):
    """The processor time of one run, in seconds."""
    source.seek(0)
    ends = [(os.POSIX_SPAWN_DUP2, source.fileno(), 0), (os.POSIX_SPAWN_DUP2, sink.fileno(), 1)]
    _, _, used = os.wait4(os.posix_spawn(program, [program, "script"], os.environ, file_actions=ends), 0)
    return used.ru_utime + used.ru_stime


def peak_memory(program, source, sink):
    """The peak memory of one run, in KiB."""
    source.seek(0)
    run = subprocess.run(["/usr/bin/time", "-f", "%M", program, "script"], stdin=source, stdout=sink, stderr=subprocess.PIPE, text=True)
    if run.returncode != 0:
        sys.exit(f"the program ended with status {run.returncode}")
    return int(run.stderr.split()[-1])


def run(program, lines):
    """The best time of some runs in seconds, and the peak memory in KiB."""
    with tempfile.TemporaryFile() as source, open(os.devnull, "wb") as nowhere:
        source.write(("\n".join(lines) + "\n").encode())
        source.flush()
        kib = peak_memory(program, source, nowhere)
        return min(processor_time(program, source, nowhere) for _ in range(RUNS)), kib


def main():
    reader = argparse.ArgumentParser(description=__doc__, formatter_class=argparse.RawDescriptionHelpFormatter)
    reader.add_argument("program", metavar="PROGRAM", type=os.path.abspath)
    program = reader.parse_args().program
    for count in (1_000, 10_000, 90_000):
        base = messages(count)
        seconds, kib = run(program, base)

        def more(lines):
            return run(program, base + lines)[0] - seconds

        submit = more(settled([SUBMIT] * MORE)) / MORE
        asked = more(settled([query(1 + place * count // MORE) for place in range(MORE)])) / MORE
        tick = more([f"tick 1 {START}"] * TICKS) / TICKS
        restart = more(["restart 1"])
        print(
            f"{count} messages: {1e6 * seconds / count:.1f} µs and {kib / count:.2f} KiB a message;"
            f" one more {1e6 * submit:.1f} µs, a query {1e6 * asked:.1f} µs, an idle tick {1e3 * tick:.2f} ms, a restart {1e3 * restart:.0f} ms"
        )


if __name__ == "__main__":
    main()
