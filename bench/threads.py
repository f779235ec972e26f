#!/usr/bin/env python3
"""Prints how many steps a second threads take at a cluster of nodes, over stores in memory and in files, and what a step costs beside one of a world.

    python3 bench/threads.py [PROGRAM]

Without PROGRAM it builds bench/threads/main.rt.in with the crates of HEAD in a folder of its own, which proves them first and takes long. The steps are the
submit_sms of messages and the packets by which they are taken; each thread has the packets come to nodes that are its own. Seconds of the clock are the best of
some runs, less a run of no steps, so that neither the start of a process nor the opening of the nodes counts. The same steps are taken by one thread, over
stores in memory, and by `World::step`: of these it prints the processor time of a step, by turns in one run of the script, and the instructions that Valgrind's
callgrind counts, which do not depend on what else the machine does. Files are in a folder of /tmp. GNU time (Debian's `time`) measures.
"""
import argparse
import pathlib
import shutil
import subprocess
import sys
import tempfile
import time

TOP = pathlib.Path(__file__).resolve().parent.parent
RUNS = 5
NODES, THREADS = (1, 3, 9), (1, 2, 4)
# Steps over stores in memory, and those that callgrind counts; and over files, by the number of nodes, so that each run makes some 3,000 saves.
MANY, COUNTED = 100_000, 20_000
SAVED = {1: 7_500, 3: 12_500, 9: 30_000}


def built_here(work):
    """The program, in a clone of HEAD with one crate more."""
    clone = work / "clone"
    subprocess.run(["git", "clone", "-q", str(TOP), str(clone)], check=True)
    bench, crate = TOP / "bench" / "threads", clone / "crates" / "threads_bench"
    for source in bench.rglob("*.in"):
        target = crate / ("src" if source.suffixes[0] == ".rt" else "") / source.relative_to(bench).with_suffix("")
        target.parent.mkdir(parents=True, exist_ok=True)
        shutil.copy(source, target)
    with (clone / "crates.txt").open("a") as crates:
        crates.write("threads_bench: mc_types desk pdu_codec stable_store sql_store sqlite node_stores node_core world node_threads\n")
    built = subprocess.run(["rt", "run", "--", "world", "/tmp", "1", "1", "1"], cwd=crate, capture_output=True, text=True)
    if built.returncode != 0:
        sys.exit(built.stdout + built.stderr)
    return crate / "out" / "threads_bench"


def words(way, folder, nodes, threads, steps):
    return [way, str(folder), str(nodes), str(threads), str(steps)]


def used(program, work, way, nodes, threads, steps):
    """Seconds of the clock and of the processor, and the steps taken, of one run."""
    folder = pathlib.Path(tempfile.mkdtemp(dir=work))
    begun = time.monotonic()
    command = ["/usr/bin/time", "-f", "%U %S", program, *words(way, folder, nodes, threads, steps)]
    run = subprocess.run(command, capture_output=True, text=True, check=True)
    clock = time.monotonic() - begun
    shutil.rmtree(folder)
    return clock, sum(float(word) for word in run.stderr.split()[-2:]), int(run.stdout.split()[0])


def rates(program, work, way, nodes, steps):
    """Steps a second of the clock, for each number of threads, which take turns, since neither a disk nor a busy machine stays the same."""
    started, taken = {}, {}
    for _ in range(RUNS):
        for threads in THREADS:
            started.setdefault(threads, []).append(used(program, work, way, nodes, threads, 0)[0])
            taken.setdefault(threads, []).append(used(program, work, way, nodes, threads, steps))
    return [max(count / (clock - min(started[threads])) for clock, _, count in taken[threads]) for threads in THREADS]


def processor(program, work, nodes):
    """Microseconds of the processor for a step of a cluster and of a world, by turns."""
    spent = {"lists": [], "world": []}
    for _ in range(RUNS):
        for way, runs in spent.items():
            runs.append(used(program, work, way, nodes, 1, MANY)[1] - used(program, work, way, nodes, 1, 0)[1])
    return [min(spent[way]) / MANY * 1e6 for way in ("lists", "world")]


def instructions(program, way, nodes):
    """How many instructions a step takes."""
    def once(steps):
        counter = ["valgrind", "--tool=callgrind", "--callgrind-out-file=/dev/null", program, *words(way, "/tmp", nodes, 1, steps)]
        run = subprocess.run(counter, capture_output=True, text=True, check=True)
        return int(run.stderr.split("Collected : ")[1].split()[0])
    return (once(COUNTED) - once(0)) / COUNTED


def main():
    reader = argparse.ArgumentParser(description=__doc__, formatter_class=argparse.RawDescriptionHelpFormatter)
    reader.add_argument("program", metavar="PROGRAM", type=pathlib.Path, nargs="?")
    given = reader.parse_args().program
    work = pathlib.Path(tempfile.mkdtemp(prefix="threads-"))
    program = given or built_here(work)
    print("| Stores | Nodes | " + " | ".join(f"{threads} thread{'s' * (threads > 1)}" for threads in THREADS) + " |")
    for way in ("lists", "files"):
        for nodes in NODES:
            found = rates(program, work, way, nodes, MANY if way == "lists" else SAVED[nodes])
            print(f"| {way} | {nodes} | " + " | ".join(f"{steps_a_second:,.0f}" for steps_a_second in found) + " |", flush=True)
    print("| Nodes | A step of a cluster | A step of a world | Ratio | Instructions | Of a world | Ratio |")
    for nodes in NODES:
        here, world = processor(program, work, nodes)
        counted, of_world = (instructions(program, way, nodes) for way in ("lists", "world"))
        print(f"| {nodes} | {here:.1f} µs | {world:.1f} µs | {here / world:.2f} | {counted:,.0f} | {of_world:,.0f} | {counted / of_world:.2f} |", flush=True)
    shutil.rmtree(work)


if __name__ == "__main__":
    main()
