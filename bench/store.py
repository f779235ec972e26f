#!/usr/bin/env python3
"""Prints how many records a second a node's store saves, in memory and to a file, beside C sqlite with the same statements and the disk's own rate.

    python3 bench/store.py [PROGRAM]

Without PROGRAM it builds bench/store/main.rt.in with the crates of HEAD in a folder of its own, which proves sql_store first and takes
minutes. It builds bench/store/sqlite.c with gcc (Debian's libsqlite3-dev). All run in one run of the script, each three times, and the best
counts; to a file they take turns, eight times, since a disk is not the same from one second to the next. A run of no saves is taken off, so that neither the
start of a process nor the making of the records counts. Files are in WAL mode with synchronous=FULL. Seconds are of the clock for files, since a save waits for
the disk, and of the processor in memory and for loads. GNU time (Debian's `time`) measures memory.
"""
import argparse
import pathlib
import shutil
import subprocess
import sys
import tempfile
import time

TOP = pathlib.Path(__file__).resolve().parent.parent
RUNS, TURNS = 3, 8
FILE_SAVES, MEMORY_SAVES = 3_000, 200_000
FEW, MANY = 1_000, 99_999


def built_here(work):
    """The program over sql_store, in a clone of HEAD with one crate more."""
    clone = work / "clone"
    subprocess.run(["git", "clone", "-q", str(TOP), str(clone)], check=True)
    crate = clone / "crates" / "store_bench"
    (crate / "src").mkdir(parents=True)
    shutil.copy(TOP / "bench" / "store" / "main.rt.in", crate / "src" / "main.rt")
    with (clone / "crates.txt").open("a") as crates:
        crates.write("store_bench: mc_types fate_chain synod_acceptor stable_store sql_store node_core\n")
    built = subprocess.run(["rt", "run", "--", "save", ":memory:", "1", "1"], cwd=crate, capture_output=True, text=True)
    if built.returncode != 0:
        sys.exit(built.stdout + built.stderr)
    return crate / "out" / "store_bench"


def built_c(work):
    program = work / "sqlite"
    subprocess.run(["gcc", "-O2", "-o", program, TOP / "bench" / "store" / "sqlite.c", "-lsqlite3"], check=True)
    return program


def used(program, way, path, slots, saves):
    """Seconds of the clock, of the processor, and the most memory in KiB, of one run."""
    begun = time.monotonic()
    run = subprocess.run(["/usr/bin/time", "-f", "%U %S %M", program, way, path, str(slots), str(saves)], capture_output=True, text=True, check=True)
    clock = time.monotonic() - begun
    user, system, memory = run.stderr.split()[-3:]
    return clock, float(user) + float(system), int(memory)


def best(program, way, path, slots, saves):
    """Seconds of the processor: the best of some runs, less one of no saves."""
    def once(count):
        return min(used(program, way, path, slots, count)[1] for _ in range(RUNS))
    return once(saves) - once(0)


def to_files(work, programs):
    """Seconds of the clock for so many saves to a file, and for as many fdatasync, each the best of its turns."""
    ways = {**{name: (program, "save") for name, program in programs.items()}, "the disk itself": (programs["C sqlite"], "sync")}
    taken = {name: [] for name in ways}
    for _ in range(TURNS):
        for name, (program, way) in ways.items():
            taken[name].append(used(program, way, fresh(work, "turn"), FEW, FILE_SAVES)[0])
    return {name: min(seconds) for name, seconds in taken.items()}


def fresh(work, name):
    """The path of a file that is not there."""
    for path in work.glob(f"{name}*"):
        path.unlink()
    return str(work / name)


def main():
    reader = argparse.ArgumentParser(description=__doc__, formatter_class=argparse.RawDescriptionHelpFormatter)
    reader.add_argument("program", metavar="PROGRAM", type=pathlib.Path, nargs="?")
    program = reader.parse_args().program
    work = pathlib.Path(tempfile.mkdtemp(prefix="store-"))
    programs = {"sql_store": program or built_here(work), "C sqlite": built_c(work)}
    for name, seconds in to_files(work, programs).items():
        print(f"{name}, to a file, {FEW} slots: {FILE_SAVES / seconds:.0f} saves a second of the clock", flush=True)
    for name, program in programs.items():
        for slots in (FEW, MANY):
            seconds = best(program, "save", ":memory:", slots, MEMORY_SAVES)
            print(f"{name}, in memory, {slots} slots: {MEMORY_SAVES / seconds:.0f} saves a second of the processor", flush=True)
    filled = fresh(work, "filled")
    used(programs["C sqlite"], "fill", filled, MANY, MANY)
    for name, program in programs.items():
        opened = min(used(program, "open", filled, MANY, 0) for _ in range(RUNS))
        loaded = min(used(program, "load", filled, MANY, 0) for _ in range(RUNS))
        print(f"{name}, a file of {MANY} slots: opened in {opened[1]:.2f} s of the processor, {opened[2]} KiB; loaded in {loaded[1] - opened[1]:.2f} s more,"
              f" {loaded[2] - opened[2]} KiB more", flush=True)
    restarted = min(used(programs["sql_store"], "restart", filled, MANY, 0) for _ in range(RUNS))
    print(f"a node over it, {MANY} messages: restarted in {restarted[1]:.2f} s of the processor, {restarted[2]} KiB in all", flush=True)
    shutil.rmtree(work)


if __name__ == "__main__":
    main()
