#!/usr/bin/env python3
"""Prints the processor time of decoding and of encoding 2,000,000 submit_sm, here and by libsmpp34, and the instructions of one.

    python3 bench/codec.py [PROGRAM]

Without PROGRAM it builds bench/codec/main.rt.in with the crates of HEAD in a folder of its own, which proves pdu_codec first and takes minutes. It builds
bench/codec/smpp34.c with gcc, if Debian's libsmpp34-dev is there; else it says so. Valgrind's callgrind counts the instructions of 20,000 of them. Both run on
one PDU in one run of the script, each five times, and the best counts. A run of no turns is taken off, so that the start of a process does not count. GNU time
(Debian's `time`) measures, since the peak memory of a process that Python starts begins at Python's own.
"""
import argparse
import pathlib
import re
import shutil
import subprocess
import sys
import tempfile

TOP = pathlib.Path(__file__).resolve().parent.parent
TURNS, COUNTED = 2_000_000, 20_000
RUNS = 5
# The submit_sm of the first script: 41 octets, from 144 to 155, with a receipt, the text Hi.
PDU = "0000002900000004000000000000000200010131343400010131353500000000000001000000024869"


def built_here(work):
    """The program over pdu_codec, in a clone of HEAD with one crate more."""
    clone = work / "clone"
    subprocess.run(["git", "clone", "-q", str(TOP), str(clone)], check=True)
    crate = clone / "crates" / "codec_bench"
    (crate / "src").mkdir(parents=True)
    shutil.copy(TOP / "bench" / "codec" / "main.rt.in", crate / "src" / "main.rt")
    lines = (clone / "crates.txt").read_text().splitlines()
    below = next(line for line in lines if line.startswith("pdu_codec:")).split(":")[1]
    with (clone / "crates.txt").open("a") as crates:
        crates.write(f"codec_bench:{below} pdu_codec hex\n")
    built = subprocess.run(["rt", "run", "--", "decode", "1", PDU], cwd=crate, capture_output=True, text=True)
    if built.returncode != 0:
        sys.exit(built.stdout + built.stderr)
    return crate / "out" / "codec_bench"


def built_smpp34(work):
    """The program over libsmpp34, or none if the library is not there."""
    if not pathlib.Path("/usr/include/libsmpp34/smpp34.h").exists():
        return None
    program = work / "smpp34"
    source = TOP / "bench" / "codec" / "smpp34.c"
    subprocess.run(["gcc", "-O2", "-I/usr/include/libsmpp34", "-o", program, source, "-lsmpp34"], check=True)
    return program


def used(program, way, turns):
    """The processor time of a run, in seconds."""
    run = subprocess.run(["/usr/bin/time", "-f", "%U %S", program, way, str(turns), PDU], capture_output=True, text=True, check=True)
    return sum(float(word) for word in run.stderr.split()[-2:])


def instructions(program, way, turns):
    counter = ["valgrind", "--tool=callgrind", "--callgrind-out-file=/dev/null"]
    run = subprocess.run([*counter, program, way, str(turns), PDU], capture_output=True, text=True, check=True)
    return int(re.search(r"Collected : (\d+)", run.stderr).group(1))


def main():
    reader = argparse.ArgumentParser(description=__doc__, formatter_class=argparse.RawDescriptionHelpFormatter)
    reader.add_argument("program", metavar="PROGRAM", type=pathlib.Path, nargs="?")
    program = reader.parse_args().program
    work = pathlib.Path(tempfile.mkdtemp(prefix="codec-"))
    here = program.resolve() if program else built_here(work)
    programs = {"pdu_codec": here, "libsmpp34": built_smpp34(work)}
    for way in ("decode", "encode"):
        for name, program in programs.items():
            if program is None:
                print(f"{way}, {name}: not measured, since libsmpp34-dev is not there")
                continue
            best = min(used(program, way, TURNS) - used(program, way, 0) for _ in range(RUNS))
            count = (instructions(program, way, COUNTED) - instructions(program, way, 0)) / COUNTED
            print(f"{way}, {name}: {best:.2f} s for {TURNS} submit_sm, {best / TURNS * 1e6:.2f} microseconds and {count:,.0f} instructions each", flush=True)
    shutil.rmtree(work)


if __name__ == "__main__":
    main()
