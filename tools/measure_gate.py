#!/usr/bin/env python3
"""Measures the gate, and writes what it took into docs/GATE.md.

    python3 tools/measure_gate.py                     runs `rt ci` from nothing on a clean clone of HEAD; about as long as the gate
    python3 tools/measure_gate.py --write             the same, and writes what was measured into docs/GATE.md
    python3 tools/measure_gate.py --crates A B        runs it on these crates alone and those below them, of which no edits are tried; prints
                                                      the rows of these
    python3 tools/measure_gate.py .. --cores N        the same, on so many of this machine's cores
    python3 tools/measure_gate.py .. --keep           the same, and leaves the clone, with the programs that it built
    kill -INT NUMBER                                  ends a run early: what was measured so far is told, and written
    python3 tools/measure_gate.py --functions CRATE   checks one crate from nothing, with its tests; prints its ten dearest functions, and
                                                      the sum of the sizes of its `*Lts.oantt`, which does not depend on what runs beside

Processor time and memory are read off /proc four times a second for each process that the gate starts: what a process used after its last reading is lost,
and stands under 'other' with compilers, linkers and `rt` itself. The last line of the gate is printed as it is. Beside others a process takes more
processor time than alone, and on one core the gate runs one at a time. So three things are told with it: what the host took of the machine meanwhile, what
ran beside the gate, and how long the same work, which has nothing to do with the gate, took before it and behind it.
"""
import argparse
import collections
import dataclasses
import datetime
import os
import pathlib
import re
import resource
import shutil
import signal
import subprocess
import sys
import tempfile
import textwrap
import threading
import time

from repository import BESIDE, IN_GATE, TOP, edits, libraries, lines_of, with_beneath

TICKS = os.sysconf("SC_CLK_TCK")
INTERVAL = 0.25
# How many numbers the work sorts that is timed before the gate and behind it.
SORTED = 3_000_000
BEGIN, END = "<!-- measured: begin -->", "<!-- measured: end -->"
# How long the lines of the page are at most.
WIDTH = 160

# Budgets: minutes of processor time for the first lines of code, and for each thousand more; minutes of the clock, by how many cores there are.
FIRST_LINES, MOST_OF_FIRST, MOST_A_THOUSAND = 54_240, 260, 8
MOST_OF_THE_CLOCK = {2: 130, 4: 75}
# Edits of a crate in the gate, and seconds of one.
MOST_EDITS, MOST_AN_EDIT = 6, 25
# Seconds of the clock of the check of a crate, seconds of its tests, and octets of memory of a prover.
MOST_A_CHECK, MOST_TESTS, MOST_MEMORY = 300, 120, 4_000_000_000

# Minutes of processor time from which on a crate has a row in a whole run: pages have a limit.
LEAST_SHOWN = 8
# How many of those that are beyond a budget are named.
MOST_TOLD = 5

KINDS = ("check", "tests", "edits")
HEAD = [
    "| Crate | Code | Definitions | Proofs | Edits | Beside | Check, s | of the clock | GB | Tests, s | GB | Edits, s | All, min |",
    "|---|---|---|---|---|---|---|---|---|---|---|---|---|",
]


@dataclasses.dataclass
class Day:
    """The machine during a run: what the host took of it, in hundredths, for how many minutes its processors worked, and the seconds of the yardstick before
    the run and behind it."""

    taken: float
    busy: float
    before: float
    behind: float


@dataclasses.dataclass
class Process:
    """A process that the gate started: the crate and the kind of its work, or None for others; the folder that it works in, of which each edit has one of
    its own; its processor time, and when it was first and last seen, in seconds; and the most memory that it held, in octets."""

    work: tuple[str, str] | None
    folder: str | None
    began: float
    ended: float = 0.0
    used: float = 0.0
    peak: int = 0


class Sampler(threading.Thread):
    """Looks at the processes below one process, until it is told that they have ended."""

    def __init__(self, root):
        super().__init__(daemon=True)
        self.root = root
        # By the moment at which a process began and its number, since numbers come again.
        self.seen = {}
        self.ended = threading.Event()

    def run(self):
        while not self.ended.wait(INTERVAL):
            self.sample()

    def sample(self):
        parents, found = {}, {}
        for entry in os.listdir("/proc"):
            if not entry.isdigit():
                continue
            try:
                stat = pathlib.Path(f"/proc/{entry}/stat").read_text()
            except OSError:
                continue
            fields = stat[stat.rindex(")") + 2:].split()
            parents[int(entry)] = int(fields[1])
            found[int(entry)] = (int(fields[19]), int(fields[11]) + int(fields[12]))
        for pid, (started, ticks) in found.items():
            if self.is_below_root(pid, parents):
                self.look(pid, started, ticks / TICKS)

    def look(self, pid, started, used):
        """Notes what a process has used so far."""
        now, key = time.monotonic(), (started, pid)
        # A process that was just forked still has its parent's command line: look again until it is one that counts.
        if key not in self.seen or self.seen[key].work is None:
            work, folder = work_of(pid)
            began = self.seen[key].began if key in self.seen else now
            self.seen[key] = Process(work, folder, began)
        process = self.seen[key]
        process.ended, process.used, process.peak = now, used, max(process.peak, peak_of(pid))

    def is_below_root(self, pid, parents):
        while pid in parents:
            if pid == self.root:
                return True
            pid = parents[pid]
        return False

    def works(self, crate, kind):
        """The processes of a kind of work on a crate, in the order in which they began."""
        found = [process for process in self.seen.values() if process.work == (crate, kind)]
        return sorted(found, key=lambda process: process.began)

    def of_edits(self, crate):
        """Seconds of processor time in each folder in which an edit of a crate was tried, the first one first."""
        folders = collections.Counter()
        for process in self.works(crate, "edits"):
            folders[process.folder] += process.used
        return list(folders.values())

    def seconds(self, crate, kind):
        return sum(process.used for process in self.works(crate, kind))

    def clock(self, crate, kind):
        """Seconds of the clock of the longest process of a kind of work on a crate."""
        return max((process.ended - process.began for process in self.works(crate, kind)), default=0.0)

    def memory(self, crate, kind):
        """The most memory that a process of this kind of work on a crate held, in octets."""
        return max((process.peak for process in self.works(crate, kind)), default=0)


def work_of(pid):
    """The crate that a process works on, with whether it checks it, its tests or one of its edits, and the folder that it works in; None for others."""
    try:
        words = pathlib.Path(f"/proc/{pid}/cmdline").read_bytes().decode(errors="replace").split("\0")
        folder = os.readlink(f"/proc/{pid}/cwd")
    except OSError:
        return None, None
    if "--crate-name" not in words:
        return None, None
    crate = words[words.index("--crate-name") + 1]
    if "/rt-edit" in folder:
        return (crate, "edits"), folder
    if "--test" in words or any(word.endswith("_tests.o") for word in words):
        return (crate, "tests"), folder
    return (crate, "check"), folder


def peak_of(pid):
    """The most memory that a process held so far, in octets; 0 if it is gone."""
    try:
        held = re.search(r"VmHWM:\s+(\d+) kB", pathlib.Path(f"/proc/{pid}/status").read_text())
    except OSError:
        return 0
    return int(held[1]) * 1024 if held else 0


def yardstick():
    """Seconds of processor time of a work that is the same on each machine and day: some numbers are put in order."""
    numbers, state = [], 1
    for _ in range(SORTED):
        state = (state * 1_103_515_245 + 12_345) % 2**31
        numbers.append(state)
    before = time.process_time()
    numbers.sort()
    return time.process_time() - before


def ticks_of_machine():
    """Ticks since this machine began: those that the host took from it, those in which it worked, and all."""
    user, nice, system, idle, waiting, interrupts, soft, taken = map(int, pathlib.Path("/proc/stat").read_text().split("\n")[0].split()[1:9])
    busy = user + nice + system + interrupts + soft
    return taken, busy, busy + idle + waiting + taken


def anew():
    """The words by which `rt ci` begins from nothing: some kits want a flag for it."""
    help_text = subprocess.run(["rt", "help"], capture_output=True, text=True)
    return ["--anew"] if "--anew" in help_text.stdout + help_text.stderr else []


def run_gate(clone):
    """Runs the gate on a clone: what was used, its wall time in seconds, its processor time, and its last line."""
    began = time.monotonic()
    before = resource.getrusage(resource.RUSAGE_CHILDREN)
    log = clone.parent / "gate.log"
    with log.open("w") as out:
        gate = subprocess.Popen(["rt", "ci", *anew()], cwd=clone, stdout=out, stderr=subprocess.STDOUT, stdin=subprocess.DEVNULL)
        sampler = Sampler(gate.pid)
        sampler.start()
        # A shell has its background jobs ignore the signal.
        signal.signal(signal.SIGINT, signal.default_int_handler)
        try:
            gate.wait()
        except KeyboardInterrupt:
            # Who ends a run early still gets what was measured so far.
            gate.terminate()
            gate.wait()
        sampler.ended.set()
        sampler.join()
    after = resource.getrusage(resource.RUSAGE_CHILDREN)
    processor = after.ru_utime + after.ru_stime - before.ru_utime - before.ru_stime
    said = log.read_text(errors="replace").splitlines()
    print(*(line for line in said if re.search(r"NOT PROVED|NOT REFUSED|BAD EDIT|FAILED", line)), sep="\n")
    return sampler, time.monotonic() - began, processor, last_of(clone, said)


def last_of(clone, said):
    """The last line of the gate; if it was ended early, which crates are not proved yet."""
    last = [line for line in said if re.match(r"\d+ passed", line)]
    if last:
        return last[-1]
    proved = {found[1] for line in said if (found := re.match(r"rt: (\w+) proved", line))}
    missing = [crate for crate in libraries(clone) if crate not in proved]
    return f"ended early, with {', '.join(missing) or 'no crate'} left to prove"


def giga(octets):
    return f"{octets / 1e9:.1f}"


def minutes_of(sampler, crate):
    return sum(sampler.seconds(crate, kind) for kind in KINDS) / 60


def row_of(clone, crate, sampler):
    """The row of a crate."""
    folder = clone / "crates" / crate
    lines = [lines_of(folder / part, pattern) for part, pattern in (("src", "*.rt"), ("specs", "*.antt"), ("proofs", "*.antt"))]
    counts = [len(edits(crate, place, clone)) for place in (IN_GATE, BESIDE)]
    check, tests, tried = (f"{sampler.seconds(crate, kind):.0f}" for kind in KINDS)
    clock, memory, of_tests = f"{sampler.clock(crate, 'check'):.0f}", giga(sampler.memory(crate, "check")), giga(sampler.memory(crate, "tests"))
    cells = [crate, *lines, *counts, check, clock, memory, tests, of_tests, tried, f"{minutes_of(sampler, crate):.1f}"]
    return f"| {' | '.join(map(str, cells))} |"


def edits_of(clone, crate, sampler):
    """Seconds of processor time of each edit of a crate in the gate, by its name. The first is tried over a whole check of the crate, and is not told."""
    spent = sampler.of_edits(crate)
    names = [f"{crate}/{edit.stem}" for edit in edits(crate, IN_GATE, clone)]
    return dict(list(zip(names, spent))[1:])


def beyond_of_crate(clone, crate, sampler):
    """What of a crate is beyond its budgets: which budget, and what with which figure."""
    count, tests, clock = len(edits(crate, IN_GATE, clone)), sampler.seconds(crate, "tests"), sampler.clock(crate, "check")
    if count > MOST_EDITS:
        yield f"more than {MOST_EDITS} edits", f"`{crate}`", f"{count}"
    if clock > MOST_A_CHECK:
        yield f"checks above {MOST_A_CHECK} seconds of the clock", f"`{crate}`", f"{clock:.0f}"
    if tests > MOST_TESTS:
        yield f"tests above {MOST_TESTS} seconds", f"`{crate}`", f"{tests:.0f}"
    for kind in KINDS:
        if sampler.memory(crate, kind) > MOST_MEMORY:
            yield f"provers above {giga(MOST_MEMORY)} GB", f"`{crate}` ({kind})", giga(sampler.memory(crate, kind))
    for edit, spent in edits_of(clone, crate, sampler).items():
        if spent > MOST_AN_EDIT:
            yield f"edits, but for the first of each crate, above {MOST_AN_EDIT} seconds", f"`{edit}`", f"{spent:.0f}"


def told_beyond(beyond):
    """What is beyond its budgets, in a sentence for each budget: the dearest first, and how many more there are."""
    by_budget = collections.defaultdict(list)
    for budget, what, figure in beyond:
        by_budget[budget].append((float(figure), f"{what} {figure}"))
    for budget, found in by_budget.items():
        dearest = [told for _, told in sorted(found, reverse=True)[:MOST_TOLD]]
        more = f", and {len(found) - MOST_TOLD} more" if len(found) > MOST_TOLD else ""
        yield from textwrap.wrap(f"- {budget}: {', '.join(dearest)}{more}", WIDTH, subsequent_indent="  ", break_on_hyphens=False)


def budget_of(code):
    """Minutes of processor time for so many lines of code."""
    return MOST_OF_FIRST + MOST_A_THOUSAND * max(0, code - FIRST_LINES) / 1000


def day_of(run):
    """What a run gives, and the day on which it was made."""
    before, ticks = yardstick(), ticks_of_machine()
    given = run()
    taken, busy, all_ticks = (behind - first for first, behind in zip(ticks, ticks_of_machine()))
    return given, Day(100 * taken / max(1, all_ticks), busy / TICKS / 60, before, yardstick())


def whole_of(clone, sampler, day, wall, processor, last):
    """What the whole gate took, in sentences."""
    crates, cores = libraries(clone), len(os.sched_getaffinity(0))
    code = sum(lines_of(clone / "crates" / crate / "src", "*.rt") for crate in crates)
    spent = {kind: sum(sampler.seconds(crate, kind) for crate in crates) / 60 for kind in KINDS}
    count = sum(len(edits(crate, IN_GATE, clone)) for crate in crates)
    beside = sum(len(edits(crate, BESIDE, clone)) for crate in crates)
    kit = subprocess.run(["rt", "version"], capture_output=True, text=True, check=True).stdout.strip()
    commit = subprocess.run(["git", "rev-parse", "--short=8", "HEAD"], cwd=clone, capture_output=True, text=True, check=True).stdout.strip()
    again = sum(sampler.seconds(crate, "check") for crate in crates if edits(crate, IN_GATE, clone)) / 60
    of_the_clock = f" (at most {MOST_OF_THE_CLOCK[cores]})" if cores in MOST_OF_THE_CLOCK else ""
    told = (
        f"Measured on {datetime.date.today().isoformat()} of commit {commit} with {cores} cores and `{kit}`: "
        f"**{processor / 60:.0f} minutes of processor time** (at most {budget_of(code):.0f} for {code} lines of code), {wall / 60:.0f} of the clock"
        f"{of_the_clock}, `{last}`. The checks take {spent['check']:.0f} minutes, the tests {spent['tests']:.0f}, "
        f"the {count} edits {spent['edits']:.0f} (the crates that have one are checked once more for it, which took {again:.0f} minutes the first time), "
        f"and other processes {processor / 60 - sum(spent.values()):.0f}. {beside} more edits stand beside the gate. The host took {day.taken:.0f} % of the "
        f"machine, and what ran beside the gate {max(0.0, day.busy - processor / 60):.0f} minutes of its processors; putting {SORTED // 1_000_000} million numbers in order took {day.before:.1f} seconds before the run and {day.behind:.1f} behind it. "
        f"Crates that took less than {LEAST_SHOWN} minutes have no row."
    )
    return textwrap.wrap(told, WIDTH, break_on_hyphens=False)


def narrow(clone, wanted):
    """Leaves of a clone these crates and those below them, and of the latter no edits."""
    named = libraries(clone)
    unknown = [crate for crate in wanted if crate not in named]
    if unknown:
        sys.exit(f"crates.txt names no {unknown[0]}")
    needed = with_beneath(wanted, named)
    (clone / "crates.txt").write_text("".join(f"{crate}: {' '.join(named[crate])}\n" for crate in needed))
    for folder in (clone / "crates").iterdir():
        if folder.name not in needed:
            shutil.rmtree(folder)
        elif folder.name not in wanted:
            shutil.rmtree(folder / IN_GATE, ignore_errors=True)


def measured(clone, sampler, rows, whole):
    """What was measured, as lines of docs/GATE.md."""
    beyond = [one for crate in libraries(clone) for one in beyond_of_crate(clone, crate, sampler)]
    return [
        *whole,
        "",
        *HEAD,
        *rows,
        *(["", "Beyond their budgets:", "", *told_beyond(beyond)] if beyond else []),
    ]


def clone_of_head():
    clone = pathlib.Path(tempfile.mkdtemp(prefix="gate-")) / "clone"
    subprocess.run(["git", "clone", "-q", str(TOP), str(clone)], check=True)
    return clone


def measure(wanted, write, keep):
    clone = clone_of_head()
    if wanted:
        narrow(clone, wanted)
    (sampler, wall, processor, last), day = day_of(lambda: run_gate(clone))
    shown = [crate for crate in libraries(clone) if (crate in wanted if wanted else minutes_of(sampler, crate) >= LEAST_SHOWN)]
    rows = [row_of(clone, crate, sampler) for crate in shown]
    whole = [f"`{last}`"] if wanted else whole_of(clone, sampler, day, wall, processor, last)
    lines = measured(clone, sampler, rows, whole)
    print("\n".join(lines))
    if wanted:
        print(f"{sum(minutes_of(sampler, crate) for crate in shown):.1f} minutes of processor time for these crates")
    if write:
        page = TOP / "docs" / "GATE.md"
        head, rest = page.read_text().split(BEGIN)
        page.write_text(head + BEGIN + "\n" + "\n".join(lines) + "\n" + END + rest.split(END)[1])
    if keep:
        print(f"{clone} is left")
    else:
        shutil.rmtree(clone.parent)


def function_of(file, crate):
    """The function, or the file of proofs, that a file of a check's kept work is about; none for another file."""
    found = re.fullmatch(rf"Rattle-{crate}-proofs\.(.+?)(\.decls)?\.oantt", file)
    if not found:
        return None
    words = found.group(1).split(".")
    return ".".join(words[:-1] if len(words) > 1 and words[-1][0].isupper() else words)


def dearest_functions(crate):
    """Checks a crate from nothing by one job, with its tests if it has any, and prints how long it took for each function. A check writes
    files on each as it goes, so the time from one file to the next is that of the latter's function. (The lines 'checked' say less: the first
    one comes after all definitions, and what lies between two of them may be a file of proofs.)"""
    clone = clone_of_head()
    folder = clone / "crates" / crate
    # A check begins with what any checkout on this machine kept of the same text, or of an older one: with a line more and a folder of its own
    # it begins from nothing.
    root = next(file for file in (folder / "src" / "lib.rt", folder / "src" / "main.rt") if file.is_file())
    root.write_text(root.read_text() + "// measured\n")
    (folder / "out" / "incremental").mkdir(parents=True)
    tested = ["--test"] if any("#[test]" in file.read_text() for file in (folder / "src").rglob("*.rt")) else []
    checked = subprocess.run(["rt", "check", *tested, "--jobs", "1"], cwd=folder, capture_output=True, text=True)
    if checked.returncode not in (0, 1):
        sys.exit(checked.stdout + checked.stderr)
    files = sorted((file.stat().st_mtime_ns, file.name, file.stat().st_size) for file in (folder / "out").rglob("*.oantt"))
    times = collections.Counter()
    for (before, _, _), (after, name, _) in zip(files, files[1:]):
        times[function_of(name, crate)] += (after - before) / 1e9
    walks = sum(size for _, name, size in files if name.endswith("Lts.oantt"))
    shutil.rmtree(clone.parent)
    for name, seconds in times.most_common(11):
        print(f"{seconds:7.1f} s  {name or 'all that is no function'}")
    print(f"{walks / 1e6:7.1f} MB  *Lts.oantt")


def main():
    parser = argparse.ArgumentParser(description=__doc__, formatter_class=argparse.RawDescriptionHelpFormatter)
    parser.add_argument("--write", action="store_true", help="write what a whole run took into docs/GATE.md")
    parser.add_argument("--crates", metavar="CRATE", nargs="+", default=[], help="measure these crates alone")
    parser.add_argument("--keep", action="store_true", help="leave the clone, with the programs that were built")
    parser.add_argument("--functions", metavar="CRATE", help="the dearest functions of one crate")
    parser.add_argument("--cores", metavar="N", type=int, default=os.cpu_count(), help="how many cores to run on")
    arguments = parser.parse_args()
    if arguments.write and arguments.crates:
        parser.error("docs/GATE.md is of one whole run: --write goes without --crates")
    os.sched_setaffinity(0, sorted(os.sched_getaffinity(0))[:arguments.cores])
    if arguments.functions:
        dearest_functions(arguments.functions)
    else:
        measure(arguments.crates, arguments.write, arguments.keep)


if __name__ == "__main__":
    main()
