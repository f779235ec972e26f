#!/usr/bin/env python3
"""Installs the built program as docs/OPERATING.md says, and runs the two units of that page under a systemd of its own.

    python3 tools/unit.py PROGRAM

PROGRAM is the built program. A copy of this machine's files, over which nothing that is written lasts, starts in a container with systemd as its first process.
There the commands of 'Install' are run, and both units: the one that ends at once, and the one that ends in order by a FIFO. Each serves, is killed, comes back
and knows its message, is stopped and started again, and leaves its stores readable by its user alone; and one whose port is taken is given up after the starts
that the unit allows.

It prints `ok NAME` or `not ok NAME: SEEN` for each check, or `left out: ..` for what this machine lacks, and at last `N checks, M wrong`; the exit status is 1
if any is wrong. It needs root and Debian's systemd-container, and takes two minutes.
"""
import argparse
import contextlib
import os
import pathlib
import re
import shutil
import socket
import subprocess
import sys
import tempfile
import time

sys.path.insert(0, str(pathlib.Path(__file__).resolve().parent / "clients"))

from checks import Checks
from plain_esme import Ended, Esme
from repository import TOP

SECONDS, START_SECONDS, BOOT_SECONDS = 30, 15, 900
UNIT, PORT = "tomveul.service", 2775
STATE = pathlib.Path("/var/lib/tomveul")
# What is said at an end in order.
ENDED = re.compile(r"ended: \d+ entries in the journal")
# In the container: what is run there, as a unit, and where its lines go.
TRIAL, SAID = "trial.service", "/trial.said"
TRIAL_UNIT = """[Unit]
Requires=basic.target
After=basic.target
SuccessAction=poweroff-force
FailureAction=poweroff-force

[Service]
Type=oneshot
ExecStart={python} {tool} --inside
StandardOutput=file:{said}
StandardError=file:{said}
"""


# ---- what docs/OPERATING.md says

def blocks(language):
    """The blocks of a language in docs/OPERATING.md."""
    return re.findall(rf"```{language}\n(.*?)```", (TOP / "docs" / "OPERATING.md").read_text(), re.S)


def units():
    """The unit that ends at once, and the one that ends in order, by their names."""
    at_once, by_fifo = [block for block in blocks("ini") if "ExecStart=" in block]
    start = re.search(r"ExecStart=.*\n", at_once)[0]
    return {"at once": at_once, "in order": at_once.replace(f"{start}StandardInput=null\n", by_fifo)}


def configuration():
    """The one with a node and two accounts."""
    return blocks("toml")[0]


def commands():
    """Those of 'Install'."""
    section = (TOP / "docs" / "OPERATING.md").read_text().split("## Install")[1].split("## ")[0]
    return [line.strip() for line in section.splitlines() if line.startswith("    ")]


# ---- in the container

def ran(*words):
    """The exit status of a command, and what it said."""
    done = subprocess.run(words, capture_output=True, text=True)
    return done.returncode, (done.stdout + done.stderr).strip()


def said():
    return ran("journalctl", "--no-pager", "--output", "cat", "-u", UNIT)[1]


def shown(name):
    """A property of the unit."""
    return ran("systemctl", "show", "--value", "--property", name, UNIT)[1]


def comes(test, seconds=SECONDS):
    """Whether this is so in time."""
    end = time.monotonic() + seconds
    while not test():
        if time.monotonic() >= end:
            return False
        time.sleep(0.2)
    return True


def is_served():
    """Whether an ESME may bind."""
    with contextlib.suppress(OSError, Ended), Esme(PORT) as esme:
        found = esme.bind("sme1", "pw1")
        return found is not None and found.status == 0
    return False


def taken():
    """The message_id of a message that was taken."""
    with Esme(PORT) as esme:
        esme.bind("sme1", "pw1")
        return esme.submitted("155", b"Hello", registered=0)


def is_known(message):
    with Esme(PORT) as esme:
        esme.bind("sme1", "pw1")
        return esme.state(message)[0] == 0


def modes():
    """The folder of the stores and its files, with their modes and owners."""
    found = [STATE, *sorted(STATE.iterdir())]
    return {str(path): (oct(path.stat().st_mode & 0o777), path.owner()) for path in found}


def try_unit(checks, name, unit):
    """The unit serves, comes back when it is killed, and knows its message; it is stopped and started again."""
    pathlib.Path("/etc/systemd/system", UNIT).write_text(unit)
    ran("systemctl", "daemon-reload")
    checks.check(f"{name}: enabled", ran("systemctl", "enable", "--now", UNIT)[0] == 0, said)
    checks.check(f"{name}: serves", comes(is_served), said)
    message = taken()
    ran("systemctl", "kill", "--kill-whom=main", "--signal=KILL", UNIT)
    checks.check(f"{name}: back when it was killed", comes(lambda: shown("NRestarts") == "1") and comes(is_served), said)
    checks.check(f"{name}: knows its message", is_known(message), message)
    found = modes()
    wanted = {path: ("0o700" if path == str(STATE) else "0o600", "tomveul") for path in found}
    checks.check(f"{name}: stores are its own", found == wanted and len(found) > 1, found)
    began = time.monotonic()
    checks.check(f"{name}: stopped", ran("systemctl", "stop", UNIT)[0] == 0 and time.monotonic() < began + SECONDS, said)
    checks.check(f"{name}: ended well", (shown("ActiveState"), shown("Result")) == ("inactive", "success"), lambda: (shown("Result"), said()))
    checks.check(f"{name}: ended in order", bool(ENDED.search(said())) == (name == "in order"), said)
    checks.check(f"{name}: started again", ran("systemctl", "start", UNIT)[0] == 0 and comes(is_served) and is_known(message), said)
    ran("systemctl", "disable", "--now", UNIT)
    ran("journalctl", "--rotate", "--vacuum-time=1s")


def try_taken_port(checks, unit):
    """A start whose port is taken is tried so often and no more, and uses up no incarnation."""
    pathlib.Path("/etc/systemd/system", UNIT).write_text(unit)
    ran("systemctl", "daemon-reload")
    ran("systemctl", "reset-failed", UNIT)
    burst = int(re.search(r"StartLimitBurst=(\d+)", unit)[1])
    with socket.socket() as holder:
        holder.setsockopt(socket.SOL_SOCKET, socket.SO_REUSEADDR, 1)
        holder.bind(("127.0.0.1", PORT))
        holder.listen()
        ran("systemctl", "start", UNIT)
        checks.check("a taken port: given up", comes(lambda: shown("ActiveState") == "failed", START_SECONDS * burst), said)
    told = [line for line in said().splitlines() if "2775" in line and "listens" not in line]
    checks.check("a taken port: so many starts", len(told) == burst, lambda: (len(told), said()))


def inside():
    """What is tried in the container."""
    checks = Checks()
    for command in commands():
        status, answer = ran("sh", "-c", f"cd {TOP} && {command}")
        checks.check(command, status == 0, answer)
    checks.check("its version", ran("/usr/local/bin/centre", "--version")[0] == 0)
    pathlib.Path("/etc/tomveul/centre.toml").write_text(configuration())
    for name, unit in units().items():
        try:
            try_unit(checks, name, unit)
        except (Ended, OSError) as fault:
            checks.check(f"{name}: tried to the end", False, f"{fault}; {said()}")
    try_taken_port(checks, units()["at once"])
    checks.end()


# ---- on this machine

def lacking():
    """What this machine lacks, or None."""
    if os.geteuid() != 0:
        return "root"
    return None if shutil.which("systemd-nspawn") else "systemd-nspawn (Debian: systemd-container)"


@contextlib.contextmanager
def copy_of_machine():
    """A folder with the files of this machine. What is written there is kept in memory, and gone at the end."""
    room = pathlib.Path(tempfile.mkdtemp(prefix="unit-"))
    upper, work, root = room / "memory" / "upper", room / "memory" / "work", room / "root"
    mounted = []
    try:
        (room / "memory").mkdir()
        root.mkdir()
        subprocess.run(["mount", "-t", "tmpfs", "-o", "size=300m", "tmpfs", str(room / "memory")], check=True)
        mounted.append(room / "memory")
        upper.mkdir()
        work.mkdir()
        subprocess.run(["mount", "-t", "overlay", "overlay", "-o", f"lowerdir=/,upperdir={upper},workdir={work}", str(root)], check=True)
        mounted.append(root)
        yield root
    finally:
        for place in reversed(mounted):
            subprocess.run(["umount", str(place)], check=False)
        shutil.rmtree(room, ignore_errors=True)


def try_units(program):
    """What was said in the container."""
    with copy_of_machine() as root:
        # There the program stands where a build puts it.
        built = root / (TOP / "crates" / "centre" / "out" / "centre").relative_to("/")
        built.parent.mkdir(parents=True, exist_ok=True)
        if program != TOP / "crates" / "centre" / "out" / "centre":
            shutil.copyfile(program, built)
            built.chmod(0o755)
        unit = TRIAL_UNIT.format(python=sys.executable, tool=pathlib.Path(__file__).resolve(), said=SAID)
        (root / "etc/systemd/system" / TRIAL).write_text(unit)
        words = ["systemd-nspawn", "--quiet", "--register=no", "--keep-unit", "--machine=tomveul-trial", "-D", str(root), "-b", f"systemd.unit={TRIAL}"]
        subprocess.run(words, stdin=subprocess.DEVNULL, stdout=subprocess.DEVNULL, stderr=subprocess.DEVNULL, timeout=BOOT_SECONDS, check=False)
        return (root / SAID.lstrip("/")).read_text()


def main():
    parser = argparse.ArgumentParser(description=__doc__, formatter_class=argparse.RawDescriptionHelpFormatter)
    parser.add_argument("program", nargs="?", type=pathlib.Path, help="the built program")
    parser.add_argument("--inside", action="store_true", help=argparse.SUPPRESS)
    arguments = parser.parse_args()
    if arguments.inside:
        inside()
    if arguments.program is None:
        parser.error("PROGRAM is wanted")
    if lack := lacking():
        sys.exit(f"left out: this needs {lack}")
    found = try_units(arguments.program.resolve())
    print(found, end="")
    sys.exit(0 if re.search(r"^\d+ checks, 0 wrong$", found, re.M) else 1)


if __name__ == "__main__":
    main()
