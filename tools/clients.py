#!/usr/bin/env python3
"""Shows `centre serve` with real clients: Net::SMPP, Kannel and plain sockets bind at three nodes over files, which are started anew in the middle of a run.

    python3 tools/clients.py PROGRAM [--keep] [--only PART]

PROGRAM is the built program, as crates/centre/out/centre. It is started as `PROGRAM serve centre.toml --until-eof` in a temporary folder, on free ports of
127.0.0.1. The parts, which are run one after another over the same stores:

    esme       an ESME by Net::SMPP (clients/esme.pl)
    kannel     Kannel's bearerbox and smsbox (clients/kannel.py)
    plain      what those two never do, over plain sockets (clients/plain.py)
    restart    messages are submitted, `serve` is ended and started anew, then killed and started anew: what was told stays true (clients/restart.py)
    status     over stores of its own: what the server tells of itself, asked with curl (clients/status.py)
    going_on   over stores of its own: ESMEs stay bound while parts of the journal are closed, and nodes start anew (clients/going_on.py)

It installs nothing; `esme` needs Debian's libnet-smpp-perl, and `kannel` its kannel (apt-get install --no-install-recommends kannel libnet-smpp-perl). For
each check it prints `ok NAME` or `not ok NAME: SEEN`, and at last `N checks, M wrong`; the exit status is 1 if any is wrong. It takes about five minutes, and
ten at most, and ends all that it started. With --keep the folder stays, with the configuration, the stores, the log of `serve` and those of Kannel.
"""
import argparse
import os
import pathlib
import shutil
import signal
import subprocess
import sys
import tempfile

CLIENTS = pathlib.Path(__file__).resolve().parent / "clients"
sys.path.insert(0, str(CLIENTS))

from checks import Checks
from going_on import GoingOn
from plain_esme import Ended
from ports import free_ports
from restart import Halves
from serving import ENDED, LINES, LISTENS, Serving
from status import Status

SECONDS = 600
# Steps of the journal, after which `serve` ends.
MOST_ENTRIES = 200_000
PARTS = ("esme", "kannel", "plain", "restart", "status", "going_on")
# What each part needs that is not Python's own: a command that succeeds if it is there, and the Debian package.
NEEDED = {
    "esme": (["perl", "-MNet::SMPP", "-e", "1"], "libnet-smpp-perl"),
    "status": (["curl", "--version"], "curl"),
    "kannel": (["test", "-x", "/usr/sbin/bearerbox", "-a", "-x", "/usr/sbin/smsbox"], "kannel"),
}
# What no line of the log may have: the passwords, and texts of messages.
SECRETS = ("pw1", "pw2", "pwplain", "pwmany", "pwsilent", "pwlost", "Hello", "of many", "vanish", "at once", "in pieces", "before a kill")


def missing(parts):
    """The packages that these parts lack."""
    return [package for part, (command, package) in NEEDED.items()
            if part in parts and (shutil.which(command[0]) is None or subprocess.run(command, capture_output=True).returncode != 0)]


class OutOfTime(Exception):
    pass


def out_of_time(*_):
    raise OutOfTime(f"{SECONDS} seconds are over")


def write_config(folder, changes=()):
    """Writes the configuration with these changes, and gives the ports of its nodes and that of its status."""
    *ports, status = free_ports(4)
    text = (CLIENTS / "centre.toml").read_text()
    for old, new in changes:
        text = text.replace(old, new)
    for word, value in {"FOLDER": folder, "STATUS": status, **{f"NODE{node}": port for node, port in enumerate(ports, 1)}}.items():
        text = text.replace(f"@{word}@", str(value))
    (folder / "centre.toml").write_text(text)
    return ports, status


class Run:
    """The parts over one folder."""

    def __init__(self, program, folder):
        self.checks, self.folder, (self.ports, _) = Checks(), folder, write_config(folder)
        self.serving = Serving(program, folder / "centre.toml", folder)
        self.incarnation = 0

    def check(self, name, is_good, seen="nothing"):
        self.checks.check(f"serve.{name}", is_good, seen)

    def ran(self, *words):
        """The exit status, the lines on standard output and those on standard error of the program with these words, which has to end by itself."""
        try:
            run = subprocess.run([*self.serving.command[:1], *words], stdin=subprocess.DEVNULL, capture_output=True, text=True, errors="replace", timeout=20)
        except subprocess.TimeoutExpired:
            return None, [], []
        return run.returncode, run.stdout.splitlines(), run.stderr.splitlines()

    def program(self):
        """What the program says without serving anybody."""
        for word in ("--help", "--version"):
            status, said, told = self.ran(word)
            self.check(f"says_{word.strip('-')}", status == 0 and said and not told, (status, said, told))
        good, bad = self.folder / "centre.toml", self.folder / "bad.toml"
        status, said, told = self.ran("check", str(good))
        self.check("checks_a_good_file", status == 0 and said and not told, (status, said, told))
        self.check("check_tells_no_passwords", not [line for line in said if any(secret in line for secret in SECRETS)], said)
        bad.write_text(good.read_text() + '[[route]]\nprefix = "9"\naccount = "nobody"\n')
        route = f"route.account (route {bad.read_text().count('[[route]]')})"
        for command in ("check", "serve"):
            self.refused(f"{command}_names_a_bad_value", route, command, str(bad))
        self.refused("names_a_file_that_is_not_there", "", "serve", str(self.folder / "none.toml"))
        self.refused("serve_needs_a_file", "", "serve")
        stores = list(self.folder.glob("*.db*"))
        self.check("makes_no_store_before", not stores, stores)

    def refused(self, name, part, *words):
        """The program says one line, which has this part, and ends with status 1."""
        status, said, told = self.ran(*words)
        self.check(name, status == 1 and not said and len(told) == 1 and part in told[0], (status, said, told))

    def start(self):
        """Starts `serve`, whose nodes are in one incarnation more than at the start before."""
        self.incarnation += 1
        is_up = self.serving.start()
        self.check(f"starts_{self.incarnation}", is_up, self.serving.said)
        if not is_up:
            raise Ended("serve does not serve")
        wanted = [f"node {node}: listens on 127.0.0.1:{port}, incarnation {self.incarnation}, store {self.folder}/{node}.db"
                  for node, port in enumerate(self.ports, 1)]
        found = [line for line in self.serving.lines[self.serving.first:] if LISTENS.fullmatch(line)]
        self.check(f"names_its_nodes_{self.incarnation}", sorted(found) == wanted, found)

    def end(self):
        status = self.serving.end()
        self.check(f"ends_in_order_{self.incarnation}", status == 0, self.serving.said)
        entries = self.serving.says(ENDED)
        self.check(f"says_its_entries_{self.incarnation}", entries and 0 < int(entries[1]) < MOST_ENTRIES, self.serving.said)

    def client(self, part, *command):
        """Runs a client, whose checks are counted here."""
        process = subprocess.Popen(command, stdout=subprocess.PIPE, stderr=subprocess.STDOUT, text=True, errors="replace")
        last = ""
        try:
            for line in process.stdout:
                self.relay(part, line.rstrip("\n"))
                last = line.rstrip("\n") or last
            process.wait(15)
        finally:
            stop(process)
        self.checks.check(f"{part}.comes_to_its_end", last.endswith("wrong") and process.returncode in (0, 1), f"status {process.returncode}: {last}")
        self.check(f"is_up_after_{part}", self.serving.is_up(), self.serving.said)

    def relay(self, part, line):
        """Counts a line of a client, and prints it with the part's name."""
        word, _, rest = line.removeprefix("not ").partition(" ")
        if word != "ok":
            if not line.endswith(" wrong"):
                print(line, flush=True)
            return
        name, _, seen = rest.partition(": ")
        self.checks.check(f"{part}.{name}", not line.startswith("not "), seen)

    def part(self, part):
        first, second, third = map(str, self.ports)
        match part:
            case "esme":
                self.client(part, "perl", str(CLIENTS / "esme.pl"), first, second)
            case "kannel":
                (self.folder / "kannel").mkdir()
                self.client(part, sys.executable, str(CLIENTS / "kannel.py"), first, str(self.folder / "kannel"))
            case "plain":
                self.client(part, sys.executable, str(CLIENTS / "plain.py"), first, second, third)
            case "restart":
                self.restart()
            case "status":
                self.status()
            case "going_on":
                self.going_on()

    def status(self):
        folder = self.folder / "status"
        folder.mkdir()
        ports, status = write_config(folder)
        serving = Serving(self.serving.command[0], folder / "centre.toml", folder)
        try:
            self.checks.check("status.starts", serving.start(), serving.said)
            Status(lambda name, *seen: self.checks.check(f"status.{name}", *seen), status, ports).run()
            self.checks.check("status.ends_in_order", serving.end() == 0, serving.said)
        finally:
            serving.kill()

    def going_on(self):
        """Over stores of its own, with parts of 2,000 entries and a hundred message_ids in an incarnation."""
        folder = self.folder / "going_on"
        folder.mkdir()
        ports, _ = write_config(folder, [("first_serial = 101", "first_serial = 99900"), ("sessions = 20", "sessions = 20\npart_entries = 2000")])
        serving = Serving(self.serving.command[0], folder / "centre.toml", folder)
        try:
            self.checks.check("going_on.starts", serving.start(), serving.said)
            GoingOn(lambda name, *seen: self.checks.check(f"going_on.{name}", *seen), ports, serving).run()
            self.checks.check("going_on.ends_in_order", serving.end() == 0, serving.said)
        finally:
            serving.kill()
        strange = [line for line in serving.lines if not any(pattern.fullmatch(line) for pattern in LINES)]
        self.checks.check("going_on.says_nothing_else", not strange, strange[:3])

    def restart(self):
        halves = Halves(lambda name, *seen: self.checks.check(f"restart.{name}", *seen), self.ports)
        halves.first()
        self.end()
        halves.goodbye()
        self.start()
        halves.second(self.serving.incarnations())
        halves.before_kill()
        self.serving.kill()
        halves.close()
        self.start()
        halves.after_kill()
        halves.open_attempt()
        halves.close()

    def log(self):
        """What `serve` said in all its starts."""
        lines = self.serving.lines
        strange = [line for line in lines if not any(pattern.fullmatch(line) for pattern in LINES)]
        self.check("log_has_known_lines", not strange, strange[:5])
        telling = [line for line in lines if any(secret in line for secret in SECRETS)]
        self.check("log_tells_no_secrets", not telling, telling[:5])
        said = (self.folder / "serve.out").read_bytes()
        self.check("says_nothing_on_standard_output", not said, said[:200])

    def all(self, parts):
        signal.signal(signal.SIGALRM, out_of_time)
        signal.signal(signal.SIGTERM, lambda *_: sys.exit(1))
        signal.alarm(SECONDS)
        try:
            self.program()
            self.start()
            # Its stores are in use. That this changes nothing in them is seen at the next start, by the incarnations.
            self.refused("second_one_is_refused", "", "serve", str(self.folder / "centre.toml"))
            for part in parts:
                self.part(part)
            self.end()
            self.log()
        except (Ended, OSError, ValueError, TypeError, KeyError, OutOfTime) as fault:
            self.check("goes_on", False, f"{type(fault).__name__}: {fault}; {self.serving.said()}")
        finally:
            signal.alarm(0)
            self.serving.kill()


def stop(process):
    """Ends a client, if it has not ended: first so that it can end what it has started."""
    if process.poll() is None:
        process.terminate()
        try:
            process.wait(25)
        except subprocess.TimeoutExpired:
            process.kill()
            process.wait()


def main():
    reader = argparse.ArgumentParser(description=__doc__, formatter_class=argparse.RawDescriptionHelpFormatter)
    reader.add_argument("program", metavar="PROGRAM")
    reader.add_argument("--keep", action="store_true")
    reader.add_argument("--only", choices=PARTS)
    given = reader.parse_args()
    parts = [given.only] if given.only else PARTS
    if packages := missing(parts):
        sys.exit(f"Debian packages are missing: apt-get install --no-install-recommends {' '.join(packages)}")
    program = pathlib.Path(given.program).resolve()
    if not os.access(program, os.X_OK):
        sys.exit(f"{program} is no program: build it by `rt run -- script < stdin` in crates/centre")
    folder = pathlib.Path(tempfile.mkdtemp(prefix="clients-"))
    try:
        run = Run(program, folder)
        run.all(parts)
    finally:
        if given.keep:
            print(f"   the folder: {folder}", flush=True)
        else:
            shutil.rmtree(folder, ignore_errors=True)
    run.checks.end()


if __name__ == "__main__":
    main()
