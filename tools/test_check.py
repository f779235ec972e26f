#!/usr/bin/env python3
"""Looks at what the built program says to who calls it wrongly, or gives it a file that is wrong or hardly meant so.

    python3 tools/test_check.py PROGRAM [--only PART ..]

PROGRAM is the built program. The parts:

    arguments    help and the version in each way that asks for them; options that there are not; --strict
    meaning      what `check` says of a good file: accounts, routes with the longest first, limits as they are, and no password
    warnings     each warning, with its line, by `check` and by `serve`
    faults       each fault: a file that can't be read, no TOML, keys, values, the table own, stores and ports; one line each, and status 1
    modes        who may read the files of stores: of new ones their owner alone; one that is there keeps its mode
    many         5,000 accounts and 5,000 routes within a second

It prints `ok NAME` or `not ok NAME: SEEN` for each check, and at last `N checks, M wrong`; the exit status is 1 if any is wrong. It takes some seconds and the
standard library alone. tools/check does not call it, since it needs the program.
"""
import argparse
import os
import pathlib
import re
import socket
import stat
import subprocess
import sys
import tempfile
import time

sys.path.insert(0, str(pathlib.Path(__file__).resolve().parent / "clients"))

from centres import program_of
from checks import Checks
from ports import free_ports
from serving import Serving, without_moment

VERSION = re.compile(r"centre \d{4}-\d{2}-\d{2} of Tomveul, SMPP 3\.4")
PASSWORD = "hidden"
MANY, MANY_SECONDS, SECONDS = 5_000, 1, 20
# What stands behind it begins with line 13.
GOOD = f"""system_id = "CENTRE"
[[node]]
number = 1
listen = "127.0.0.1:@PORT@"
[[account]]
system_id = "sme1"
password = "{PASSWORD}"
transmit = true
receive = true
[[route]]
prefix = ""
account = "sme1"
"""
TX = f'[[account]]\nsystem_id = "tx"\npassword = "{PASSWORD}"\ntransmit = true\nreceive = false\n'
SECOND = '[[node]]\nnumber = 2\nlisten = "127.0.0.1:{port}"\n'
# What stands behind a good configuration, and what warns of it.
WARNED = {
    "table": ('[[rout]]\nprefix = "2"\n', ["line 13: [[rout]] is not known"]),
    "key": ("[own]\nidel_seconds = 5\n", ["line 14: own.idel_seconds is not known"]),
    "key_of_a_table": ("weight = 1\n", ["line 13: route.weight (route 1) is not known"]),
    "deaf": (TX + '[[route]]\nprefix = "9"\naccount = "tx"\n', ["route 2 leads to tx, which may not receive: its messages are never delivered"]),
    "port": (SECOND.format(port="@PORT@"), ["nodes 1 and 2 listen on one port"]),
    "memory": (SECOND.format(port="@OTHER@") + 'store = "2.db"\n', ["node 1 keeps its records in memory, and others theirs in files"]),
    "store": (SECOND.format(port="@OTHER@") + 'store = "2.db"\n[[node]]\nnumber = 3\nlisten = "127.0.0.1:0"\nstore = "2.db"\n',
              ["node 1 keeps its records in memory, and others theirs in files", "nodes 2 and 3 have one store"]),
}
NOBODY = GOOD.split("[[account]]", maxsplit=1)[0]
# What is put in place of what in a good configuration, and the line that tells why it is none.
FAULTS = {
    "no_toml": ('prefix = ""', 'prefix = "', r"the configuration: no TOML: line 11, column \d+: .+"),
    "no_utf8": ("CENTRE", "\udcff", r"the configuration: no TOML: line 1, column \d+: .+"),
    "given_twice_in_a_table": ("number = 1", "number = 1\nnumber = 1", r"the configuration: no TOML: line 4, column \d+: .+"),
    "missing": ('listen = "127.0.0.1:@PORT@"\n', "", r"the configuration: missing: node\.listen \(node 1\)"),
    "bad_value": (PASSWORD, "ninelong!", r"the configuration: bad value: account\.password \(account 1\)"),
    "nobody": ('account = "sme1"', 'account = "sme2"', r"the configuration: bad value: route\.account \(route 1\)"),
    "given_twice": ("[[route]]", '[[route]]\nprefix = ""\naccount = "sme1"\n[[route]]', r"the configuration: given twice: route\.prefix \(route 2\)"),
    "own": ("[[node]]", "[own]\nsessions = -1\n[[node]]", r"the configuration: bad value: own\.sessions, a whole number from 0 to 65535"),
    "own_table": ("[[node]]", "own = 1\n[[node]]", r"the configuration: no table: own"),
    "own_full": ("[[node]]", '[own]\nfull = "on"\n[[node]]', r'the configuration: bad value: own\.full, which is "end" or not there'),
    "own_status": ("[[node]]", "[own]\nstatus = 9090\n[[node]]",
                   r'the configuration: bad value: own\.status, an address and a port as "127\.0\.0\.1:9090", or not there'),
}
# What the limits of a configuration are by what it says of them.
LIMITS = {
    "": ["a connection on which no octet comes is not ended for that", "a connection on which nobody binds is not ended for that",
         "a connection on which its ESME takes nothing is not ended for that",
         "an attempt that waits for a place fails if no session of its account may receive", "a node has 99 connections at most",
         "a part of the journal is closed after 150000 steps"],
    "[own]\nidle_seconds = 120\nbind_seconds = 10\nwrite_seconds = 60\nlinger_seconds = 30\nsessions = 5000\npart_entries = 7\n":
        ["a connection on which no octet comes for 120 seconds is ended", "a connection on which nobody binds for 10 seconds is ended",
         "a connection on which its ESME takes nothing for 60 seconds is ended",
         "an attempt that waits for a place fails if no session of its account may receive for 30 seconds", "a node has 99 connections at most",
         "a part of the journal is closed after 7 steps"],
    '[own]\nsessions = 5\nfull = "end"\nstatus = "127.0.0.1:9090"\n':
        ["a node has 5 connections at most", "it ends once its journal is full", "the status is served on 127.0.0.1:9090"],
}


class Door:
    """The program, over a folder of its own."""

    def __init__(self, program, folder):
        self.program, self.folder, self.checks = str(program), folder, Checks()
        self.file, self.ports = folder / "centre.toml", free_ports(2)

    def write(self, text):
        for word, port in zip(("@PORT@", "@OTHER@"), self.ports):
            text = text.replace(word, str(port))
        self.file.write_bytes(text.encode(errors="surrogateescape"))

    def ran(self, *words, seconds=SECONDS):
        """The exit status, and the lines on standard output and standard error, of a run that has to end by itself."""
        try:
            run = subprocess.run([self.program, *map(str, words)], stdin=subprocess.DEVNULL, capture_output=True, text=True, errors="replace",
                                 cwd=self.folder, timeout=seconds)
        except subprocess.TimeoutExpired:
            return None, [], []
        return run.returncode, run.stdout.splitlines(), run.stderr.splitlines()

    def check(self, name, is_good, seen):
        self.checks.check(name, is_good, seen)

    def refused(self, name, line, *words):
        """The program tells one line that is this, and ends with status 1."""
        status, said, told = seen = self.ran(*words)
        if words[0] == "serve" and not line.startswith("usage"):
            told = [without_moment(one) for one in told]
        self.check(name, status == 1 and not said and len(told) == 1 and re.fullmatch(line, told[0]), seen)

    def arguments(self):
        for words in (["--help"], ["-h"], ["help"], ["serve", "--help"], ["check", "--help"], ["serve", "-h"]):
            status, said, told = seen = self.ran(*words)
            self.check("_".join(["helps", *words]), status == 0 and not told and any("--until-eof" in line for line in said), seen)
        status, said, told = seen = self.ran("--version")
        self.check("version", status == 0 and not told and len(said) == 1 and VERSION.fullmatch(said[0]), seen)
        self.write(GOOD)
        self.refused("names_an_option_of_serve", "usage: serve has no option --quite; .+", "serve", self.file, "--quiet", "--quite")
        self.refused("names_an_option_of_check", "usage: check has no option --quiet; .+", "check", self.file, "--quiet")
        self.refused("asks_for_a_file", "usage: .+", "serve")
        self.refused("asks_for_the_file_first", "usage: check takes its file before --strict; .+", "check", "--strict", self.file)
        for name, text, strict in (("good", GOOD, 0), ("warned", GOOD + "weight = 1\n", 1)):
            self.write(text)
            for words, wanted in (([], 0), (["--strict"], strict)):
                status, said, told = seen = self.ran("check", self.file, *words)
                self.check("_".join(["check", name, *words]), status == wanted and said and bool(told) == (name == "warned"), seen)

    def meaning(self):
        self.write(GOOD + TX + '[[route]]\nprefix = "4"\naccount = "sme1"\n[[route]]\nprefix = "491"\naccount = "sme1"\n')
        status, said, told = seen = self.ran("check", self.file)
        routes = [line for line in said if "destination" in line]
        self.check("names_the_version", status == 0 and not told and VERSION.fullmatch(said[0]), seen)
        self.check("accounts", {"account sme1 transmits and receives", "account tx transmits"} <= set(said), seen)
        self.check("routes", routes == ["a destination that begins with 491 goes to sme1", "a destination that begins with 4 goes to sme1",
                                        "all other destinations go to sme1"], routes)
        self.check("no_password", not any(PASSWORD in line for line in said), seen)
        for number, (own, wanted) in enumerate(LIMITS.items()):
            self.write(GOOD + own)
            status, said, told = seen = self.ran("check", self.file)
            self.check(f"limits_{number}", status == 0 and set(wanted) <= set(said), seen)

    def warnings(self):
        absent = ["there is no account: nobody may bind", "there is no route: each submit_sm is answered 0x0b"]
        for name, (text, wanted) in {**{name: (GOOD + more, lines) for name, (more, lines) in WARNED.items()}, "absent": (NOBODY, absent)}.items():
            self.write(text)
            _, _, told = self.ran("check", self.file)
            self.check(f"warns_of_{name}", told == [f"warning: {line}" for line in wanted], told)
        self.write(GOOD + "weight = 1\n")
        serving = Serving(self.program, self.file, self.folder)
        self.check("serves", serving.start(), serving.said())
        serving.end()
        self.check("serve_warns", "warning: line 13: route.weight (route 1) is not known" in serving.lines, serving.lines)

    def faults(self):
        for name, (old, new, line) in FAULTS.items():
            self.write(GOOD.replace(old, new, 1))
            for command in ("check", "serve"):
                self.refused(f"{command}_tells_{name}", line, command, self.file)
        none, why = self.folder / "none.toml", r"the file .+ can't be read: .+ \(os error {}\)"
        self.refused("file_that_is_not_there", why.format(2), "serve", none)
        self.refused("folder_for_a_file", why.format(21), "check", self.folder)
        if os.geteuid():
            none.touch(0o000)
            self.refused("file_that_may_not_be_read", why.format(13), "check", none)
            none.unlink()
        store = r"the store of node 1, .+, can't be opened: {}"
        self.write(GOOD.replace("[[account]]", f'store = "{self.folder}/none/1.db"\n[[account]]', 1))
        self.refused("store_without_a_folder", store.format(r".+ \(os error 2\)"), "serve", self.file)
        (self.folder / "none").mkdir()
        self.write(GOOD.replace("[[account]]", f'store = "{self.folder}/none"\n[[account]]', 1))
        self.refused("store_that_is_a_folder", store.format(r".+ \(os error 21\)"), "serve", self.file)
        self.write(GOOD.replace("[[account]]", 'store = "1.db"\n[[account]]', 1))
        serving = Serving(self.program, self.file, self.folder)
        os.chdir(self.folder)
        self.check("serves_for_another", serving.start(), serving.said())
        self.refused("store_that_is_open", store.format("another process has it open.+"), "serve", self.file)
        serving.end()
        with socket.socket() as taken:
            taken.bind(("127.0.0.1", self.ports[0]))
            taken.listen()
            self.refused("port_that_is_taken", rf"no node can listen on 127\.0\.0\.1:{self.ports[0]}: .+ \(os error 98\)", "serve", self.file)

    def modes(self):
        self.write(GOOD.replace("[[account]]", f'store = "{self.folder}/new.db"\n[[account]]', 1))
        for name, given, wanted in (("new", None, 0o600), ("given", 0o640, 0o640)):
            if given:
                os.chmod(self.folder / "new.db", given)
            serving = Serving(self.program, self.file, self.folder)
            before = os.umask(0o022)
            self.check(f"serves_{name}", serving.start(), serving.said())
            os.umask(before)
            serving.end()
            modes = {path.name: oct(stat.S_IMODE(path.stat().st_mode)) for path in self.folder.glob("new.db*")}
            self.check(f"mode_of_a_{name}_store", modes["new.db"] == oct(wanted) and modes["new.db-wal"] == oct(0o600), modes)

    def many(self):
        lines = ['system_id = "CENTRE"', "[[node]]", "number = 1", 'listen = "127.0.0.1:0"']
        for number in range(MANY):
            lines += ["[[account]]", f'system_id = "sme{number:06}"', f'password = "{PASSWORD}"', "transmit = true", "receive = true"]
            lines += ["[[route]]", f'prefix = "49{number:06}"', f'account = "sme{MANY - 1 - number:06}"']
        self.write("\n".join(lines) + "\n")
        begin = time.monotonic()
        status, said, told = self.ran("check", self.file, seconds=120)
        seconds = time.monotonic() - begin
        self.check("many_accounts_and_routes", status == 0 and len(said) > 2 * MANY and not told and seconds < MANY_SECONDS, f"{seconds:.2f} s, {status}, {told}")


PARTS = ("arguments", "meaning", "warnings", "faults", "modes", "many")


def main():
    parser = argparse.ArgumentParser(description=__doc__, formatter_class=argparse.RawDescriptionHelpFormatter)
    parser.add_argument("program", metavar="PROGRAM")
    parser.add_argument("--only", nargs="+", choices=PARTS, default=PARTS, metavar="PART", help=f"these alone: {', '.join(PARTS)}")
    given = parser.parse_args()
    program = program_of(given.program)
    with tempfile.TemporaryDirectory(prefix="door-") as folder:
        door = Door(program, pathlib.Path(folder))
        for part in given.only:
            getattr(door, part)()
        door.checks.end()


if __name__ == "__main__":
    main()
