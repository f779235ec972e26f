#!/usr/bin/env python3
"""Looks what a node's store on disk makes of files that stock SQLite wrote, and what that makes of the store's own.

    python3 tools/store_checks.py PROGRAM

PROGRAM is bench/store/main.rt.in, built in a crate of its own as bench/store.py does it. Each file is made by Python's sqlite3: a sound one, one with each kind
of damage, with other tables, with one table alone, and what is no database. The store opens, loads or refuses it as the table below says; a file that it
refuses has the same octets after it. A directory is refused, too, and a file that the user may not read, or may read and not write: if the user is root,
another one, 65534, opens that. The exit status is 1 if something differs.
"""
import argparse
import hashlib
import os
import pathlib
import shutil
import sqlite3
import subprocess
import sys
import tempfile

LIFE = "CREATE TABLE life (one INTEGER PRIMARY KEY CHECK (one = 1), incarnation INTEGER NOT NULL)"
SLOTS = ("CREATE TABLE slots (id INTEGER NOT NULL, place INTEGER NOT NULL, promised INTEGER NOT NULL, voted INTEGER NOT NULL,"
         " chain BLOB NOT NULL, PRIMARY KEY (id, place))")
BOTH = (LIFE, SLOTS)
# The chain of one Taken on message 1000100001, and the least ballot: round 1, incarnation 1, node 1.
CHAIN = bytes.fromhex(
    "01 000000003b9c50a1 0001 01 01 0001 386d4380 04736d6531 04736d6531 00 010103313434 010103313535 0000000100 386d4380 38713800 024869 0000"
)
ID, BALLOT = 1000100001, 262161
ROW = (ID, 0, BALLOT, BALLOT, CHAIN)


def row(**changed):
    """That row, with some columns changed."""
    return tuple({**dict(zip(("id", "place", "promised", "voted", "chain"), ROW)), **changed}.values())


def put(path, tables=BOTH, rows=(), life=(), loose=False):
    """A file with these tables and rows. If it is loose, rows that the tables refuse are put in before the tables say what they refuse."""
    base = sqlite3.connect(path)
    for table in tables:
        base.execute(table.replace(" NOT NULL", "") if loose else table)
    base.execute("PRAGMA ignore_check_constraints = ON")
    base.executemany("INSERT INTO slots VALUES (?, ?, ?, ?, ?)", rows)
    base.executemany("INSERT INTO life VALUES (?, ?)", life)
    if loose:
        base.execute("PRAGMA writable_schema = ON")
        for table in tables:
            base.execute("UPDATE sqlite_master SET sql = ? WHERE type = 'table' AND name = ?", (table, table.split()[2]))
    base.commit()
    base.close()


def octets(path, content):
    path.write_bytes(content)


# What each file is, how it is made, and what the store says of it when it opens, when it loads, and of the next incarnation. A fault of the opening is told by
# all three.
DEVICE = ("Device",) * 3
CASES = [
    ("no row", lambda p: put(p), ("0", "0", "1")),
    ("a vote, after the first incarnation", lambda p: put(p, rows=[ROW], life=[(1, 1)]), ("0", "1", "2")),
    ("a promise without a vote", lambda p: put(p, rows=[row(voted=0, chain=b"")]), ("0", "1", "1")),
    ("the tables in the other order", lambda p: put(p, tables=(SLOTS, LIFE), rows=[ROW], life=[(1, 1)]), ("0", "1", "2")),
    ("an empty file", lambda p: octets(p, b""), ("0", "0", "1")),
    ("a place that is a REAL", lambda p: put(p, rows=[row(place=0.5)]), ("0", "Damaged", "1")),
    ("a promise that is a TEXT", lambda p: put(p, rows=[row(promised="x")]), ("0", "Damaged", "1")),
    ("a chain that is a TEXT", lambda p: put(p, rows=[row(chain="x")]), ("0", "Damaged", "1")),
    ("a negative id", lambda p: put(p, rows=[row(id=-1)]), ("0", "Damaged", "1")),
    ("an id of no node", lambda p: put(p, rows=[row(id=1)]), ("0", "Damaged", "1")),
    ("a place out of range", lambda p: put(p, rows=[row(place=256)]), ("0", "Damaged", "1")),
    ("a promise that is no ballot", lambda p: put(p, rows=[row(promised=1, voted=0, chain=b"")]), ("0", "Damaged", "1")),
    ("a vote above its promise", lambda p: put(p, rows=[row(voted=BALLOT + 1)]), ("0", "Damaged", "1")),
    ("a chain under another slot", lambda p: put(p, rows=[row(place=1)]), ("0", "Damaged", "1")),
    ("a chain under another message", lambda p: put(p, rows=[row(id=ID + 1)]), ("0", "Damaged", "1")),
    ("a cut chain", lambda p: put(p, rows=[row(chain=CHAIN[:-1])]), ("0", "Damaged", "1")),
    ("a vote without a chain", lambda p: put(p, rows=[row(chain=b"")]), ("0", "Damaged", "1")),
    ("a chain without a vote", lambda p: put(p, rows=[row(voted=0)]), ("0", "Damaged", "1")),
    ("a sound row and a damaged one", lambda p: put(p, rows=[ROW, row(place=1)]), ("0", "Damaged", "1")),
    ("an incarnation that is a TEXT", lambda p: put(p, life=[(1, "x")]), ("0", "0", "Damaged")),
    ("the incarnation 0", lambda p: put(p, life=[(1, 0)]), ("0", "0", "Damaged")),
    ("the incarnation 10000", lambda p: put(p, life=[(1, 10000)]), ("0", "0", "Damaged")),
    ("the last incarnation", lambda p: put(p, life=[(1, 9999)]), ("0", "0", "Incarnations")),
    ("life alone", lambda p: sqlite3.connect(p).execute(LIFE).connection.commit(), ("0", "0", "1")),
    ("slots alone", lambda p: sqlite3.connect(p).execute(SLOTS).connection.commit(), ("0", "0", "1")),
    # Rows that their own tables refuse: SQLite itself finds such a file unsound, so it is refused when it opens.
    ("an id that is NULL", lambda p: put(p, rows=[row(id=None)], loose=True), DEVICE),
    ("a chain that is NULL", lambda p: put(p, rows=[row(chain=None)], loose=True), DEVICE),
    ("an incarnation that is NULL", lambda p: put(p, life=[(1, None)], loose=True), DEVICE),
    ("a row too many", lambda p: put(p, life=[(1, 1), (2, 1)]), DEVICE),
    ("another table", lambda p: put(p, tables=(*BOTH, "CREATE TABLE other (x)")), DEVICE),
    ("an index more", lambda p: put(p, tables=(*BOTH, "CREATE INDEX more ON slots (promised)")), DEVICE),
    ("a view", lambda p: put(p, tables=(*BOTH, "CREATE VIEW seen AS SELECT id FROM slots")), DEVICE),
    ("another column", lambda p: put(p, tables=(LIFE, SLOTS.replace("voted INTEGER NOT NULL", "voted TEXT NOT NULL"))), DEVICE),
    ("a life without its check", lambda p: put(p, tables=(LIFE.replace(" CHECK (one = 1)", ""), SLOTS)), DEVICE),
    ("no database", lambda p: octets(p, b"This is no database, but a text that is longer than its header. " * 40), DEVICE),
]


# What a file is of which the rights are taken, and how it is made: all its rows can be loaded, or none.
CONTENTS = [
    ("a sound file", lambda p: put(p, rows=[ROW], life=[(1, 1)])),
    ("a damaged file", lambda p: put(p, rows=[row(chain=CHAIN[:-1])], life=[(1, 0)])),
]
# Which rights there are, of the file and of its folder.
RIGHTS = [
    ("may not be read", 0o000, 0o777),
    ("may be read alone", 0o444, 0o777),
    ("may be read alone, in a folder that may not be written", 0o444, 0o555),
    ("may be written alone", 0o222, 0o777),
    ("stands in a folder that may not be entered", 0o666, 0o000),
]
# The user that has no other rights: root has all.
NOBODY = {"user": 65534, "group": 65534, "extra_groups": []} if os.geteuid() == 0 else {}


def said(program, way, path, **user):
    """What the program prints. It ends by itself, whatever the file is."""
    run = subprocess.run([program, way, str(path), "1", "0"], capture_output=True, text=True, timeout=60, **user)
    return run.stdout.strip() if run.returncode in (0, 1) else f"status {run.returncode}"


def digest(path):
    return hashlib.sha256(path.read_bytes()).hexdigest()


def differs(program, work, name, make, wanted):
    """What the store says otherwise than it should."""
    for way, expected in zip(("open", "load", "next"), wanted):
        path = work / "node.db"
        for old in work.glob("node.db*"):
            old.unlink()
        make(path)
        before = digest(path)
        found = said(program, way, path)
        if found != expected:
            yield f"{name}: {way} says {found}, and not {expected}"
        if expected in ("Device", "Damaged") and "alone" not in name and digest(path) != before:
            yield f"{name}: {way} changed the file"


def not_files(program, work):
    """The same of a directory, of a file without rights, and of what is written by the store itself."""
    folder = work / "folder.db"
    folder.mkdir()
    if said(program, "open", folder) != "Device":
        yield "a directory is not refused"
    own = work / "own.db"
    if said(program, "open", own) != "0" or subprocess.run([program, "save", str(own), "3", "5"], capture_output=True).returncode != 0:
        yield "the store does not save to a new file"
    base = sqlite3.connect(own)
    # Five saves over three slots: the first two are saved once more, in the second round.
    saved = [(ID + more, 0, ballot, ballot, 150) for more, ballot in enumerate((BALLOT + 262144, BALLOT + 262144, BALLOT))]
    if base.execute("SELECT id, place, promised, voted, length(chain) FROM slots ORDER BY id").fetchall() != saved:
        yield "SQLite does not read what the store saved"
    if base.execute("PRAGMA integrity_check").fetchall() != [("ok",)]:
        yield "SQLite finds the store's file unsound"
    if [text for text, in base.execute("SELECT sql FROM sqlite_master WHERE sql NOT NULL ORDER BY name")] != list(BOTH):
        yield "the store's tables have other texts"


def without_rights(program, work):
    """What the store says otherwise than Device of a file without rights, and whether it changes it."""
    folder, own = work / "rights", work / "program"
    folder.mkdir()
    shutil.copy(program, own)
    for path in (work, own):
        path.chmod(0o755)
    for what, make in CONTENTS:
        for right, of_file, of_folder in RIGHTS:
            for way in ("open", "load", "next"):
                path = folder / "node.db"
                for old in folder.iterdir():
                    old.unlink()
                make(path)
                before = digest(path)
                path.chmod(of_file)
                folder.chmod(of_folder)
                found = said(own, way, path, **NOBODY)
                folder.chmod(0o755)
                path.chmod(0o644)
                if found != "Device":
                    yield f"{what} that {right}: {way} says {found}, and not Device"
                if digest(path) != before:
                    yield f"{what} that {right}: {way} changed the file"


def main():
    reader = argparse.ArgumentParser(description=__doc__, formatter_class=argparse.RawDescriptionHelpFormatter)
    reader.add_argument("program", metavar="PROGRAM")
    program = reader.parse_args().program
    with tempfile.TemporaryDirectory(prefix="stores-") as folder:
        work = pathlib.Path(folder)
        wrong = [line for name, make, wanted in CASES for line in differs(program, work, name, make, wanted)]
        wrong += not_files(program, work)
        wrong += without_rights(program, work)
    print(*wrong, f"{3 * (len(CASES) + len(CONTENTS) * len(RIGHTS)) + 2} openings, {len(wrong)} wrong", sep="\n")
    sys.exit(1 if wrong else 0)


if __name__ == "__main__":
    main()
