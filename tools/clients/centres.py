"""`centre serve` for a test that tries it hard: a configuration, stores and ports of its own, all of which are gone at the end."""
import contextlib
import os
import pathlib
import shutil
import signal
import sys
import tempfile

import pdus
from plain_esme import Ended, Esme
from ports import free_ports
from serving import Serving

PASSWORD = "secret"
# Where its stores lie in its folder.
STORES = "stores"
# A node accepts connections once it has had its first rounds, for which it waits so long at most.
START_SECONDS = 180


def configuration(stores, ports, accounts, own):
    """The text of a configuration. `accounts` has the prefix of the destinations that go to each of them, by their names; `own` has limits."""
    lines = ['system_id = "CENTRE"', "[own]", *(f"{key} = {value}" for key, value in own.items())]
    for node, port in enumerate(ports, 1):
        lines += ["[[node]]", f"number = {node}", f'listen = "127.0.0.1:{port}"', f'store = "{stores}/{node}.db"']
    for name, prefix in accounts.items():
        lines += ["[[account]]", f'system_id = "{name}"', f'password = "{PASSWORD}"', "transmit = true", "receive = true"]
        lines += ["[[route]]", f'prefix = "{prefix}"', f'account = "{name}"']
    return "\n".join(lines) + "\n"


@contextlib.contextmanager
def centre(program, nodes, accounts, keep=False, kind=Serving, **own):
    """A `Serving`, or another kind of it, over so many nodes on disk, which is not started yet, and their ports."""
    folder, ports = pathlib.Path(tempfile.mkdtemp(prefix="centre-")), free_ports(nodes)
    (folder / STORES).mkdir()
    (folder / "centre.toml").write_text(configuration(folder / STORES, ports, accounts, own))
    serving = kind(program, folder / "centre.toml", folder)
    try:
        yield serving, ports
    finally:
        serving.kill()
        if keep:
            print(f"   the folder: {folder}", flush=True)
        else:
            shutil.rmtree(folder, ignore_errors=True)


def started(serving):
    """Starts it, or says why it does not serve."""
    if not serving.start(START_SECONDS):
        raise Ended(f"serve does not serve: {serving.said()}")


def bound(port, name, command=pdus.BIND_TRANSCEIVER, kind=Esme, **given):
    """An ESME of this kind that is bound, also at a node that has just been started."""
    esme = kind(port, **given)
    found = esme.ask(command, pdus.bind_body(name, PASSWORD, 0x34), START_SECONDS)
    if found is None or found.status != pdus.OK:
        esme.close()
        raise Ended(f"the bind of {name} was answered {found}")
    return esme


def octets_of(process):
    """How many octets of memory a process has now, and how many at the most up to now."""
    words = pathlib.Path(f"/proc/{process.pid}/status").read_text().split()
    return tuple(int(words[words.index(name) + 1]) * 1024 for name in ("VmRSS:", "VmHWM:"))


def program_of(word):
    """The path of the program that was given. From now on SIGTERM ends this process in order, with all that it started."""
    program = pathlib.Path(word).resolve()
    if not os.access(program, os.X_OK):
        sys.exit(f"{program} is no program: build it by `rt run -- script < stdin` in crates/centre")
    signal.signal(signal.SIGTERM, lambda *_: sys.exit(1))
    return program
