#!/usr/bin/env python3
"""Prints how many messages a second `centre serve` takes and delivers, over 1, 3 and 9 nodes, in memory and over files, and what processor time a message
costs; and beside it what others do that do a part of its work.

    python3 bench/serve.py PROGRAM [MESSAGES [CENTRE]]
    python3 bench/serve.py --files PROGRAM [MESSAGES]
    python3 bench/serve.py --idle PROGRAM
    python3 bench/serve.py --held PROGRAM

A client at each node binds over a plain socket of 127.0.0.1, keeps ten submit_sm open, and gets its own messages back, each of which it answers at once; no
receipt is asked for. MESSAGES (1,000) are shared among the clients of a run. Printed for each run are the submit_sm answered in a second, up to the last
answer; the messages delivered in a second, up to the last deliver_sm; the processor time of `serve` for a message, of /proc/PID/stat, which counts hundredths
of a second; and how many times a second a plain loop writes a page to a file beside the stores and has it on the disk (fdatasync), just before the run and just
after it; and how many parts of the journal were closed meanwhile, with the longest pause. Clients, server and loop share the processors. A run takes two
minutes at most, and then says what was left.

In the same table, by turns and with the same clients: `law` and `plain`, the two servers of bench/peer_server over the same nodes, if rustc and Debian's
libsqlite3-dev are there. And others, with one client and the same messages: CENTRE, a Python file of a message centre in one process, run as `python3 CENTRE PORT
SECONDS`, which does the same for its client, and keeps nothing, neither on a disk nor on other nodes. Kannel (Debian's `kannel`, if it is there) is no centre
but an ESME: what it is given are deliver_sm, ten open at a time, it answers each once it is in its queue, and hands it on by HTTP; with a store it writes each
to a file, without a wait for the disk. So it agrees on nothing and tries nothing again.

Then come delays: over three nodes a client at each submits ten messages a second, one behind the other, which go to itself. Printed are the median and the 99th
percentile of the milliseconds from a submit_sm to its response, and to the deliver_sm.

Then what waits for others: over two nodes in memory 20,000 and 90,000 messages wait for an account that is away, or whose ESME at node 1 takes ten and answers
none: half of them at each node, since one alone would have few message_ids left, and start anew. Printed are the messages of another account that are
delivered a second meanwhile at node 1, of 2,000, and the 99th percentile of the answers to their submit_sm.

Then, or with --idle alone, comes what `serve` takes that nobody is connected to: how often its threads go to sleep in a second, of /proc/PID/task, so how often
they wake, and its processor time a second.

Last come the fdatasync and fsync that `serve` itself makes for a message, by strace, in runs of their own (if strace is there).

With --files alone it prints what the three servers deliver over three nodes over files, five times by turns, with one client at each node and with ten, so with
30 and with 300 messages in flight, and the medians; and the fdatasync of each for a message, in runs of their own.

With --held alone it prints what `serve` holds over three nodes in memory once 1,000, 6,000, 24,000 and 50,000 messages of one run were submitted and delivered:
the memory of the process, and its peak so far, of /proc/PID/status, what a message took more since the line before, and the processor time of a message since
then. The journal holds up to 150,000 entries, whatever has ended, so from one line to the next the memory rises or falls by what these take. malloc keeps
what was given back, the more the more arenas it has: set MALLOC_ARENA_MAX as the unit of docs/OPERATING.md does. It takes minutes.
"""
import argparse
import os
import pathlib
import re
import shutil
import statistics
import sys
import tempfile
import time

TOP = pathlib.Path(__file__).resolve().parent.parent
sys.path[:0] = [str(TOP / "tools" / "clients"), str(TOP / "bench")]

import pdus
from beside import BEARERBOX, OtherCentre, PeerServer, fed_kannel, peer_servers, processor_seconds
from plain_esme import Ended, Esme, wait
from ports import free_ports
from serving import Serving

WINDOW = 10
MESSAGES, MOST_MESSAGES = 1_000, 50_000
SECONDS = 120
NODES = (1, 3, 9)
FILE_NODES, FILE_CLIENTS, TURNS = 3, (1, 10), 5
DELAY_NODES, DELAY_SECONDS = 3, 20
WAITING, WAITING_MESSAGES = (0, 20_000, 90_000), 2_000
SYNCS, SYNC_SECONDS = 500, 2
IDLE_SECONDS, BEFORE_IDLE = 20, 3
HELD_NODES, HELD, HELD_SECONDS, HELD_REST = 3, (1_000, 6_000, 24_000, 50_000), 1_200, 2
MEMORY = re.compile(r"^(VmHWM|VmRSS):\s+(\d+) kB", re.M)
SLEEPS = re.compile(r"^voluntary_ctxt_switches:\s+(\d+)", re.M)
SYNC = re.compile(r"\b(?:fdatasync|fsync)\(")
HEAD = """| What | Stores | Messages | Submits answered a second | Delivered a second | Processor time a message | fdatasync a second | Parts closed |
|---|---|---|---|---|---|---|---|"""
PART = re.compile(r"part \d+: .*, closed in (\d+) ms")


def write_config(folder, nodes, over_files):
    """Writes the configuration, and gives the ports of its nodes. There are nine accounts, whatever the nodes."""
    ports = free_ports(nodes)
    lines = ['system_id = "CENTRE"']
    for node, port in enumerate(ports, 1):
        lines += ["[[node]]", f"number = {node}", f'listen = "127.0.0.1:{port}"'] + over_files * [f'store = "{folder}/{node}.db"']
    for account in range(1, 10):
        lines += ["[[account]]", f'system_id = "load{account}"', 'password = "load"', "transmit = true", "receive = true"]
        lines += ["[[route]]", f'prefix = "{account}"', f'account = "load{account}"']
    (folder / "centre.toml").write_text("\n".join(lines) + "\n")
    return ports


class Steady:
    """A client that submits a message each tenth of a second: when each was sent, answered and delivered, by its number."""

    def __init__(self, port, account, destination):
        self.esme, self.destination = Esme(port), destination
        self.sent, self.answered, self.delivered, self.sequences = [], {}, {}, {}
        found = self.esme.bind(account, "load")
        if found is None or found.status != pdus.OK:
            raise Ended(f"the bind of {account} was answered {found}")

    def submit(self):
        number = len(self.sent)
        self.sent.append(time.monotonic())
        body = pdus.message_body(b"%d" % number, source="144", destination=self.destination)
        self.sequences[self.esme.request(pdus.SUBMIT_SM, body)] = number

    def go_on(self):
        """Notes what came."""
        now = time.monotonic()
        for sequence in [one for one in self.esme.answers if one in self.sequences]:
            self.answered[self.sequences.pop(sequence)] = now
            if self.esme.answers.pop(sequence).status != pdus.OK:
                raise Ended("a submit_sm was refused")
        for message in self.esme.delivered[len(self.delivered):]:
            self.delivered[int(message["short_message"])] = now

    def delays(self, moments):
        return [1e3 * (moments[number] - sent) for number, sent in enumerate(self.sent) if number in moments]


class Client:
    """One client: how many of its messages were sent, answered and delivered, and how long the answers took."""

    def __init__(self, port, messages, account, password, destination, command=pdus.BIND_TRANSCEIVER):
        self.esme, self.left, self.open = Esme(port), messages, {}
        self.wanted, self.answered, self.refused, self.delays = messages, 0, 0, []
        self.body = pdus.message_body(b"a message of the load test", source="144", destination=destination)
        found = self.esme.bind(account, password, command)
        if found is None or found.status != pdus.OK:
            raise Ended(f"the bind of {account} was answered {found}")

    def go_on(self):
        """Takes what was answered, and fills the window."""
        now = time.monotonic()
        for sequence in [one for one in self.open if one in self.esme.answers]:
            self.delays.append(1e3 * (now - self.open.pop(sequence)))
            self.answered += 1
            self.refused += self.esme.answers.pop(sequence).status != pdus.OK
        room = min(WINDOW - len(self.open), self.left)
        if room:
            frames = [self.esme.framed(pdus.SUBMIT_SM, self.body) for _ in range(room)]
            self.open.update(dict.fromkeys(range(self.esme.sequence - room + 1, self.esme.sequence + 1), now))
            self.left -= room
            self.esme.send(b"".join(frames))

    def delivered(self):
        return len(self.esme.delivered)


def syncs_a_second(folder):
    """How often a page is written and on the disk, in a second."""
    path, count, begun = folder / "sync", 0, time.monotonic()
    with open(path, "wb", buffering=0) as file:
        while count < SYNCS and time.monotonic() < begun + SYNC_SECONDS:
            file.write(bytes(4096))
            os.fdatasync(file.fileno())
            count += 1
    path.unlink()
    return count / (time.monotonic() - begun)


def load(clients, seconds=SECONDS):
    """The seconds until all submits were answered, and until all messages were delivered; None for what did not come to its end in so many."""
    begun, esmes, moments = time.monotonic(), [client.esme for client in clients], {}

    def is_done():
        for client in clients:
            client.go_on()
        now = time.monotonic() - begun
        if "answered" not in moments and all(client.answered == client.wanted for client in clients):
            moments["answered"] = now
        if "delivered" not in moments and sum(client.delivered() - client.wanted + client.refused for client in clients) >= 0:
            moments["delivered"] = now
        return len(moments) == 2
    wait(esmes, is_done, seconds)
    return moments.get("answered"), moments.get("delivered")


def parts_of(serving):
    """How many parts of the journal were closed, and the longest pause."""
    pauses = [int(found[1]) for line in serving.lines if (found := PART.fullmatch(line))]
    return f"{len(pauses)}, {max(pauses)} ms" if pauses else "0"


def clients_of(ports, messages, each=1):
    """So many clients at each node, with their shares of the messages."""
    share = messages // len(ports) // each
    return [Client(port, share, f"load{node}", "load", f"{node}55") for node, port in enumerate(ports, 1) for _ in range(each)]


def rate(count, seconds):
    return f"{count / seconds:,.0f}" if seconds else "not all in time"


def put(*cells):
    print("| " + " | ".join(map(str, cells)) + " |", flush=True)


class Server:
    """A program that serves: `centre serve`, or one of bench/peer_server by its kind."""

    def __init__(self, program, kind="serve"):
        self.program, self.kind = program, kind

    def at(self, folder, ports, over_files=False):
        """The server that a folder has the configuration of."""
        if self.kind == "serve":
            return Serving(self.program, folder / "centre.toml", folder)
        return PeerServer(self.program, self.kind, folder if over_files else None, ports)


def run(server, folder, nodes, over_files, messages, each=1):
    """A line of the table; the messages delivered a second, and the processor time of each, in milliseconds."""
    ports = write_config(folder, nodes, over_files)
    before = syncs_a_second(folder)
    serving = server.at(folder, ports, over_files)
    try:
        if not serving.start():
            sys.exit(f"{server.kind} does not serve: {serving.said()}")
        clients = clients_of(ports, messages, each)
        used = processor_seconds(serving.process.pid)
        answered, delivered = load(clients)
        used = processor_seconds(serving.process.pid) - used
        status = serving.end()
    except Ended as fault:
        sys.exit(f"{nodes} nodes: {fault}; {serving.said()}")
    finally:
        serving.kill()
    count, refused = sum(client.wanted for client in clients), sum(client.refused for client in clients)
    syncs = f"{before:,.0f} and {syncs_a_second(folder):,.0f}"
    what = f"{server.kind}, {nodes} node{'s' * (nodes > 1)}" + (each > 1) * f", {each} clients at each"
    rates = [rate(count, answered), rate(count, delivered), f"{1e3 * used / count:.2f} ms"]
    put(what, "files" if over_files else "memory", f"{count:,}", *rates, syncs, parts_of(serving))
    if refused or status != 0 or not delivered:
        came = sum(client.delivered() for client in clients)
        print(f"   {refused} submit_sm were refused, {came} messages came, {serving.said()}", flush=True)
    return count / delivered if delivered else 0, 1e3 * used / count


def fill(port, count):
    """So many messages wait for the account of the ninth digit."""
    feeder = Client(port, count, "load9", "load", "955", pdus.BIND_TRANSMITTER)

    def is_done():
        feeder.go_on()
        return feeder.answered == count
    wait([feeder.esme], is_done, SECONDS)
    if feeder.refused:
        raise Ended(f"{feeder.refused} of what is to wait was refused")
    feeder.esme.close()


def run_beside_waiting(server, folder, count, is_silent):
    """A line of the table of what waits for another account: that is away, or bound and answers nothing."""
    ports = write_config(folder, 2, False)
    serving = server.at(folder, ports)
    try:
        if not serving.start():
            sys.exit(f"{server.kind} does not serve: {serving.said()}")
        with Esme(ports[0]) as silent:
            silent.status = None
            if is_silent:
                silent.bind("load9", "load")
            for port in ports:
                fill(port, count // len(ports))
            client = Client(ports[0], WAITING_MESSAGES, "load1", "load", "155")
            _, delivered = load([client])
        serving.end()
    except Ended as fault:
        sys.exit(f"{count} that wait: {fault}; {serving.said()}")
    finally:
        serving.kill()
    delays = sorted(client.delays)
    late = f"{delays[len(delays) * 99 // 100]:.1f}" if delays else "none came"
    put(server.kind, f"{count:,}", "silent" if is_silent else "away", rate(WAITING_MESSAGES, delivered), late)


def submit_steadily(clients, seconds):
    """Each client submits a message in each tenth of a second, by turns; then what is on its way comes."""
    begun, esmes = time.monotonic(), [client.esme for client in clients]
    for turn in range(int(seconds * 10 * len(clients))):
        due = begun + turn / (10 * len(clients))

        def is_due():
            for client in clients:
                client.go_on()
            return time.monotonic() >= due
        wait(esmes, is_due, SECONDS)
        clients[turn % len(clients)].submit()

    def is_done():
        for client in clients:
            client.go_on()
        return all(len(client.delivered) == len(client.sent) == len(client.answered) for client in clients)
    wait(esmes, is_done, SECONDS)


def run_steadily(server, folder, over_files):
    """A line of the table of delays."""
    ports = write_config(folder, DELAY_NODES, over_files)
    serving = server.at(folder, ports, over_files)
    try:
        if not serving.start():
            sys.exit(f"{server.kind} does not serve: {serving.said()}")
        clients = [Steady(port, f"load{node}", f"{node}55") for node, port in enumerate(ports, 1)]
        submit_steadily(clients, DELAY_SECONDS)
        serving.end()
    except Ended as fault:
        sys.exit(f"delays: {fault}; {serving.said()}")
    finally:
        serving.kill()
    count = sum(len(client.sent) for client in clients)
    cells = []
    for moments in ("answered", "delivered"):
        delays = sorted(delay for client in clients for delay in client.delays(getattr(client, moments)))
        cells += [f"{delays[len(delays) // 2]:.1f}", f"{delays[len(delays) * 99 // 100]:.1f}"] if len(delays) == count else ["not all in time"] * 2
    put(server.kind, "files" if over_files else "memory", f"{count:,}", *cells)


def run_other(file, messages):
    """The line of another centre."""
    other = OtherCentre(file)
    try:
        if not other.serves():
            return print(f"   {file} does not serve", flush=True)
        client = Client(other.port, messages, "sme1", "pw1", "155")
        used = processor_seconds(other.process.pid)
        answered, delivered = load([client])
        used = processor_seconds(other.process.pid) - used
        put(pathlib.Path(file).name, "memory", f"{messages:,}", rate(messages, answered), rate(messages, delivered), f"{1e3 * used / messages:.2f} ms", "", "")
    finally:
        other.end()


def run_kannel(folder, messages, in_file):
    """The line of Kannel, as an ESME that takes messages."""
    answered, delivered, used = fed_kannel(folder, messages, in_file)
    store = "file" if in_file else "memory"
    put("Kannel, as an ESME", store, f"{messages:,}", rate(messages, answered), rate(messages, delivered), f"{1e3 * used / messages:.2f} ms", "", "")


def count_syncs(server, folder, nodes, messages, each=1):
    """The line of the fdatasync and fsync that a server makes for a message."""
    ports, told = write_config(folder, nodes, True), folder / "strace"
    serving = server.at(folder, ports, True)
    serving.command[:0] = ["strace", "-f", "-qq", "-e", "trace=fdatasync,fsync", "-o", str(told)]

    def calls():
        return len(SYNC.findall(told.read_text()))
    try:
        if not serving.start():
            sys.exit(f"{server.kind} does not serve under strace: {serving.said()}")
        clients = clients_of(ports, messages, each)
        count, before = sum(client.wanted for client in clients), calls()
        load(clients)
        put(server.kind, nodes, nodes * each * WINDOW, f"{count:,}", f"{(calls() - before) / count:.2f}")
    finally:
        serving.end()


def count_all_syncs(runs):
    """The table of fdatasync, of runs with a server, nodes, messages, and clients at each."""
    if not shutil.which("strace"):
        sys.exit("strace is not here, so the fdatasync are not counted")
    print("\n| What | Nodes, over files | Messages in flight | Messages | fdatasync and fsync a message |\n|---|---|---|---|---|", flush=True)
    for one in runs:
        in_a_folder(lambda folder: count_syncs(one[0], folder, *one[1:]))


def run_files(servers, messages):
    """The tables of three nodes over files, with few and with many messages in flight."""
    print(HEAD, flush=True)
    for each in FILE_CLIENTS:
        found = {server.kind: [] for server in servers}
        for _ in range(TURNS):
            for server in servers:
                in_a_folder(lambda folder: found[server.kind].append(run(server, folder, FILE_NODES, True, messages, each)))
        for kind, figures in found.items():
            delivered, used = (statistics.median(figure) for figure in zip(*figures))
            put(f"{kind}, median", "files", f"{FILE_NODES * each * WINDOW} in flight", "", f"{delivered:,.0f}", f"{used:.2f} ms", "", "")
    count_all_syncs((server, FILE_NODES, messages, each) for each in FILE_CLIENTS for server in servers)


def sleeps(pid):
    """How often the threads of a process have gone to sleep."""
    tasks = pathlib.Path(f"/proc/{pid}/task").glob("*/status")
    return sum(int(SLEEPS.search(task.read_text())[1]) for task in tasks)


def run_idle(program, folder, nodes):
    """A line of the table of an idle server."""
    serving = Server(program).at(folder, write_config(folder, nodes, False))
    try:
        if not serving.start():
            sys.exit(f"serve does not serve: {serving.said()}")
        time.sleep(BEFORE_IDLE)
        pid = serving.process.pid
        woken, used = sleeps(pid), processor_seconds(pid)
        time.sleep(IDLE_SECONDS)
        woken, used = sleeps(pid) - woken, processor_seconds(pid) - used
        serving.end()
    finally:
        serving.kill()
    put(nodes, f"{woken / IDLE_SECONDS:,.1f}", f"{1e3 * used / IDLE_SECONDS:.1f} ms")


def run_all_idle(program):
    """The table of an idle server."""
    print("\n| Nodes, in memory, nobody connected | Wakes a second | Processor time a second |\n|---|---|---|", flush=True)
    for nodes in NODES:
        in_a_folder(lambda folder: run_idle(program, folder, nodes))


def memory_of(pid):
    """The octets of memory that a process has, and its peak so far."""
    found = {one[1]: int(one[2]) * 1_024 for one in MEMORY.finditer(pathlib.Path(f"/proc/{pid}/status").read_text())}
    return found["VmRSS"], found["VmHWM"]


def run_held(program, folder):
    """The table of what the server holds behind messages that have ended."""
    arenas = os.environ.get("MALLOC_ARENA_MAX", "not set")
    print(f"| Messages that have ended, MALLOC_ARENA_MAX {arenas} | Memory | Peak | More, a message | Processor time a message | Parts closed |\n|---|---|---|---|---|---|")
    ports = write_config(folder, HELD_NODES, False)
    serving = Server(program).at(folder, ports)
    try:
        if not serving.start():
            sys.exit(f"serve does not serve: {serving.said()}")
        pid, clients, ended, held = serving.process.pid, clients_of(ports, 0), 0, memory_of(serving.process.pid)[0]
        for count in HELD:
            used = processor_seconds(pid)
            for client in clients:
                client.left = count // len(clients) - client.wanted
                client.wanted += client.left
            if not all(load(clients, HELD_SECONDS)):
                sys.exit(f"{count:,} messages did not come to their end in time; {serving.said()}")
            more = sum(client.wanted for client in clients) - ended
            time.sleep(HELD_REST)
            ended, before, used = ended + more, held, processor_seconds(pid) - used
            held, peak = memory_of(pid)
            put(f"{ended:,}", f"{held / 1e6:,.0f} MB", f"{peak / 1e6:,.0f} MB", f"{(held - before) / more:,.0f} octets", f"{1e3 * used / more:.2f} ms", parts_of(serving))
        serving.end()
    except Ended as fault:
        sys.exit(f"held: {fault}; {serving.said()}")
    finally:
        serving.kill()


def in_a_folder(do, *arguments):
    """Does something with a folder of its own, which is gone then."""
    folder = pathlib.Path(tempfile.mkdtemp(prefix="serve-"))
    try:
        do(folder, *arguments)
    finally:
        shutil.rmtree(folder)


def main():
    reader = argparse.ArgumentParser(description=__doc__, formatter_class=argparse.RawDescriptionHelpFormatter)
    reader.add_argument("program", metavar="PROGRAM", type=pathlib.Path)
    reader.add_argument("messages", metavar="MESSAGES", type=int, nargs="?", default=MESSAGES)
    reader.add_argument("centre", metavar="CENTRE", nargs="?")
    reader.add_argument("--files", action="store_true", help="measure three nodes over files alone")
    reader.add_argument("--idle", action="store_true", help="measure an idle server alone")
    reader.add_argument("--held", action="store_true", help="measure what is held behind messages that have ended alone")
    given = reader.parse_args()
    program, messages = given.program.resolve(), given.messages
    if given.idle:
        return run_all_idle(program)
    if given.held:
        return in_a_folder(lambda folder: run_held(program, folder))
    if not WINDOW <= messages <= MOST_MESSAGES:
        reader.error(f"MESSAGES is {WINDOW} to {MOST_MESSAGES}")
    in_a_folder(lambda beside: run_all(program, messages, beside, given))


def run_all(program, messages, beside, given):
    """All tables but those that are printed alone, or those of files."""
    peers = peer_servers(beside) if shutil.which("rustc") else None
    serve = Server(program)
    servers = [serve, Server(peers, "law"), Server(peers, "plain")] if peers else [serve]
    if given.files:
        return run_files(servers, messages)
    print(HEAD, flush=True)
    for nodes in NODES:
        for over_files in (False, True):
            for server in servers:
                in_a_folder(lambda folder: run(server, folder, nodes, over_files, messages))
    if given.centre:
        run_other(given.centre, messages)
    for in_file in (False, True) if BEARERBOX.exists() else ():
        in_a_folder(run_kannel, messages, in_file)
    print("\n| What | Stores | Messages | To the response, ms: median | 99 % | To the deliver_sm, ms: median | 99 % |\n|---|---|---|---|---|---|---|", flush=True)
    for over_files in (False, True):
        for server in servers:
            in_a_folder(lambda folder: run_steadily(server, folder, over_files))
    print("\n| What | Waiting | Their account is | Delivered a second | Answers, 99 %, ms |\n|---|---|---|---|---|", flush=True)
    for server in servers:
        for count in WAITING:
            for is_silent in (False, True) if count else (False,):
                in_a_folder(lambda folder: run_beside_waiting(server, folder, count, is_silent))
    run_all_idle(program)
    count_all_syncs((serve, nodes, messages) for nodes in NODES)


if __name__ == "__main__":
    main()
