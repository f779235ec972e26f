"""Others for `bench/serve.py`, which do a part of what `centre serve` does: the servers of bench/peer_server, a centre in one Python process, and Kannel,
which is an ESME."""
import os
import pathlib
import re
import socket
import subprocess
import sys
import time

TOP = pathlib.Path(__file__).resolve().parent.parent
sys.path.insert(0, str(TOP / "tools" / "clients"))

import pdus
from kannel import Kannel, Web
from ports import free_ports, is_open

BEARERBOX = pathlib.Path("/usr/sbin/bearerbox")
WINDOW, SECONDS = 10, 60


def processor_seconds(pid):
    """The processor time of a process up to now."""
    fields = pathlib.Path(f"/proc/{pid}/stat").read_text().rpartition(")")[2].split()
    return (int(fields[11]) + int(fields[12])) / os.sysconf("SC_CLK_TCK")


def child_of(process):
    """The process that a `timeout` runs."""
    return int(pathlib.Path(f"/proc/{process.pid}/task/{process.pid}/children").read_text().split()[0])


def awaited(test, seconds):
    """Whether a test holds, for which it waits so long at most."""
    end = time.monotonic() + seconds
    while not test() and time.monotonic() < end:
        time.sleep(0.05)
    return test()


def peer_servers(folder):
    """Builds the servers of bench/peer_server into a folder, with Debian's libsqlite3-dev, and gives their file; none if that fails."""
    binary = folder / "peer_server"
    command = ["rustc", "--edition", "2024", "-O", "--cfg", "server", "-o", str(binary), str(TOP / "bench" / "peer" / "peer.rs")]
    return binary if subprocess.run(command, stderr=subprocess.DEVNULL).returncode == 0 else None


class PeerServer:
    """A server of bench/peer_server, `plain` or `law`, with a node at each of these ports, over files in a folder, if there is one. It has what
    `bench/serve.py` asks of a Serving."""

    def __init__(self, binary, kind, folder, ports):
        self.command = [str(binary), kind, str(folder or "memory"), *map(str, ports)]
        self.kind, self.process, self.lines = kind, None, []

    def start(self):
        self.process = subprocess.Popen(self.command, stdin=subprocess.PIPE, stdout=subprocess.PIPE)
        return self.process.stdout.readline() == b"serving\n"

    def said(self):
        return f"{self.kind} says nothing"

    def end(self):
        self.process.stdin.close()
        return self.process.wait(SECONDS)

    def kill(self):
        self.process.kill()
        self.process.wait()


class OtherCentre:
    """A message centre that is run as `python3 FILE PORT SECONDS`, with an account sme1 whose password is pw1, to which messages for 155 go."""

    def __init__(self, file):
        self.port = free_ports(1)[0]
        self.process = subprocess.Popen([sys.executable, file, str(self.port), str(4 * SECONDS)], cwd=pathlib.Path(file).parent)

    def serves(self):
        return awaited(lambda: is_open(self.port), 10)

    def end(self):
        self.process.kill()
        self.process.wait()


class Feeder:
    """A centre that gives one ESME so many messages, of which ten are open at a time, and does nothing else."""

    def __init__(self, messages):
        self.messages, self.buffer, self.answered = messages, bytearray(), 0
        self.listener = socket.create_server(("127.0.0.1", 0))
        self.listener.settimeout(SECONDS)
        self.connection = None

    def port(self):
        return self.listener.getsockname()[1]

    def accept(self):
        """Waits until the ESME is bound."""
        while True:
            self.connection, _ = self.listener.accept()
            self.connection.settimeout(5)
            commands = self.take()
            if any(command in (pdus.BIND_RECEIVER, pdus.BIND_TRANSCEIVER) for command in commands):
                return

    def take(self):
        """What has come, by its commands; a bind and an enquire_link are answered."""
        self.buffer += self.connection.recv(65536)
        commands = []
        while len(self.buffer) >= pdus.HEADER.size and len(self.buffer) >= int.from_bytes(self.buffer[:4], "big"):
            length, command, _, sequence = pdus.HEADER.unpack_from(self.buffer)
            del self.buffer[:length]
            commands.append(command)
            if command in (pdus.BIND_RECEIVER, pdus.BIND_TRANSCEIVER, pdus.ENQUIRE_LINK):
                body = b"" if command == pdus.ENQUIRE_LINK else pdus.text("CENTRE")
                self.connection.sendall(pdus.frame(command | pdus.RESPONSE, sequence, body))
        return commands

    def feed(self):
        """The seconds until all were answered; none if that takes too long."""
        body = pdus.message_body(b"a message of the load test", source="144", destination="155")
        begun, sent = time.monotonic(), 0
        while self.answered < self.messages:
            if time.monotonic() > begun + SECONDS:
                return None
            more = min(self.answered + WINDOW, self.messages)
            self.connection.sendall(b"".join(pdus.frame(pdus.DELIVER_SM, number + 1, body) for number in range(sent, more)))
            sent = more
            self.answered += self.take().count(pdus.DELIVER_SM | pdus.RESPONSE)
        return time.monotonic() - begun

    def close(self):
        self.listener.close()
        if self.connection:
            self.connection.close()


def configure(folder, in_file):
    """Has smsbox ask as many times at once as messages are open, which the small server here takes, and bearerbox keep its queue in a file if it
    is to. Both log no details."""
    path = folder / "kannel.conf"
    text = path.read_text().replace("log-level = 0", "log-level = 1")
    text = text.replace("group = smsbox\n", f"group = smsbox\nmax-pending-requests = {WINDOW}\n", 1)
    if in_file:
        text = re.sub("(dlr-storage = .*)", rf"\1\nstore-type = file\nstore-location = {folder}/kannel.store", text)
    path.write_text(text)


def fed_kannel(folder, messages, in_file):
    """The seconds until Kannel answered all messages, those until smsbox has handed all on by HTTP, and the processor time of both programs; none for what did
    not come to its end."""
    feeder = Feeder(messages)
    kannel = Kannel(folder, feeder.port())
    configure(folder, in_file)
    web = Web(kannel.ports["WEB"])
    try:
        kannel.start()
        feeder.accept()
        programs = [child_of(process) for process in kannel.running]
        used, begun = sum(map(processor_seconds, programs)), time.monotonic()
        answered = feeder.feed()
        handed_on = awaited(lambda: len(web.came("/message")) >= messages, SECONDS)
        delivered = time.monotonic() - begun if handed_on else None
        return answered, delivered, sum(map(processor_seconds, programs)) - used
    finally:
        kannel.end()
        web.server.shutdown()
        feeder.close()
