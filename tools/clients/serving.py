"""`centre serve` as a process of its own, and what it says."""
import re
import subprocess
import threading
import time

# Each line begins with its moment, by ISO 8601 in UTC.
MOMENT = re.compile(r"(20\d\d-\d\d-\d\dT\d\d:\d\d:\d\d\.\d{3}Z) (.*)")
LISTENS = re.compile(r"node (\d+): listens on 127\.0\.0\.1:(\d+), incarnation (\d+), store (.+)")
SERVING = re.compile(r"serving: (system_id CENTRE, )?\d+ nodes?")
ENDED = re.compile(r"ended: (\d+) entries in the journal")
SESSION = r"node \d+ session \d+: "
ROLE = "(transmitter|receiver|transceiver)"
# Of whom a line tells.
WHOM = r"; ([a-z0-9]+|not bound,) from 127\.0\.0\.1:\d+"
# Each line that may stand on standard error while nothing is wrong.
LINES = [LISTENS, SERVING, ENDED, *map(re.compile, (
    r"centre \d{4}-\d{2}-\d{2} of Tomveul, SMPP 3\.4",
    SESSION + r"connected from 127\.0\.0\.1:\d+",
    SESSION + rf"bound as {ROLE}, interface_version 0x[0-9a-f]{{2}}{WHOM}",
    SESSION + rf"bind_{ROLE} refused with 0x[0-9a-f]{{2}}, system_id [!-~]*{WHOM}",
    SESSION + rf"(submit_sm|query_sm|cancel_sm|unbind) refused with 0x[0-9a-f]{{2}}{WHOM}",
    SESSION + rf"nacked with 0x[0-9a-f]{{2}}{WHOM}",
    SESSION + rf"ended: (unbound|closed by the ESME( within a PDU)?|the connection failed|closed by the centre: [a-zA-Z_ ]+){WHOM}",
    r"node \d+: no place for a session from 127\.0\.0\.1:\d+",
    r"node \d+: (it has few message_ids left; it starts anew|started anew, incarnation \d+)",
    r"node \d+: (its first tick is under way; it serves|through with its first tick)",
    r"node \d+: (not served yet: \d+ of \d+ packets have come|\d+ incarnations are left)",
    r"part \d+: entries \d+, final states told \d+, deliveries cut short \d+, closed in \d+ ms",
    r"counts: sessions \d+, submits \d+, deliveries \d+, receipts \d+, refused \d+, waiting \d+",
))]


def without_moment(line):
    """A line without its moment. The warnings of a configuration have none; another one that has none is told so, and is none that anybody looks for."""
    if line.startswith("warning: "):
        return line
    found = MOMENT.fullmatch(line)
    return found[2] if found else f"without a moment: {line}"


class Serving:
    """`PROGRAM serve FILE --until-eof`. It ends when this process does, since its standard input is a pipe from here."""

    def __init__(self, program, config, folder):
        self.command, self.folder = [str(program), "serve", str(config), "--until-eof"], folder
        self.process, self.reader = None, None
        # The lines of all starts, without their moments, and where those of the last one begin.
        self.lines, self.first = [], 0

    def start(self, seconds=20):
        """Whether it serves in time."""
        self.first = len(self.lines)
        with open(self.folder / "serve.out", "ab") as out:
            self.process = subprocess.Popen(self.command, stdin=subprocess.PIPE, stdout=out, stderr=subprocess.PIPE, text=True, errors="replace")
        self.reader = threading.Thread(target=self.read, args=(self.process,), daemon=True)
        self.reader.start()
        return self.says(SERVING, seconds)

    def read(self, process):
        with open(self.folder / "serve.log", "a") as log:
            for line in process.stderr:
                self.lines.append(without_moment(line.rstrip("\n")))
                print(line, end="", file=log, flush=True)

    def says(self, pattern, seconds=0):
        """The first match of a whole line since the last start, for which it waits so long."""
        end = time.monotonic() + seconds
        while True:
            is_over = time.monotonic() >= end or self.process.poll() is not None and not self.reader.is_alive()
            for line in self.lines[self.first:]:
                if found := pattern.fullmatch(line):
                    return found
            if is_over:
                return None
            time.sleep(0.02)

    def incarnations(self):
        """The incarnation of each node since the last start."""
        found = (LISTENS.fullmatch(line) for line in self.lines[self.first:])
        return {int(one[1]): int(one[3]) for one in found if one}

    def is_up(self):
        return self.process is not None and self.process.poll() is None

    def end(self, seconds=15):
        """Ends it in order, by the end of its standard input: its exit status, or None if it had to be killed."""
        self.process.stdin.close()
        try:
            status = self.process.wait(seconds)
        except subprocess.TimeoutExpired:
            self.kill()
            return None
        self.reader.join(5)
        return status

    def kill(self):
        """Ends it at once, if it is up."""
        if self.is_up():
            self.process.kill()
        if self.process is not None:
            self.process.wait()
            self.reader.join(5)

    def said(self):
        """Its last lines, for those who read a failure."""
        return f"status {self.process.poll()}; {' | '.join(self.lines[-3:])}"
