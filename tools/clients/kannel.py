#!/usr/bin/env python3
"""Kannel's bearerbox and smsbox (Debian: kannel) as an ESME of the centre at 127.0.0.1:PORT: binds, sends messages, gets them and their receipts, pings.

    python3 tools/clients/kannel.py PORT [FOLDER]

Its account is sme1 (pw1), and the messages to 155 have to come back to it. FOLDER is where Kannel's configuration and its logs go, a new folder of /tmp if none
is named. It prints `ok NAME` or `not ok NAME: SEEN` for each check, and at last `N checks, M wrong`; the exit status is 1 if any is wrong. It takes about 30
seconds, and 90 at most. It ends what it started, by process id.
"""
import http.server
import pathlib
import signal
import subprocess
import sys
import tempfile
import threading
import time
import urllib.parse
import urllib.request

from checks import Checks
from ports import free_ports, is_open

HERE = pathlib.Path(__file__).resolve().parent
SECONDS = 90
# The bits of a dlr-mask, and what Kannel calls with them: the message was delivered, or not, or the centre has accepted it.
DELIVERED, NOT_DELIVERED, ACCEPTED = "1", "2", "8"
ALL_REPORTS = 31
MANY = 25
LONG_TEXT = "".join(f"{number:03d}," for number in range(75))


class Web:
    """What smsbox tells by HTTP: messages at /message, and reports at /report."""

    def __init__(self, port):
        self.heard = heard = []

        class Handler(http.server.BaseHTTPRequestHandler):
            def do_GET(self):
                parts = urllib.parse.urlsplit(self.path)
                heard.append((parts.path, dict(urllib.parse.parse_qsl(parts.query, keep_blank_values=True))))
                self.send_response(200)
                self.send_header("Content-Type", "text/plain")
                self.send_header("Content-Length", "0")
                self.end_headers()

            def log_message(self, *_):
                pass

        self.server = http.server.ThreadingHTTPServer(("127.0.0.1", port), Handler)
        threading.Thread(target=self.server.serve_forever, daemon=True).start()

    def came(self, path, **wanted):
        return [given for where, given in list(self.heard) if where == path and all(given.get(key) == value for key, value in wanted.items())]

    def tags(self, state):
        """Of which messages a report of this state came."""
        return [given["tag"] for given in self.came("/report", state=state)]


class Kannel:
    """The two programs, each for so many seconds at most."""

    def __init__(self, folder, port):
        self.folder, self.running = folder, []
        self.ports = dict(zip(("ADMIN", "BOX", "SEND", "WEB"), free_ports(4)))
        text = (HERE / "kannel.conf").read_text()
        for word, value in {**self.ports, "PORT": port, "FOLDER": folder}.items():
            text = text.replace(f"@{word}@", str(value))
        (folder / "kannel.conf").write_text(text)

    def start(self):
        # bearerbox takes some seconds to open its ports, and smsbox ends at once if it does not find them.
        for program, opens in (("bearerbox", "BOX"), ("smsbox", "SEND")):
            command = ["timeout", str(SECONDS), f"/usr/sbin/{program}", "-v", "4", str(self.folder / "kannel.conf")]
            with open(self.folder / f"{program}.out", "w") as said:
                self.running.append(subprocess.Popen(command, stdout=said, stderr=said, cwd=self.folder))
            wait(lambda: is_open(self.ports[opens]), 20)

    def fetch(self, service, path, **given):
        try:
            return urllib.request.urlopen(f"http://127.0.0.1:{self.ports[service]}{path}?{urllib.parse.urlencode(given)}", timeout=5).read().decode("latin-1")
        except OSError as fault:
            return f"fault: {fault}"

    def status(self):
        return self.fetch("ADMIN", "/status.txt", password="sta")

    def send(self, tag, **more):
        report = f"http://127.0.0.1:{self.ports['WEB']}/report?tag={tag}&state=%d&id=%F&said=%A"
        given = {"username": "u", "password": "p", "from": "144", "to": "155", "text": tag, "dlr-mask": ALL_REPORTS, "dlr-url": report} | more
        return self.fetch("SEND", "/cgi-bin/sendsms", **given)

    def log(self):
        return (self.folder / "bearerbox.log").read_text(errors="replace")

    def end(self):
        for one in self.running:
            if one.poll() is None:
                one.terminate()
        for one in self.running:
            try:
                one.wait(10)
            except subprocess.TimeoutExpired:
                one.kill()


def wait(test, seconds):
    """What the test gives, once it gives something; else what it gives at the end."""
    end = time.monotonic() + seconds
    while not (found := test()) and time.monotonic() < end:
        time.sleep(0.2)
    return found


def one_message(check, kannel, web):
    kannel.send("hello")
    check("accepted", wait(lambda: "hello" in web.tags(ACCEPTED), 10), web.heard)
    check("message_comes_back", wait(lambda: web.came("/message", text="hello", **{"from": "144", "to": "155"}), 10), web.heard)
    check("receipt_delivered", wait(lambda: "hello" in web.tags(DELIVERED), 10), web.heard)
    for given in web.came("/report", tag="hello", state=DELIVERED)[:1]:
        is_named = given["id"].isdigit() and len(given["id"]) == 10 and f"id:{given['id']} " in given["said"]
        check("receipt_names_the_message", is_named and "stat:DELIVRD err:000" in given["said"], given)


def times_and_texts(check, kannel, web):
    # A schedule in an hour, and a validity of two, in minutes: Kannel writes them as absolute times.
    kannel.send("later", deferred=60, validity=120)
    check("times_are_accepted", wait(lambda: "later" in web.tags(ACCEPTED), 10), lambda: web.heard[-2:])
    kannel.send("long", text=LONG_TEXT)

    # It goes out in two parts, and bearerbox makes one of them again.
    check("long_text_comes_back", wait(lambda: web.came("/message", text=LONG_TEXT), 10), lambda: web.heard[-3:])
    latin = "Gr\u00fc\u00dfe"
    kannel.send("latin", text=latin.encode("utf-8"), charset="UTF-8", coding=0)
    check("latin_text_is_delivered", wait(lambda: "latin" in web.tags(DELIVERED), 10), lambda: web.heard[-2:])
    check("times_are_kept", "later" not in web.tags(DELIVERED), web.came("/report", tag="later"))


def many_messages(check, kannel, web):
    for number in range(MANY):
        kannel.send(f"many{number}")
    wanted = {f"many{number}" for number in range(MANY)}
    check("many_are_accepted", wait(lambda: wanted <= set(web.tags(ACCEPTED)), 20), lambda: wanted - set(web.tags(ACCEPTED)))
    check("many_have_receipts", wait(lambda: wanted <= set(web.tags(DELIVERED)), 20), lambda: wanted - set(web.tags(DELIVERED)))

    def texts():
        return [given["text"] for given in web.came("/message") if given["text"] in wanted]
    # smsbox hands messages on one after another, behind those receipts.
    wait(lambda: wanted <= set(texts()), 10)
    check("many_come_once", sorted(texts()) == sorted(wanted), texts)
    failed = [given for given in web.came("/report") if given["state"] not in (DELIVERED, ACCEPTED)]
    check("no_other_report", not failed, failed)


def link(check, kannel):
    check("enquire_link", wait(lambda: "type_name: enquire_link_resp" in kannel.log(), 8), kannel.folder)
    check("still_online", "(online" in kannel.status(), kannel.status)
    bad = [line for line in kannel.log().splitlines() if "SMPP" in line and any(word in line for word in ("ERROR", "WARNING", "rejected"))]
    check("no_fault_in_the_log", not bad, lambda: bad[:5])
    kannel.fetch("ADMIN", "/shutdown", password="adm")
    wait(lambda: kannel.running[0].poll() is not None, 8)
    check("unbind", "type_name: unbind_resp" in kannel.log(), kannel.folder)


def main():
    if len(sys.argv) not in (2, 3):
        sys.exit(__doc__)
    signal.signal(signal.SIGTERM, lambda *_: sys.exit(1))
    folder = pathlib.Path(sys.argv[2] if sys.argv[2:] else tempfile.mkdtemp(prefix="kannel-"))
    checks, kannel = Checks(), Kannel(folder, int(sys.argv[1]))
    web = Web(kannel.ports["WEB"])
    try:
        kannel.start()
        is_online = wait(lambda: "(online" in kannel.status(), 10)
        checks.check("bind_transceiver", is_online, kannel.status)
        if is_online:
            one_message(checks.check, kannel, web)
            times_and_texts(checks.check, kannel, web)
            many_messages(checks.check, kannel, web)
            link(checks.check, kannel)
    finally:
        kannel.end()
        web.server.shutdown()
    print(f"   logs of Kannel: {folder}")
    checks.end()


if __name__ == "__main__":
    main()
