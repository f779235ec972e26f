"""Asks what `centre serve` tells of itself, with curl, while sessions flood and connections say nothing. tools/clients.py calls it."""
import json
import re
import socket
import subprocess
import threading
import time

import pdus
from plain_esme import Esme

# A line of Prometheus' text format with a whole number, as this server writes it.
SAMPLE = re.compile(r'(tomveul_[a-z_]+)(?:\{node="([1-9])"\})? (\d+)')
COMMENT = re.compile(r"# (HELP tomveul_[a-z_]+ .+|TYPE tomveul_[a-z_]+ (counter|gauge))")
# For how many seconds sessions flood, how soon each question has to be answered meanwhile, and how many connections say nothing.
FLOOD, SOON, SILENT = 5, 1.0, 7


class Status:
    def __init__(self, check, port, nodes):
        self.check, self.port, self.nodes, self.is_over = check, port, nodes, False

    def ask(self, path, *options):
        """The status code, the media type, the text and the seconds of an answer."""
        told = "\n%{http_code} %{time_total} %{content_type}"
        run = subprocess.run(["curl", "-s", "-m", "8", "-w", told, *options, f"http://127.0.0.1:{self.port}{path}"], capture_output=True, text=True)
        text, _, last = run.stdout.rpartition("\n")
        code, seconds, *kind = last.split(" ", 2)
        return int(code), kind[0] if kind else "", text, float(seconds)

    def run(self):
        code, _, text, _ = self.ask("/ready")
        self.check("is_ready", code == 200, (code, text))
        self.answers()
        with Esme(self.nodes[0]) as esme:
            bound = esme.bind("sme1", "pw1")
            self.check("binds", bound and bound.status == pdus.OK, bound)
            time.sleep(2.5)
            self.check("tells_of_a_session", self.samples()[1].get(("tomveul_node_sessions_transceiver", "1")) == 1, self.samples)
        self.silent()
        self.flooded()

    def samples(self):
        """The lines of the metrics that are none of the format, and the numbers by metric and node."""
        lines = self.ask("/metrics")[2].splitlines()
        found = [SAMPLE.fullmatch(line) for line in lines]
        strange = [line for line, match in zip(lines, found) if not match and not COMMENT.fullmatch(line)]
        return strange, {(match[1], match[2]): int(match[3]) for match in found if match}

    def answers(self):
        strange, samples = self.samples()
        self.check("metrics_have_their_format", not strange and samples.get(("tomveul_serving", None)) == 1, strange[:3])
        code, kind, text, _ = self.ask("/status")
        told = json.loads(text)
        names = {metric.removeprefix("tomveul_node_").removesuffix("_total") for metric, node in samples if node}
        self.check("json_is_json", (code, kind, told["serving"]) == (200, "application/json", 1), text[:200])
        self.check("json_has_the_same_counts", [set(node) for node in told["nodes"]] == [names | {"node"}] * len(self.nodes), told["nodes"][:1])
        code, kind, text, _ = self.ask("/")
        self.check("page_is_html", code == 200 and kind.startswith("text/html") and text.startswith("<!DOCTYPE html>"), (code, kind))
        self.check("other_path_is_not_found", self.ask("/none")[0] == 404)
        self.check("other_method_is_not_allowed", self.ask("/", "-X", "POST")[0] == 405)

    def silent(self):
        """Connections that say nothing hold up nobody, and are closed."""
        silent = [socket.create_connection(("127.0.0.1", self.port)) for _ in range(SILENT)]
        code, _, _, seconds = self.ask("/ready")
        self.check("silent_ones_hold_up_nobody", code == 200 and seconds < SOON, (code, seconds))
        for one in silent:
            one.settimeout(8)
        self.check("silent_ones_are_closed", all(one.recv(1) == b"" for one in silent))

    def flooded(self):
        """Each question is answered soon while a session of each node floods."""
        threads = [threading.Thread(target=self.flood, args=(port,), daemon=True) for port in self.nodes]
        for one in threads:
            one.start()
        slowest, end = 0, time.monotonic() + FLOOD
        while time.monotonic() < end:
            code, _, _, seconds = self.ask("/metrics")
            slowest = max(slowest, seconds if code == 200 else 99)
        self.is_over = True
        for one in threads:
            one.join()
        submits = sum(count for (metric, _), count in self.samples()[1].items() if metric == "tomveul_node_submits_total")
        self.check("is_soon_told_in_a_flood", slowest < SOON, f"{slowest} seconds")
        self.check("submits_are_counted", submits > 0, submits)

    def flood(self, port):
        with Esme(port) as esme:
            esme.bind("sme1", "pw1")
            while not self.is_over:
                for sequence in [esme.submit("155", b"a flood") for _ in range(10)]:
                    esme.answer(sequence, 10)
