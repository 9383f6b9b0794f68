"""operating.py: the files for operators of a hub: the unit of systemd, the server before a site, and the rules for a
monitor.

systemd and Prometheus judge their files. Each rule is tried on made-up numbers: it warns when it must, and else not.
nginx runs with the example between clients and an echo. It passes on what comes, and holds to its limit. Its logs lead
from the port that a site sees to the client.
"""
from __future__ import annotations
import contextlib
import json
import pathlib
import re
import socket
import subprocess
import tempfile
import threading
import tomllib
from typing import Any, Iterator
from tests import harness
from tests.harness import SERVICES, reported
from tests.hub import sites

SYSTEM = SERVICES / "hub" / "system"
UNIT = SYSTEM / "niluppang-hub@.service"
MOST_EXPOSURE = 14  # tenths, of what systemd calls exposure; up to 4.9 is OK
LIMIT = 20  # connections of an address


# ---- the unit

def unit() -> Iterator[Any]:
    """How systemd judges the unit, and whether the example of a site fits it."""
    done = harness.run(["systemd-analyze", "security", "--offline=true", f"--threshold={MOST_EXPOSURE}", UNIT])
    said = (done.text + done.errors).decode(errors="replace")
    exposure = re.search(r"exposure level for \S+: ([\d.]+ \w+)", said)
    yield reported(f"the unit, with exposure {exposure and exposure.group(1)}", done.status == 0, said)
    text = UNIT.read_text()
    wanted = ["Type=notify", "WatchdogSec=30", "Restart=on-failure", "RestartPreventExitStatus=2",
              "StateDirectoryMode=0700", "UMask=0077",
              "ExecReload=/bin/kill -HUP $MAINPID", "KillMode=mixed", "LimitNOFILE=65536", "LimitCORE=0",
              "TimeoutStartSec=infinity"]
    yield reported("lines of the unit", set(wanted) <= set(text.splitlines()),
                   f"{sorted(set(wanted) - set(text.splitlines()))}")
    folder = re.search(r"^StateDirectory=(.*)$", text, re.M).group(1).replace("%i", "1")
    example = tomllib.loads((SYSTEM / "site.toml").read_text())
    yield reported("the folder of the example is that of the unit",
                   example["folder"] == f"/var/lib/{folder}" and example["site"] == 1)


def exec_start() -> Any:
    """The command line of the unit, for site 1."""
    return re.search(r"^ExecStart=(.*)$", UNIT.read_text(), re.M).group(1).replace("%i", "1").split()


# ---- the rules for a monitor

def series(name: Any, **labels: Any) -> Any:
    texts = {"instance": "site1", "job": "niluppang", **labels}
    return f"{name}{{{', '.join(f'{key}={json.dumps(text)}' for key, text in texts.items())}}}"


UP, HALTED, WELL, FREE = (series("up"), series("niluppang_is_halted"), series("niluppang_is_well"),
                          series("niluppang_disk_free_bytes"))
HEARD, LAG = series("niluppang_peer_heard_seconds", peer="2"), series("niluppang_peer_lag_entries", peer="2")
FORBIDDEN, RESTARTS, DELTAS = (series(f"niluppang_{name}_total")
                               for name in ("forbidden", "process_restarts", "deltas"))
CERTIFICATE, REVOKED = (series("niluppang_certificate_seconds", file=file) for file in ("certificate", "crl"))
FORK, FORKS, COMPARED = (series("niluppang_fork", origin="3"), series("niluppang_forks"),
                         series("niluppang_peer_compared_seconds", peer="2"))
WENT_BACK = series("niluppang_peer_record_is_wrong", peer="2")
QUOTA, JUMPS = (series("niluppang_quota_used_ratio", client="lutefrpp", of="lines"),
                series("niluppang_clock_jump_seconds_total"))
# two hours of a site that is well, a number each quarter of a minute
FINE = {UP: "1x480", HALTED: "0x480", WELL: "1x480", FREE: "50000000000x480", HEARD: "30x480",
        LAG: "0x480", FORBIDDEN: "0x480",
        RESTARTS: "0x480", DELTAS: "0+1x480", CERTIFICATE: "9000000x480", REVOKED: "900000x480", QUOTA: "0.5x480",
        JUMPS: "0x480", WENT_BACK: "0x480",
        FORKS: "0x480", COMPARED: "1x480"}
# what differs from it, after how long, and which rules must warn then and no other
SCENES = [
    ("all is well", {}, "2h", []),
    ("a site is away", {UP: "0x480"}, "2m", ["SiteAway"]),
    ("a site was away for a moment", {UP: "1x7 0x1 1x480"}, "2m", []),
    ("no site is asked", dict.fromkeys(FINE), "6m", ["NoSiteAsked"]),
    ("a site is halted", {HALTED: "1x480", WELL: "0x480"}, "2m", ["SiteHalted"]),
    ("a site takes nothing", {WELL: "0x480"}, "2m", ["SiteNotWell"]),
    ("a site began a moment ago", {WELL: "0x2 1x480"}, "45s", []),
    ("a peer is silent", {HEARD: "30x4 61x480"}, "3m", ["PeerSilent"]),
    ("a peer is silent for a minute", {HEARD: "60x480"}, "10m", []),
    ("a peer was never heard", {HEARD: None}, "2m", ["PeerSilent"]),
    ("a site falls behind", {LAG: "2000+10x480"}, "10m", ["LagGrows"]),
    ("a site catches up", {LAG: "20000-10x480"}, "10m", []),
    ("a site is a little behind", {LAG: "0+1x480"}, "1h", []),
    ("a disk is full soon", {FREE: "1000000000x480"}, "10m", ["DiskLow"]),
    ("a disk fills in a day", {FREE: "100000000000-20000000x480"}, "2h", ["DiskFills"]),
    ("a disk fills in ten days", {FREE: "100000000000-2000000x480"}, "2h", []),
    ("somebody guesses", {FORBIDDEN: "0x20 30x480"}, "6m", ["RefusedLogins"]),
    ("somebody errs", {FORBIDDEN: "0x20 5x480"}, "6m", []),
    ("a process ends again and again", {RESTARTS: "0x20 1x4 2x4 3x480"}, "10m", ["Restarts"]),
    ("a process ended once", {RESTARTS: "0x20 1x480"}, "10m", []),
    ("a site ends again and again", {DELTAS: "5x10 0x5 5x10 0x5 5x10 0x480"}, "15m", ["Restarts"]),
    ("a site was started again", {DELTAS: "5x10 0+1x480"}, "15m", []),
    ("a certificate ends in 20 days", {CERTIFICATE: "1728000x480"}, "2h", ["CertificateEnds"]),
    ("a certificate ends in 31 days", {CERTIFICATE: "2678400x480"}, "2h", []),
    ("a list of revoked certificates ends today", {REVOKED: "80000x480"}, "2m", ["RevokedListEnds"]),
    ("a list of revoked certificates ends in two days", {REVOKED: "172800x480"}, "2m", []),
    ("a bank has used most of its day", {QUOTA: "0.85x480"}, "2m", ["QuotaNearlyUsed"]),
    ("a bank has used much of its day", {QUOTA: "0.75x480"}, "2m", []),
    ("a clock jumps", {JUMPS: "0x20 60x480"}, "6m", ["ClockJumped"]),
    ("a clock is set by a second", {JUMPS: "0x20 1x480"}, "6m", []),
    ("two sites hold different entries", {FORK: "17x480", FORKS: "1x480", WELL: "0x480"}, "2m", ["SitesDiffer"]),
    ("a site halts since its own number forked", {FORK: "17x480", FORKS: "1x480", WELL: "0x480", HALTED: "1x480"}, "2m",
     ["SiteHalted", "SitesDiffer"]),
    ("a peer shows no digests any more", {COMPARED: "1x4 15+15x480"}, "12m", ["DigestsNotCompared"]),
    ("a peer of an older version shows none", {COMPARED: None}, "12m", []),
    ("the record of a peer went back", {WENT_BACK: "0x4 1x480"}, "2m", ["RecordWentBack"])
]


def scene(name: Any, differs: Any, after: Any, warned: Any) -> Any:
    """A test of promtool: which rules warn."""
    given = [{"series": key, "values": values} for key, values in {**FINE, **differs}.items() if values]
    samples = [{"labels": f'{{alertname="{alert}"}}', "value": 1} for alert in warned]
    return {"name": name, "interval": "15s", "input_series": given, "promql_expr_test": [
        {"expr": 'count by (alertname) (ALERTS{alertstate="firing"})', "eval_time": after, "exp_samples": samples}]}


def rules(metrics: Any) -> Iterator[Any]:
    """The rules, which use the numbers that a site has."""
    path = SYSTEM / "alerts.yml"
    text = path.read_text()
    alerts = re.findall(r"^ +- alert: (\w+)$", text, re.M)
    with tempfile.TemporaryDirectory() as folder:
        test = pathlib.Path(folder, "rules.test.yml")
        test.write_text(json.dumps({"rule_files": [str(path)], "evaluation_interval": "15s",
                                    "tests": [scene(*one) for one in SCENES]}))
        for words in ["check", "rules", path], ["test", "rules", test]:
            done = harness.run(["promtool", *words])
            yield reported(f"promtool {' '.join(words[:2])}", done.status == 0,
                           (done.text + done.errors).decode(errors="replace"))
    warned = {alert for *_, names in SCENES for alert in names}
    yield reported("each rule warns in a scene", warned == set(alerts), f"{sorted(warned ^ set(alerts))}")
    right = [text.count(f" {word}") == len(alerts) for word in ("labels: {severity: ", "summary: ", "action: >-")]
    yield reported("each rule says how bad it is, what it is and what to do", all(right), f"{right}")
    used = {name for line in re.findall(r"^ +expr: (.*)$", text, re.M) for name in re.findall(r"niluppang_\w+", line)}
    if metrics:
        written = set(re.findall(r"^# TYPE (\w+) ", metrics, re.M))
        yield reported("a site writes each number that a rule uses", used and used <= written,
                       f"{sorted(used - written)}")


# ---- the server before a site

SENT = b"\x16\x03\x01 not for nginx\n"


class Echo:
    """In place of a site: it sends back what comes, and keeps the ports that it saw."""

    def __init__(self, port: Any) -> None:
        self.ports, self.server = [], socket.create_server(("127.0.0.1", port))
        threading.Thread(target=self.serve, daemon=True).start()

    def serve(self) -> None:
        with contextlib.suppress(OSError):
            while True:
                its, (_, port) = self.server.accept()
                self.ports.append(port)
                threading.Thread(target=self.answer, args=[its], daemon=True).start()

    @staticmethod
    def answer(its: Any) -> None:
        with its, contextlib.suppress(OSError):
            while data := its.recv(1 << 16):
                its.sendall(data)


def passed(port: Any, source: str = "127.0.0.1") -> Any:
    """A connection through the server, and what came back of a few bytes that are no HTTP."""
    its = socket.create_connection(("127.0.0.1", port), timeout=20, source_address=(source, 0))
    with contextlib.suppress(ConnectionError):
        its.sendall(SENT)
        return its, its.recv(100)
    return its, b""


@contextlib.contextmanager
def nginx(folder: Any, port: Any, behind: Any) -> Iterator[Any]:
    """nginx with the example, at other ports, and with its logs in a folder."""
    text = (SYSTEM / "nginx.conf").read_text()
    others = {"listen 8700;": f"listen 127.0.0.1:{port};", "listen [::]:8700;": "", ":8701;": f":{behind};",
              "/var/log/nginx": str(folder)}
    for old, new in others.items():
        if old not in text:
            harness.stop(f"the example of nginx has no {old}")
        text = text.replace(old, new)
    (folder / "niluppang.conf").write_text(text)
    (folder / "nginx.conf").write_text(
        "include /usr/share/nginx/modules-available/mod-stream.conf;\ndaemon off;\npid "
        f"{folder}/pid;\nerror_log {folder}/error.log;\nevents {{ worker_connections 1024; }}\ninclude "
        f"{folder}/niluppang.conf;\n")
    process = subprocess.Popen(["nginx", "-c", folder / "nginx.conf"], stderr=subprocess.DEVNULL)
    try:
        yield
    finally:
        process.terminate()
        process.wait()


def joined(folder: Any) -> Any:
    """The port that a site saw, for each port of a client, by the two logs: and the rows of the second."""
    began = (folder / "niluppang-began.log").read_text()
    seen = dict(re.findall(r" \*(\d+) proxy 127\.0\.0\.1:(\d+) connected to ", began))
    rows = [json.loads(line) for line in (folder / "niluppang.log").read_text().splitlines()]
    return {row["port"]: int(seen[str(row["connection"])]) for row in rows if str(row["connection"]) in seen}, rows


def before() -> Iterator[Any]:
    """The server before a site, between clients and an echo."""
    with tempfile.TemporaryDirectory() as name:
        folder, port = pathlib.Path(name), sites.free_ports(2)
        echo = Echo(port + 1)
        with nginx(folder, port, port + 1):
            sites.until(lambda: passed(port)[0].close() is None)
            echo.ports.clear()
            first = [passed(port) for _ in range(LIMIT)]
            yield reported("what comes is passed on", all(data == SENT for _, data in first),
                           f"{[data for _, data in first]}")
            yield reported("a connection too many is ended", passed(port)[1] == b"")
            yield reported("and one of another address is not", passed(port, "127.0.0.2")[1] != b"")
            ports = [its.getsockname()[1] for its, _ in first]
            seen = dict(zip(ports, echo.ports))
            first[0][0].close()
            yield reported("one that ends makes room", sites.until(lambda: passed(port)[1] != b""))
            for its, _ in first:
                its.close()
            sites.until(lambda: set(ports) <= set(joined(folder)[0]))
        found, rows = joined(folder)
        yield reported("the logs lead from the port that a site sees to the client",
                       len(seen) == LIMIT and seen.items() <= found.items())
        keys = {"ended", "connection", "address", "port", "seconds", "status", "received", "sent", "site"}
        is_right = all(set(row) == keys for row in rows) and {row["address"] for row in rows} == {"127.0.0.1",
                                                                                                  "127.0.0.2"}
        yield reported("what they have", is_right, f"{rows[:1]}")
        echo.server.close()
