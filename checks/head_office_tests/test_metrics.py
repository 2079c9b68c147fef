"""The head office's metrics and alerts: by the exporter, Prometheus and Alertmanager of the distribution, to a mail server that is down at first."""

import json
import os
import re
import socketserver
import subprocess
import threading
import time
import urllib.request

from checks.lib.head_office import PARTS, READER, OfficeCheck, lines_of, written
from checks.lib.ports import HOST, free_port

PROMETHEUS = f"{PARTS}/prometheus"
DAY, WEEKS = 86_400, 21 * 86_400
BRIDGE = '{bridge="NORTH"}'
NOW = 100 * DAY  # the moment of the newest value below; promtool begins at 0
# An alert, series with the value that they have at each minute, and whether it fires after a while.
ALERTS: tuple[tuple[str, dict[str, object], bool], ...] = (
    ("HeadOfficeDown", {"pg_up": 0}, True),
    ("HeadOfficeDown", {}, True),
    ("HeadOfficeDown", {"pg_up": 1}, False),
    ("HeadOfficeNotRead", {"pg_up": 1}, True),
    ("HeadOfficeNotRead", {"pg_up": 1, "head_office_faults_open": 0}, False),
    ("BridgeSilent", {f"head_office_bridge_silent{BRIDGE}": 1}, True),
    ("BridgeSilent", {f"head_office_bridge_silent{BRIDGE}": 0}, False),
    ("BridgeIdle", {f"head_office_bridge_idle{BRIDGE}": 1}, True),
    (
        "BridgeIdle",
        {f"head_office_bridge_idle{BRIDGE}": 1, f"head_office_bridge_silent{BRIDGE}": 1},
        False,
    ),
    ("WholeExportOverdue", {f"head_office_bridge_overdue{BRIDGE}": 1}, True),
    ("WholeExportOverdue", {f"head_office_bridge_overdue{BRIDGE}": 0}, False),
    ("FindingOpen", {'head_office_finding_open{bridge="NORTH",what="differs"}': 1}, True),
    ("FindingOpen", {}, False),
    ("LoadRefused", {'head_office_refusal_day{bridge="X",login="y",reason="cut"}': 1}, True),
    ("ConnectionEnded", {'head_office_connection_ended_day{login="y"}': 2}, True),
    ("OfficeFault", {"head_office_faults_open": 1}, True),
    ("OfficeFault", {"head_office_faults_open": 0}, False),
    ("CheckOverdue", {"head_office_check_age_seconds": 2 * DAY + 1}, True),
    ("CheckOverdue", {"head_office_check_age_seconds": 2 * DAY}, False),
    ("CheckOverdue", {"head_office_whole_check_age_seconds": 9 * DAY + 1}, True),
    ("CheckOverdue", {"head_office_whole_check_age_seconds": 9 * DAY}, False),
    ("GuardStopped", {"head_office_guard_age_seconds": 601}, True),
    ("GuardStopped", {"head_office_guard_age_seconds": 600}, False),
    ("GuardStopped", {"head_office_guard_rights_missing": 1}, True),
    ("CopyOld", {"head_office_newest_copy_timestamp_seconds": NOW - 2 * DAY - 61}, True),
    ("CopyOld", {"head_office_newest_copy_timestamp_seconds": NOW - 2 * DAY + 61}, False),
    ("FilesNotLookedAt", {}, True),
    ("FilesNotLookedAt", {"head_office_newest_copy_timestamp_seconds": NOW}, False),
    ("CertificateEnds", {"head_office_certificate_end_timestamp_seconds": NOW + WEEKS - 61}, True),
    ("CertificateEnds", {"head_office_certificate_end_timestamp_seconds": NOW + WEEKS + 61}, False),
    ("ArchivingFails", {"pg_stat_archiver_failed_count": "0+1x300"}, True),
    ("ArchivingFails", {"pg_stat_archiver_failed_count": 7}, False),
    ("ReplicaLags", {"pg_replication_lag": 301, "pg_replication_is_replica": 1}, True),
    ("ReplicaLags", {"pg_replication_lag": 300, "pg_replication_is_replica": 1}, False),
    ("ReplicaLags", {"pg_replication_lag": 301, "pg_replication_is_replica": 0}, False),
    (
        "DiskNearlyFull",
        {
            'node_filesystem_avail_bytes{mountpoint="/"}': 9,
            'node_filesystem_size_bytes{mountpoint="/"}': 100,
        },
        True,
    ),
    (
        "DiskNearlyFull",
        {
            'node_filesystem_avail_bytes{mountpoint="/"}': 10,
            'node_filesystem_size_bytes{mountpoint="/"}': 100,
        },
        False,
    ),
)


class Mails(socketserver.ThreadingTCPServer):
    """A mail server of this machine that keeps what it is sent."""

    allow_reuse_address = daemon_threads = True

    def __init__(self, port: int) -> None:
        self.mails: list[str] = []
        super().__init__((HOST, port), Mailed)
        threading.Thread(target=self.serve_forever, daemon=True).start()


class Mailed(socketserver.StreamRequestHandler):
    """A client of the mail server."""

    server: Mails

    def handle(self) -> None:
        self.wfile.write(b"220 here\r\n")
        for line in self.rfile:
            word = line[:4].upper()
            if word == b"DATA":
                self.wfile.write(b"354 go on\r\n")
                mail = b"".join(iter(self.rfile.readline, b".\r\n"))
                self.server.mails.append(mail.decode())
            self.wfile.write(b"221 bye\r\n" if word == b"QUIT" else b"250 so\r\n")


class Metrics(OfficeCheck):
    """The queries, the alerts, and the mails about these."""

    needs = (
        *("PostgreSQL", "sqitch", "openssl", "prometheus", "promtool", "amtool"),
        *("prometheus-alertmanager", "prometheus-postgres-exporter"),
    )
    seconds = 90

    def begin(self, *words: str, **environment: str) -> None:
        """Start a program that ends with the test."""
        log = open(f"{self.office.folder}/{os.path.basename(words[0])}.log", "w", encoding="utf-8")
        self.addCleanup(log.close)
        running = subprocess.Popen(words, stdout=log, stderr=log, env={**os.environ, **environment})
        self.addCleanup(running.wait)
        self.addCleanup(running.kill)

    def begin_exporter(self) -> int:
        """Start the exporter as docs/head_office.md says it, and return its port."""
        port = free_port()
        self.begin(
            "prometheus-postgres-exporter",
            f"--extend.query-path={PROMETHEUS}/queries.yaml",
            f"--web.listen-address={HOST}:{port}",
            DATA_SOURCE_NAME=f"user={READER} host={self.cluster.folder} dbname={self.office.database}",
        )
        self.soon("the exporter answers", lambda: self.exported(port), 30)
        return port

    def exported(self, port: int) -> str:
        try:
            with urllib.request.urlopen(f"http://{HOST}:{port}/metrics", timeout=20) as answer:
                return str(answer.read(), "utf-8")
        except OSError:
            return ""

    def test_files(self) -> None:
        def ran(*words: str) -> int:
            return subprocess.run(words, stdout=subprocess.DEVNULL).returncode

        self.same(
            "the rules are some", 0, ran("promtool", "check", "rules", f"{PROMETHEUS}/rules.yaml")
        )
        what = "Alertmanager accepts its file"
        self.same(what, 0, ran("amtool", "check-config", f"{PROMETHEUS}/alertmanager.yaml"))
        text = "".join(lines_of(f"{PROMETHEUS}/scrape.yaml"))
        text = text.replace("/usr/lib/weighbridge-head-office", PARTS)
        path = written(f"{self.office.folder}/prometheus.yml", [text])
        self.same("Prometheus accepts its part", 0, ran("promtool", "check", "config", path))

    def test_alerts(self) -> None:
        """Show for each alert when it fires and when not, by promtool."""
        named = set(re.findall(r"- alert: (\w+)", "".join(lines_of(f"{PROMETHEUS}/rules.yaml"))))
        self.same("each alert has a row that fires", named, {it[0] for it in ALERTS if it[2]})
        for alert, series, fires in ALERTS:
            begins = NOW - 5 * 3600
            values = [
                {"series": name, "values": value if isinstance(value, str) else f"{value}x300"}
                for name, value in series.items()
            ]
            # the clock of promtool begins at 0, so moments are as far from it as from now
            if any("timestamp" in name for name in series):
                values = [
                    {"series": name, "values": f"{int(str(value)) - begins}x300"}
                    for name, value in series.items()
                ]
            wanted: dict[str, object] = {
                "expr": f'count(ALERTS{{alertname="{alert}",alertstate="firing"}}) or vector(0)',
                "eval_time": "5h",
                "exp_samples": [{"labels": "{}", "value": int(fires)}],
            }
            test = {"interval": "1m", "input_series": values, "promql_expr_test": [wanted]}
            both = {
                "rule_files": [f"{PROMETHEUS}/rules.yaml"],
                "evaluation_interval": "1m",
                "tests": [test],
            }
            path = written(f"{self.office.folder}/test.yaml", [json.dumps(both)])
            ran = subprocess.run(
                ["promtool", "test", "rules", path], capture_output=True, text=True
            )
            what = f"{alert} {'fires' if fires else 'does not fire'} at {series}"
            self.same(what, (0, ""), (ran.returncode, ran.stdout[-600:] if ran.returncode else ""))

    def test_metrics(self) -> None:
        office = self.office
        book = office.book("NORTH", 6)
        office.load("NORTH", office.export(book))
        office.load("NORTH", book.change(2, gross=9_000))
        office.register("SOUTH")
        port = self.begin_exporter()
        found = self.exported(port)
        for what, wanted in (
            ("a guard that never ran", r"^head_office_guard_age_seconds{.*} \+Inf$"),
            ("a check is missed from the first load on", r"^head_office_check_age_seconds{.*} \d"),
            ("  and a whole one, too", r"^head_office_whole_check_age_seconds{.*} \d"),
        ):
            self.holds(what, re.search(wanted, found, re.M), found[-3000:])
        office.run("check", "--whole")
        office.run("guard")
        office.load("NOBODY", book)
        found = self.exported(port)
        for what, wanted in (
            ("a bridge that loads isn't silent", 'head_office_bridge_silent{bridge="NORTH".*} 0'),
            ("one that never loaded is", 'head_office_bridge_silent{bridge="SOUTH".*} 1'),
            ("  and has no age", 'load_age_seconds{bridge="SOUTH".*} NaN'),
            ("how long ago the other loaded", r'load_age_seconds{bridge="NORTH".*} \d'),
            ("a finding is counted", 'head_office_finding_open{bridge="NORTH".*what="unsound"} 1'),
            (
                "a refusal, too",
                'head_office_refusal_day{bridge="NOBODY",login="loads",reason="bridge".*} 1',
            ),
            ("the office has no fault", r"^head_office_faults_open{.*} 0$"),
            ("it was checked", r"^head_office_check_age_seconds{.*} \d"),
            ("  wholly", r"^head_office_whole_check_age_seconds{.*} \d"),
            ("the guard ran", r"^head_office_guard_age_seconds{.*} \d"),
            ("  and may do what it must", r"^head_office_guard_rights_missing{.*} 0$"),
            ("the exporter's own metrics are there", "^pg_up 1$"),
            ("  of archiving", "^pg_stat_archiver_failed_count{"),
        ):
            its = "\n".join(
                it for it in found.split("\n") if it.startswith(("head_office", "pg_up"))
            )
            self.holds(what, re.search(wanted, found, re.M), its)

    def test_files_of_the_machine(self) -> None:
        folder = self.office.folder
        certificates, copies = f"{folder}/certificates", f"{folder}/copies"
        for it in (certificates, copies):
            os.mkdir(it)
        words = f"openssl req -x509 -newkey ec -pkeyopt ec_paramgen_curve:P-256 -nodes -subj /CN=x -days 30 -keyout {folder}/key"
        ran = subprocess.run([*words.split(), "-out", f"{certificates}/a.crt"], capture_output=True)
        self.assertEqual(0, ran.returncode)
        written(f"{certificates}/none.crt", ["nothing"])
        status, said = self.office.run("file_metrics", copies, certificates)
        self.holds(
            "without a copy there is no moment of one", not status and "copy" not in said, said
        )
        (ends,) = re.findall(
            r'^head_office_certificate_end_timestamp_seconds\{file=".*/a\.crt"\} (\d+)$', said, re.M
        )
        self.holds(
            "a certificate ends in thirty days", abs(int(ends) - time.time() - 30 * DAY) < 600, ends
        )
        self.holds("  and what is none isn't there", "none.crt" not in said, said)
        for age in (9 * DAY, 2 * DAY, 5 * DAY):
            os.utime(written(f"{copies}/head_office-{age}.list", []), (time.time() - age,) * 2)
        written(f"{copies}/head_office-1.dump", [])
        status, said = self.office.run("file_metrics", copies)
        (made,) = re.findall(r"^head_office_newest_copy_timestamp_seconds (\d+)$", said, re.M)
        self.holds(
            "the newest list is the newest copy", abs(int(made) - time.time() + 2 * DAY) < 600, made
        )
        self.holds("  and without a folder no certificate is", "certificate" not in said, said)
        self.ends(
            "--help prints the usage",
            0,
            r"\AUsage: file_metrics",
            self.office.run("file_metrics", "--help"),
        )
        self.ends("other words are refused", 2, "Usage", self.office.run("file_metrics"))

    def test_mails(self) -> None:
        """Show that an alert arrives although the mail server is down at first, comes again while its cause is there, and that a mail reports its end."""
        office, folder = self.office, self.office.folder
        book = office.book("NORTH", 6)
        office.load("NORTH", office.export(book))
        office.load("NORTH", book.change(2, gross=9_000))
        office.run("guard")
        exporter, alertmanager, mail, prometheus = (
            self.begin_exporter(),
            free_port(),
            free_port(),
            free_port(),
        )
        text = "".join(lines_of(f"{PROMETHEUS}/alertmanager.yaml"))
        for usual, here in (
            ("localhost:25", f"{HOST}:{mail}"),
            ("group_wait: 1m", "group_wait: 1s"),
            ("group_interval: 15m", "group_interval: 1s"),
            ("repeat_interval: 1d", "repeat_interval: 5s"),
        ):
            self.assertIn(usual, text)
            text = text.replace(usual, here)
        self.begin(
            "prometheus-alertmanager",
            f"--config.file={written(f'{folder}/alertmanager.yml', [text])}",
            *(f"--web.listen-address={HOST}:{alertmanager}", f"--storage.path={folder}/alerts"),
            "--cluster.listen-address=",
        )
        text = "".join(lines_of(f"{PROMETHEUS}/scrape.yaml"))
        for usual, here in (
            ("/usr/lib/weighbridge-head-office", PARTS),
            ("localhost:9093", f"{HOST}:{alertmanager}"),
            ("localhost:9187", f"{HOST}:{exporter}"),
            ("scrape_interval: 1m", "scrape_interval: 1s"),
        ):
            self.assertIn(usual, text)
            text = text.replace(usual, here)
        text = f"global: {{evaluation_interval: 1s, scrape_timeout: 1s}}\n{text}"
        self.begin(
            "prometheus",
            f"--config.file={written(f'{folder}/prometheus.yml', [text])}",
            *(f"--web.listen-address={HOST}:{prometheus}", f"--storage.tsdb.path={folder}/values"),
        )
        self.soon("an alert fires", lambda: "FindingOpen" in self.alerts(prometheus), 60)
        time.sleep(3)  # the first mails are refused
        mails = Mails(mail)
        self.addCleanup(mails.server_close)
        self.addCleanup(mails.shutdown)

        def of_finding(word: str) -> list[str]:
            return [it for it in mails.mails if "FindingOpen" in it and word in it]

        self.comes("it arrives once the mail server is there", lambda: of_finding("FIRING"), 120)
        first = of_finding("FIRING")[0]
        self.holds(
            "  with the bridge in its subject",
            re.search("^Subject: .*FIRING.*NORTH", first, re.M),
            first[:600],
        )
        self.comes(
            "  and again while nobody acknowledged the finding",
            lambda: len(of_finding("FIRING")) > 1,
            120,
        )
        office.told(
            "INSERT INTO head_office.acknowledgement (finding, note) SELECT finding, 'looked at' FROM head_office.open_finding"
        )
        self.comes("  and its end, once somebody did", lambda: of_finding("RESOLVED"), 100)

    def alerts(self, port: int) -> str:
        try:
            with urllib.request.urlopen(
                f"http://{HOST}:{port}/api/v1/alerts", timeout=20
            ) as answer:
                return str(answer.read(), "utf-8")
        except OSError:
            return ""
