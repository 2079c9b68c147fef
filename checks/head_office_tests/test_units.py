"""The units run the watch, the alarm, the backup and the archive. The package has all of them, and works from where it is put."""

import os
import re
import subprocess
import time

from checks import TOP
from checks.lib.books import Book
from checks.lib.case import skip_without
from checks.lib.head_office import (
    DAY,
    MADE,
    NOWHERE,
    OWNER,
    PARTS,
    READER,
    OfficeCheck,
    lines_of,
    written,
)

SCRIPTS = "upgrade load compare report haulier watch guard check alarm backup restore file_metrics"
UNITS = TOP / "packaging" / "head_office"


class Units(OfficeCheck):
    """The scripts as the timers run them."""

    needs = ("PostgreSQL", "sqitch")
    seconds = 15

    def test_watch(self) -> None:
        office, state = self.office, f"{self.office.folder}/watched"
        book = office.book("RUN", 6)
        office.load("RUN", office.export(book))
        office.load("RUN", book.change(2, gross=9_000))
        office.register("SERIAL")

        def watch(user: str = READER) -> tuple[int, str]:
            return office.run("watch", state, user=user)

        status, said = watch()
        words = ("RUN: finding ", "SERIAL: fallen silent, last loaded never")
        is_said = status == 1 and all(it in said for it in words)
        self.holds("the watch fails at what is new, and says it", is_said, said[:500])
        self.same("  and once", (0, ""), watch())
        office.load("RUN", Book("RUN9").fill(3))
        status, said = watch()
        is_one = status == 1 and said.count("\n") == 2 and "serial RUN9 is not registered" in said
        self.holds("  and at only the next thing", is_one, said)
        stranger = self.role("stranger", "")
        self.same("  and not where it can't ask", 2, watch(stranger)[0])

    def test_alarm_and_help(self) -> None:
        office, mail = self.office, f"{self.office.folder}/mail"
        text = f'#!/bin/sh\necho "$*" >{mail}\ncat >>{mail}\n'
        sendmail = written(f"{office.folder}/sendmail", [text])
        os.chmod(sendmail, 0o755)
        unit, to = "weighbridge-head-office@NORTH.service", "office@example.org"
        status, said = office.run("alarm", unit, SENDMAIL=sendmail, HEAD_OFFICE_MAIL=to)
        sent, head = "".join(lines_of(mail)), f"-t -oi\nTo: {to}\nSubject: {unit} on "
        what = "the alarm is a mail to the address that is named, by sendmail"
        self.holds(what, status == 0 and sent.startswith(head), (said, sent))
        os.remove(mail)
        for name in SCRIPTS.split():
            found = office.run(name, "--help", user=OWNER, SENDMAIL=sendmail, **NOWHERE)
            what = f"{name} --help prints its usage, and does nothing"
            self.ends(what, 0, rf"\AUsage: {name}", found)
        self.holds("  and mails none", not os.path.exists(mail))

    def test_unit_files(self) -> None:
        for unit in ("@", "-report", "-watch", "-check", "-backup", "-files"):
            name = f"weighbridge-head-office{unit}.service"
            text = (UNITS / name).read_text(encoding="utf-8")
            alarm = "\nOnFailure=weighbridge-head-office-alarm@%n.service\n"
            self.holds(f"{name} mails when it fails", alarm in text)
            if unit == "@":
                what = "the unit of a bridge loads the newest entries, and keeps its receipt"
                kept = "--receipt /var/lib/weighbridge-head-office/%i.receipt"
                self.holds(what, f"/load --newest {kept} %i " in text)
                self.holds(
                    "  in a folder of its own", "StateDirectory=weighbridge-head-office\n" in text
                )

    def test_backup(self) -> None:
        office, kept = self.office, f"{self.office.folder}/backups"
        os.mkdir(kept)
        for name in ("roles-2020.sql", "head_office-2020.dump", "head_office-2020.list", "another"):
            os.utime(written(f"{kept}/{name}", []), (time.time() - 40 * DAY,) * 2)
        status, said = office.run("backup", kept, user=OWNER)
        files = sorted(os.listdir(kept))
        old = [it for it in files if "2020" in it or it.endswith(".part")]
        what = "a backup takes the place of old ones, and leaves what is none"
        self.holds(what, status == 0 and "another" in files and not old, (files, said))
        status, said = office.run("backup", kept, user=OWNER, **NOWHERE)
        is_so = status and sorted(os.listdir(kept)) == files
        self.holds("  one that fails leaves what was there", is_so, said)

    def archived(self, source: str, name: str, *before: str) -> subprocess.CompletedProcess[str]:
        words = [*before, f"{PARTS}/archive", source, f"{self.office.folder}/{name}"]
        return subprocess.run(words, capture_output=True, text=True)

    def test_archive(self) -> None:
        log = written(f"{self.office.folder}/log", ["a log"])
        statuses = [self.archived(log, "0001").returncode for _ in range(2)]
        written(log, ["a log that continues"])
        statuses.append(self.archived(log, "0001").returncode)
        what = "a log is archived, again is as before, and another one isn't written over it"
        self.same(what, [0, 0, 1], statuses)

    @skip_without("strace")
    def test_archive_is_on_the_disk(self) -> None:
        log = written(f"{self.office.folder}/log", ["a log"])
        calls = "trace=fsync,fdatasync,rename,renameat,renameat2,sync,syncfs"
        traced = self.archived(log, "0002", "strace", "-f", "-e", calls).stderr
        what = "an archived log is on the disk before it has its name, and its folder after"
        self.holds(what, re.search(r"fsync.*rename.*fsync", traced, re.S), traced[-600:])


class Package(OfficeCheck):
    """The Debian package, unpacked into a folder."""

    needs = ("PostgreSQL", "sqitch", "dpkg-deb")
    seconds = 30

    def setUp(self) -> None:
        super().setUp()
        self.where = self.office.folder
        words = [str(TOP / "packaging" / "build_head_office"), self.where]
        built = subprocess.run(words, check=True, capture_output=True, text=True)
        self.package = built.stdout.strip()
        subprocess.run(["dpkg-deb", "-x", self.package, f"{self.where}/root"], check=True)
        self.parts = f"{self.where}/root/usr/lib/weighbridge-head-office"

    def test_schema(self) -> None:
        office = self.empty_database("packaged")
        what = "its schema is made from there, next to another in the cluster"
        self.same(what, (0, MADE), office.upgrade(parts=self.parts))

    @skip_without("lintian")
    def test_lintian(self) -> None:
        words = ["lintian", "--allow-root", self.package]
        found = subprocess.run(words, capture_output=True, text=True).stdout
        self.same("lintian has nothing to say of the package", "", found)

    @skip_without("systemd-analyze")
    def test_unit(self) -> None:
        name = "weighbridge-head-office@.service"
        text = "".join(lines_of(f"{self.where}/root/usr/lib/systemd/system/{name}"))
        text = text.replace("=/usr/lib/weighbridge-head-office/", f"={self.parts}/")
        unit = written(f"{self.where}/{name.replace('@', '@NORTH')}", [text])
        words = ["systemd-analyze", "verify", "--man=no", unit]
        said = subprocess.run(words, capture_output=True, text=True).stderr
        is_named = "weighbridge-head-office" in said.replace("weighbridge.service", "")
        self.holds("systemd accepts its unit", not is_named, said)
