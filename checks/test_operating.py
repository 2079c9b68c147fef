"""Shows that each command of the operators' pages (install, operating, troubleshooting, inspection) prints what the page
shows.

The pages' /dev/ttyS0 is a pseudo terminal here, into which a load is written ten times a second, and on their port 4000
a converter is played. Free ports replace 880 and 881, and folders of this repository those of the package. Blocks that
a page marks as typed by root aren't run. checks/package shows the package.
"""

import os
import threading

from checks import TOP
from checks.lib import bridge
from checks.lib.case import PROGRAM, Check
from checks.lib.page import shown


def send_loads(line: int, ended: threading.Event) -> None:
    while not ended.wait(0.1):
        os.write(line, b"9170\r\n")


class Operating(Check):
    """The commands of the pages."""

    needs = (PROGRAM, "bash", "curl", "nc", "sqlite3", "stty")
    seconds = 60

    def show(self, page: str) -> None:
        converter = self.enterContext(bridge.Converter())
        converter.start()
        line, device = os.openpty()
        ended = threading.Event()
        self.addCleanup(ended.set)
        threading.Thread(target=send_loads, args=(line, ended), daemon=True).start()
        names = {
            "tcp:127.0.0.1:4000": f"tcp:127.0.0.1:{converter.port}",
            "/dev/ttyS0": os.ttyname(device),
            "/usr/src/wellumak": str(TOP),
            "/usr/share/weighbridge/clients": f"{TOP}/clients",
            "/usr/share/weighbridge/inspect": f"{TOP}/inspect",
            "/srv/copy": "{here}/copy",
            "/srv/backup": "{here}/backup",
            "/srv/inspection": "{here}/inspection",
        }
        for where, wanted, found in shown(f"docs/{page}.md", [880, 881, 4001, 8080], names):
            self.same(where, wanted, found)

    def test_install(self) -> None:
        self.show("install")

    def test_operating(self) -> None:
        self.show("operating")

    def test_troubleshooting(self) -> None:
        self.show("troubleshooting")

    def test_inspection(self) -> None:
        self.show("inspection")
