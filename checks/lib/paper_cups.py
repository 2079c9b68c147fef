"""A CUPS in a folder of its own, on a port of this machine, with a queue that prints to a file.

A backend of this file writes what the filters made. CUPS's own device for files (FileDevice) opens none any more since Debian's security update
2.4.2-3+deb12u10: a job is completed, and nothing is written.
"""

import os
import shutil
import subprocess
import tempfile
from pathlib import Path

from checks.lib.bridge import HOST, Closing, free_port
from checks.lib.waiting import wait_until

FILES = """ServerRoot {folder}
ServerBin {folder}/bin
CacheDir {folder}/cache
StateDir {folder}/state
RequestRoot {folder}/spool
TempDir {folder}/spool/tmp
DocumentRoot {folder}
ErrorLog {folder}/error_log
AccessLog {folder}/access_log
PageLog {folder}/page_log
Printcap {folder}/printcap
SystemGroup root
"""
BACKEND = """#!/bin/sh
# Without arguments CUPS asks which devices there are. With five the pages come on the input, with six in a file.
case $# in
0) echo 'file made "Unknown" "A file"' ;;
6) exec cat "$6" >"${DEVICE_URI#made:}" ;;
*) exec cat >"${DEVICE_URI#made:}" ;;
esac
"""
OWN = "/usr/lib/cups"
PPD = """*PPD-Adobe: "4.3"
*FormatVersion: "4.3"
*FileVersion: "1.0"
*LanguageVersion: English
*LanguageEncoding: ISOLatin1
*PCFileName: "FILE.PPD"
*Manufacturer: "Check"
*Product: "(File)"
*ModelName: "PDF to a file"
*ShortNickName: "PDF to a file"
*NickName: "PDF to a file"
*PSVersion: "(3010.000) 0"
*LanguageLevel: "3"
*ColorDevice: False
*DefaultColorSpace: Gray
*cupsFilter: "application/vnd.cups-pdf 0 -"
*OpenUI *PageSize/Media Size: PickOne
*DefaultPageSize: A4
*PageSize A4/A4: "<</PageSize[595 842]>>setpagedevice"
*PageSize A5/A5: "<</PageSize[420 595]>>setpagedevice"
*CloseUI: *PageSize
*OpenUI *PageRegion: PickOne
*DefaultPageRegion: A4
*PageRegion A4/A4: "<</PageSize[595 842]>>setpagedevice"
*PageRegion A5/A5: "<</PageSize[420 595]>>setpagedevice"
*CloseUI: *PageRegion
*DefaultImageableArea: A4
*ImageableArea A4/A4: "0 0 595 842"
*ImageableArea A5/A5: "0 0 420 595"
*DefaultPaperDimension: A4
*PaperDimension A4/A4: "595 842"
*PaperDimension A5/A5: "420 595"
*VariablePaperSize: True
*LeadingEdge Short: ""
*DefaultLeadingEdge: Short
*MaxMediaWidth: "1000"
*MaxMediaHeight: "5000"
*HWMargins: 0 0 0 0
*CustomPageSize True: "pop pop pop <</PageSize[5 -2 roll]>>setpagedevice"
*ParamCustomPageSize Width: 1 points 36 1000
*ParamCustomPageSize Height: 2 points 36 5000
*ParamCustomPageSize WidthOffset: 3 points 0 0
*ParamCustomPageSize HeightOffset: 4 points 0 0
*ParamCustomPageSize Orientation: 5 int 0 3
"""
SETUP = """Listen {host}:{port}
LogLevel info
Browsing Off
PreserveJobFiles No
WebInterface No
DefaultAuthType None
JobRetryInterval 1
<Location />
  Order allow,deny
  Allow localhost
</Location>
<Policy default>
  JobPrivateAccess all
  JobPrivateValues none
  <Limit All>
    Order deny,allow
  </Limit>
</Policy>
"""


class Cups(Closing):
    """A scheduler that runs until it is closed."""

    def __init__(self) -> None:
        self.folder, self.port = tempfile.mkdtemp(prefix="cups-"), free_port()
        self.address, self.made = f"{HOST}:{self.port}", f"{self.folder}/made"
        os.chmod(self.folder, 0o755)
        for name in ("cache", "state", "spool", "spool/tmp", "ppd"):
            os.makedirs(f"{self.folder}/{name}")
        self.programs()
        for name, text in (
            ("cups-files.conf", FILES.format(folder=self.folder)),
            ("cupsd.conf", SETUP.format(host=HOST, port=self.port)),
            ("file.ppd", PPD),
        ):
            Path(self.folder, name).write_text(text, encoding="ascii")
        self.start()

    def programs(self) -> None:
        """Take over CUPS's own filters and the like, and give it the one backend. One that others may not run is run as root."""
        os.makedirs(f"{self.folder}/bin/backend")
        for name in set(os.listdir(OWN)) - {"backend"}:
            os.symlink(f"{OWN}/{name}", f"{self.folder}/bin/{name}")
        backend = Path(self.folder, "bin/backend/made")
        backend.write_text(BACKEND, encoding="ascii")
        backend.chmod(0o700)

    def start(self) -> None:
        files = ["-c", f"{self.folder}/cupsd.conf", "-s", f"{self.folder}/cups-files.conf"]
        quiet = subprocess.DEVNULL
        words = ["cupsd", "-f", *files]
        self.scheduler = subprocess.Popen(words, stdin=quiet, stdout=quiet, stderr=quiet)

        def is_running() -> bool:
            return self.tell("lpstat", "-r").startswith("scheduler is running")

        wait_until("cupsd is running", is_running, pause=0.1)

    def tell(self, program: str, *words: str) -> str:
        command, of_c = [program, "-h", self.address, *words], {**os.environ, "LC_ALL": "C"}
        return subprocess.run(command, capture_output=True, text=True, env=of_c).stdout

    def queue(self, name: str) -> None:
        """Make a queue that prints into a file, through the filters of the distribution."""
        file = ("-P", f"{self.folder}/file.ppd")
        self.tell("lpadmin", "-p", name, "-E", "-v", f"made:{self.made}", *file)

    def stop(self) -> None:
        self.scheduler.terminate()
        self.scheduler.wait()

    def close(self) -> None:
        self.stop()
        shutil.rmtree(self.folder, ignore_errors=True)
